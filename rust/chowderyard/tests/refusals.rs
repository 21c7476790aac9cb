//! Every number that each call refuses with, in the order of the numbers; and that a refusal alters no buffer.

use chowderyard::{Coder, Coder0124, Coder1234, Coder1248, Refusal, GROUP_LIMIT};
use std::mem::size_of;

const FILL: u8 = 0xA5;

/// Both encoding calls on `n` values, with this room.
fn encoding<C: Coder>(n: usize, tags_len: usize, data_len: usize) -> Result<usize, Refusal> {
    let coder = C::new();
    let values = vec![C::Elem::default(); n];
    let mut answers = Vec::new();
    for deltas in [false, true] {
        let mut tags = vec![FILL; tags_len];
        let mut data = vec![FILL; data_len];
        let answer = if deltas {
            coder.encode_deltas(C::Elem::default(), &values, &mut tags, &mut data)
        } else {
            coder.encode(&values, &mut tags, &mut data)
        };
        if answer.is_err() {
            assert!(tags.iter().chain(&data).all(|b| *b == FILL));
        }
        answers.push(answer);
    }
    assert_eq!(answers[0], answers[1]);
    answers[0]
}

/// Both decoding calls, filling `n` values.
fn decoding<C: Coder>(tags: &[u8], data: &[u8], n: usize) -> Result<usize, Refusal> {
    let coder = C::new();
    let before = C::Elem::try_from(0xA5A5).ok().expect("it fits");
    let mut answers = Vec::new();
    for deltas in [false, true] {
        let mut values = vec![before; n];
        let answer = if deltas {
            coder.decode_deltas(before, tags, data, &mut values)
        } else {
            coder.decode(tags, data, &mut values)
        };
        if answer.is_err() {
            assert!(values.iter().all(|v| *v == before));
        }
        answers.push(answer);
    }
    assert_eq!(answers[0], answers[1]);
    answers[0]
}

fn encoding_refusals<C: Coder>(written: usize) {
    let widest = 4 * size_of::<C::Elem>();
    assert_eq!(
        encoding::<C>(3, 8, 8 * widest),
        Err(Refusal::NotFours { values: 3 })
    );
    assert_eq!(
        encoding::<C>(5, 8, 8 * widest),
        Err(Refusal::NotFours { values: 5 })
    );
    // 1 comes before 3 and 4
    assert_eq!(encoding::<C>(3, 0, 0), Err(Refusal::NotFours { values: 3 }));
    let few = Refusal::FewTags { tags: 1, groups: 2 };
    assert_eq!(encoding::<C>(8, 1, 2 * widest), Err(few));
    // 3 comes before 4
    assert_eq!(encoding::<C>(8, 1, 0), Err(few));
    let little = Refusal::LittleRoom {
        bytes: 2 * widest - 1,
        needed: 2 * widest,
    };
    assert_eq!(encoding::<C>(8, 2, 2 * widest - 1), Err(little));
    assert_eq!(encoding::<C>(8, 2, 2 * widest), Ok(2 * written));
    assert_eq!(encoding::<C>(0, 0, 0), Ok(0));
}

fn decoding_refusals<C: Coder>() {
    let coder = C::new();
    let tags = [0xE4, 0xE4];
    let needed = coder.data_len(&tags).unwrap();
    let data = vec![1; needed + 1];
    assert_eq!(
        decoding::<C>(&tags, &data, 3),
        Err(Refusal::NotFours { values: 3 })
    );
    // 5, and before 6
    for held in [&data[..], &[]] {
        assert_eq!(
            decoding::<C>(&tags, held, 4),
            Err(Refusal::OtherTags { tags: 2, groups: 1 })
        );
        assert_eq!(
            decoding::<C>(&[], held, 4),
            Err(Refusal::OtherTags { tags: 0, groups: 1 })
        );
    }
    for bytes in 0..needed {
        let missing = Refusal::MissingData { bytes, needed };
        assert_eq!(decoding::<C>(&tags, &data[..bytes], 8), Err(missing));
        assert_eq!(coder.skip_deltas(&tags, &data[..bytes]), Err(missing));
        assert_eq!(coder.tightness(&tags, &data[..bytes]), Err(missing));
    }
    assert_eq!(decoding::<C>(&tags, &data[..needed], 8), Ok(needed));
    assert_eq!(decoding::<C>(&tags, &data, 8), Ok(needed));
}

/// One group more than the limit. Nothing reads the big buffers, so no memory stands behind their zeros.
fn limit_refusals<C: Coder>() {
    let coder = C::new();
    let groups = GROUP_LIMIT + 1;
    let too_many = Refusal::TooManyGroups { groups };
    let mut values = vec![C::Elem::default(); 4 * groups];
    let tags = vec![0; groups];
    let (mut few_tags, mut few_data) = ([FILL; 4], [FILL; 4]);
    assert_eq!(
        coder.encode(&values, &mut few_tags, &mut few_data),
        Err(too_many)
    );
    assert_eq!(
        coder.encode_deltas(C::Elem::default(), &values, &mut few_tags, &mut few_data),
        Err(too_many)
    );
    assert_eq!((few_tags, few_data), ([FILL; 4], [FILL; 4]));
    assert_eq!(
        coder.decode(&few_tags, &few_data, &mut values),
        Err(too_many)
    );
    assert_eq!(
        coder.decode_deltas(C::Elem::default(), &few_tags, &few_data, &mut values),
        Err(too_many)
    );
    // by the tags
    assert_eq!(decoding::<C>(&tags, &few_data, 4), Err(too_many));
    assert_eq!(coder.data_len(&tags), Err(too_many));
    assert_eq!(coder.skip_deltas(&tags, &few_data), Err(too_many));
    assert_eq!(coder.tightness(&tags, &few_data), Err(too_many));
    let each = coder.data_len(&[0]).unwrap();
    assert_eq!(coder.data_len(&tags[1..]), Ok(each * GROUP_LIMIT));
    // 1 comes before 2
    values.pop();
    assert_eq!(
        coder.encode(&values, &mut few_tags, &mut few_data),
        Err(Refusal::NotFours {
            values: 4 * groups - 1
        })
    );
}

#[test]
fn encoding_1234() {
    encoding_refusals::<Coder1234>(4);
}

#[test]
fn encoding_0124() {
    encoding_refusals::<Coder0124>(0);
}

#[test]
fn encoding_1248() {
    encoding_refusals::<Coder1248>(4);
}

#[test]
fn decoding_1234() {
    decoding_refusals::<Coder1234>();
}

#[test]
fn decoding_0124() {
    decoding_refusals::<Coder0124>();
}

#[test]
fn decoding_1248() {
    decoding_refusals::<Coder1248>();
}

#[test]
fn the_limit_1234() {
    limit_refusals::<Coder1234>();
}

#[test]
fn the_limit_0124() {
    limit_refusals::<Coder0124>();
}

#[test]
fn the_limit_1248() {
    limit_refusals::<Coder1248>();
}

#[test]
fn each_refusal_has_its_number_its_name_and_what_to_do() {
    let all = [
        (
            Refusal::NotFours { values: 5 },
            "refused with 1 (not fours): 5 values are not a multiple of 4; add 3 or leave out 1, \
             and keep the true count beside the column",
        ),
        (
            Refusal::TooManyGroups { groups: 16_777_217 },
            "refused with 2 (too many groups): 16777217 groups are more than 16777216; \
             cut the column and pack the parts",
        ),
        (
            Refusal::FewTags { tags: 1, groups: 2 },
            "refused with 3 (few tags): 1 tag byte for 2 groups; lend a tag byte for each group",
        ),
        (
            Refusal::LittleRoom {
                bytes: 15,
                needed: 16,
            },
            "refused with 4 (little room): room for 15 data bytes, and 16 must be lent even where fewer are written; \
             ask max_compressed_bytes",
        ),
        (
            Refusal::OtherTags { tags: 2, groups: 1 },
            "refused with 5 (other tags): 2 tags for 1 group of values; \
             the tags are of another column, or values were added or lost",
        ),
        (
            Refusal::MissingData {
                bytes: 6,
                needed: 7,
            },
            "refused with 6 (missing data): the tags call for 7 data bytes and 6 are there, 1 too few; \
             the data was cut, or the tags are of another column or coder",
        ),
        (
            Refusal::TailOverrun,
            "refused with 7 (tail overrun): the last groups take more bytes than were copied for them; \
             report this with the tags and the data",
        ),
    ];
    for (i, (refusal, text)) in all.iter().enumerate() {
        assert_eq!(usize::from(refusal.number()), i + 1);
        assert_eq!(refusal.to_string(), *text);
        assert!(text.contains(refusal.name()));
        assert!(text.ends_with(&refusal.reason().to_string()));
    }
    let other: Box<dyn std::error::Error> = Box::new(Refusal::Unknown { number: 9 });
    assert!(other.to_string().starts_with("refused with 9 (unknown): "));
}
