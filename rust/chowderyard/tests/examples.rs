//! The examples of the packed form, through every method of every coder.

use chowderyard::{Coder, Coder0124, Coder1234, Coder1248, Tightness};

/// What a buffer holds before a call.
const FILL: u8 = 0xA5;

/// One column of whole groups.
struct Column<'a, E> {
    /// By steps from this, or plain.
    start: Option<E>,
    values: &'a [E],
    tags: &'a [u8],
    data: &'a [u8],
    sum: E,
}

/// Encodes the column, decodes it again, measures, skips and tests it.
fn runs<C: Coder>(column: Column<C::Elem>) {
    let coder = C::new();
    let Column {
        start,
        values,
        tags,
        data,
        sum,
    } = column;
    let (groups, room) = C::max_compressed_bytes(values.len());
    assert_eq!(groups, tags.len());

    let mut made_tags = vec![FILL; groups + 2];
    let mut made_data = vec![FILL; room + 3];
    let written = match start {
        Some(start) => coder.encode_deltas(start, values, &mut made_tags, &mut made_data),
        None => coder.encode(values, &mut made_tags, &mut made_data),
    };
    assert_eq!(written, Ok(data.len()));
    assert_eq!(&made_tags[..groups], tags);
    assert_eq!(&made_data[..data.len()], data);
    assert!(made_tags[groups..].iter().all(|b| *b == FILL));
    assert!(made_data[data.len()..].iter().all(|b| *b == FILL));

    for behind in [0, 1, 40] {
        let mut longer = data.to_vec();
        longer.resize(data.len() + behind, FILL);
        let mut got = vec![C::Elem::default(); values.len()];
        let read = match start {
            Some(start) => coder.decode_deltas(start, tags, &longer, &mut got),
            None => coder.decode(tags, &longer, &mut got),
        };
        assert_eq!(read, Ok(data.len()));
        assert_eq!(got, values);
        assert_eq!(coder.skip_deltas(tags, &longer), Ok((data.len(), sum)));
        assert_eq!(coder.tightness(tags, &longer), Ok(Tightness::Tight));
    }
    assert_eq!(coder.data_len(tags), Ok(data.len()));
}

#[test]
fn steps_in_width_1234() {
    runs::<Coder1234>(Column {
        start: None,
        values: &[0, 255, 256, 65536],
        tags: &[0x90],
        data: &[0x00, 0xFF, 0x00, 0x01, 0x00, 0x00, 0x01],
        sum: 66047,
    });
}

#[test]
fn steps_in_width_0124() {
    runs::<Coder0124>(Column {
        start: None,
        values: &[0, 255, 256, 65536],
        tags: &[0xE4],
        data: &[0xFF, 0x00, 0x01, 0x00, 0x00, 0x01, 0x00],
        sum: 66047,
    });
}

#[test]
fn steps_in_width_1248() {
    runs::<Coder1248>(Column {
        start: None,
        values: &[0, 256, 65536, 1 << 32],
        tags: &[0xE4],
        data: &[0, 0, 1, 0, 0, 1, 0, 0, 0, 0, 0, 1, 0, 0, 0],
        sum: (1 << 32) + 65536 + 256,
    });
}

#[test]
fn drop_frame_minute_change() {
    runs::<Coder0124>(Column {
        start: Some(1798),
        values: &[1799, 1802, 1803, 1804],
        tags: &[0x55],
        data: &[1, 3, 1, 1],
        sum: 6,
    });
}

#[test]
fn a_step_backwards_wraps() {
    runs::<Coder0124>(Column {
        start: Some(5),
        values: &[4, 4, 4, 4],
        tags: &[0x03],
        data: &[0xFF; 4],
        sum: u32::MAX,
    });
    runs::<Coder1234>(Column {
        start: Some(5),
        values: &[4, 4, 4, 4],
        tags: &[0x03],
        data: &[0xFF, 0xFF, 0xFF, 0xFF, 0, 0, 0],
        sum: u32::MAX,
    });
    runs::<Coder1248>(Column {
        start: Some(5),
        values: &[4, 4, 4, 4],
        tags: &[0x03],
        data: &[0xFF, 0xFF, 0xFF, 0xFF, 0xFF, 0xFF, 0xFF, 0xFF, 0, 0, 0],
        sum: u64::MAX,
    });
}

#[test]
fn four_zeros_take_no_data() {
    runs::<Coder0124>(Column {
        start: None,
        values: &[0; 4],
        tags: &[0x00],
        data: &[],
        sum: 0,
    });
}

fn no_values<C: Coder>() {
    for start in [None, Some(C::Elem::default())] {
        runs::<C>(Column {
            start,
            values: &[],
            tags: &[],
            data: &[],
            sum: C::Elem::default(),
        });
    }
}

#[test]
fn a_column_of_no_values() {
    no_values::<Coder1234>();
    no_values::<Coder0124>();
    no_values::<Coder1248>();
}

#[test]
fn lengths_of_tags() {
    for (tag, lengths) in [(0xE4, [10, 7, 15]), (0xFF, [16, 16, 32]), (0x00, [4, 0, 4])] {
        assert_eq!(Coder1234::new().data_len(&[tag]), Ok(lengths[0]));
        assert_eq!(Coder0124::new().data_len(&[tag]), Ok(lengths[1]));
        assert_eq!(Coder1248::new().data_len(&[tag]), Ok(lengths[2]));
    }
}

#[test]
fn wider_than_needed_is_read_and_is_loose() {
    let data = [5, 0, 0, 0, 5, 0, 0, 0, 5, 0, 0, 0, 5, 0, 0, 0];
    let mut values = [0; 4];
    assert_eq!(Coder1234::new().decode(&[0xFF], &data, &mut values), Ok(16));
    assert_eq!(values, [5; 4]);
    let first = Ok(Tightness::Loose {
        group: 0,
        position: 0,
    });
    assert_eq!(Coder1234::new().tightness(&[0xFF], &data), first);
    // a zero that takes a byte, in the third group
    let later = Ok(Tightness::Loose {
        group: 2,
        position: 1,
    });
    assert_eq!(
        Coder0124::new().tightness(&[0x00, 0x01, 0x04], &[9, 0]),
        later
    );
    // eight bytes for a number of four
    let last = Ok(Tightness::Loose {
        group: 0,
        position: 3,
    });
    assert_eq!(
        Coder1248::new().tightness(&[0xC0], &[1, 2, 3, 0xFF, 0xFF, 0xFF, 0xFF, 0, 0, 0, 0]),
        last
    );
}

#[test]
fn room_for_the_widest() {
    assert_eq!(Coder1234::max_compressed_bytes(0), (0, 0));
    assert_eq!(Coder1234::max_compressed_bytes(4), (1, 16));
    assert_eq!(Coder0124::max_compressed_bytes(5), (2, 32));
    assert_eq!(Coder1248::max_compressed_bytes(8), (2, 64));
    assert_eq!(
        Coder1248::max_compressed_bytes(usize::MAX),
        (usize::MAX / 4 + 1, usize::MAX)
    );
}
