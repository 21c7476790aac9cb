//! Columns of a real file: drop-frame labels and byte offsets.

use chowderyard::{Coder, Coder0124, Coder1234, Coder1248, Tightness};
use std::path::Path;

fn column(name: &str) -> Vec<u8> {
    let path = Path::new(env!("CARGO_MANIFEST_DIR"))
        .join("../../tests/real")
        .join(name);
    std::fs::read(path).expect("the column is there")
}

fn labels() -> Vec<u32> {
    let number = |b: &[u8]| u32::from_le_bytes(b.try_into().unwrap());
    column("cross10.labels.u32").chunks(4).map(number).collect()
}

fn offsets() -> Vec<u64> {
    let number = |b: &[u8]| u64::from_le_bytes(b.try_into().unwrap());
    column("cross10.offsets.u64")
        .chunks(8)
        .map(number)
        .collect()
}

/// Packs the steps, unpacks them, and seeks some values by skipping. Gives the bytes of data.
fn packs<C: Coder>(
    start: C::Elem,
    values: &[C::Elem],
    add: fn(C::Elem, C::Elem) -> C::Elem,
) -> usize {
    let coder = C::new();
    let (groups, room) = C::max_compressed_bytes(values.len());
    let (mut tags, mut data) = (vec![0; groups], vec![0; room]);
    let written = coder
        .encode_deltas(start, values, &mut tags, &mut data)
        .unwrap();
    data.truncate(written);
    assert_eq!(coder.tightness(&tags, &data), Ok(Tightness::Tight));

    let mut back = vec![C::Elem::default(); values.len()];
    assert_eq!(
        coder.decode_deltas(start, &tags, &data, &mut back),
        Ok(written)
    );
    assert!(back == values);

    for index in (0..values.len()).step_by(977) {
        let group = index / 4;
        let (at, sum) = coder.skip_deltas(&tags[..group], &data).unwrap();
        assert_eq!(coder.data_len(&tags[..group]), Ok(at));
        let mut four = [C::Elem::default(); 4];
        coder
            .decode_deltas(
                add(start, sum),
                &tags[group..=group],
                &data[at..],
                &mut four,
            )
            .unwrap();
        assert_eq!(four[index % 4], values[index]);
    }
    written
}

#[test]
fn labels_take_a_byte_each() {
    let labels = labels();
    assert_eq!(labels.len(), 21_696);
    assert_eq!(
        packs::<Coder0124>(104_399, &labels, u32::wrapping_add),
        labels.len()
    );
    assert_eq!(
        packs::<Coder1234>(104_399, &labels, u32::wrapping_add),
        labels.len()
    );
}

#[test]
fn offsets_take_two_bytes_each() {
    let offsets = offsets();
    assert_eq!(offsets.len(), 21_696);
    assert_eq!(
        packs::<Coder1248>(0, &offsets, u64::wrapping_add),
        2 * offsets.len()
    );
}
