//! Seeded inputs: columns of values, and pairs of tags and data.

use crate::layout::{Elem, Layout};
use crate::plain::{total, Plain};
use crate::random::Random;
use crate::request::{perform, Call, Request};

pub const MOST_GROUPS: usize = 40;
/// Of the long cases.
pub const LONG_GROUPS: usize = 200;
pub const MOST_EXTRA: usize = 40;

/// The numbers around which widths change, and the ends of the number types.
pub const BOUNDARIES: [u64; 11] =
    [0, 1, 255, 256, 65_535, 65_536, 16_777_215, 16_777_216, 0xffff_ffff, 0x1_0000_0000, u64::MAX];

fn any<E: Elem>(r: &mut Random) -> E {
    E::from_u64(r.next())
}

/// A boundary that the number type holds.
fn boundary<E: Elem>(r: &mut Random) -> E {
    let fit = if E::SIZE == 4 { 9 } else { BOUNDARIES.len() };
    E::from_u64(BOUNDARIES[r.below(fit as u64) as usize])
}

/// A boundary, one less or one more, wrapping.
fn near<E: Elem>(r: &mut Random) -> E {
    let b: E = boundary(r);
    E::from_u64(b.to_u64().wrapping_add(r.below(3)).wrapping_sub(1))
}

/// A number whose shortest field is picked evenly of the four.
fn of_any_width<L: Layout>(r: &mut Random) -> L::Elem {
    let f = r.below(4) as usize;
    let below = |w: usize| 1u128 << (8 * w);
    let least = if f == 0 { 0 } else { below(L::WIDTHS[f - 1]) };
    let span = below(L::WIDTHS[f]) - least;
    L::Elem::from_u64((least + (r.next() as u128 * span >> 64)) as u64)
}

pub const STYLES: u64 = 10;

/// A start and `4 * groups` values.
pub fn column<L: Layout>(r: &mut Random, groups: usize) -> (L::Elem, Vec<L::Elem>) {
    let style = r.below(STYLES);
    let start: L::Elem = match r.below(4) {
        0 => L::Elem::from_u64(0),
        1 => boundary(r),
        2 => near(r),
        _ => any(r),
    };
    let fixed: L::Elem = near(r);
    let mut last = start;
    let values = (0..4 * groups)
        .map(|_| {
            let v = match style {
                // every width; every boundary and its neighbours; anything
                0 => of_any_width::<L>(r),
                1 => boundary(r),
                2 => near(r),
                3 => any(r),
                // steps of 0 to 3; of -2 to 2, so that some wrap
                4 => last.add(L::Elem::from_u64(r.below(4))),
                5 => last.add(L::Elem::from_u64(r.below(5))).sub(L::Elem::from_u64(2)),
                // steps of every width; of every boundary
                6 => last.add(of_any_width::<L>(r)),
                7 => last.add(boundary(r)),
                // one number all the time; zeros with some other number now and then
                8 => fixed,
                _ if r.below(5) == 0 => any(r),
                _ => L::Elem::from_u64(0),
            };
            last = v;
            v
        })
        .collect();
    (start, values)
}

/// What the buffers hold before a call: never all zero, so that a stored zero shows.
pub fn held(r: &mut Random, n: usize) -> Vec<u8> {
    (0..n).map(|_| (r.next() % 255) as u8 + 1).collect()
}

pub fn held_values<E: Elem>(r: &mut Random, n: usize) -> Vec<E> {
    (0..n).map(|_| any(r)).collect()
}

/// Tags of any kind with data for them: often zeros in it, so that fields are wider than needed.
pub fn pair<L: Layout>(r: &mut Random, groups: usize, forced: u8) -> (Vec<u8>, Vec<u8>) {
    let mut tags = match r.below(4) {
        0 => vec![forced; groups],
        1 => (0..groups).map(|_| r.pick(&[0x00, 0x55, 0xaa, 0xff])).collect(),
        _ => r.bytes(groups),
    };
    if groups > 0 {
        let at = r.below(groups as u64) as usize;
        tags[at] = forced;
    }
    let n = total::<L>(&tags);
    let zeros = r.below(5);
    let data = (0..n).map(|_| if r.below(4) < zeros { 0 } else { r.next() as u8 }).collect();
    (tags, data)
}

/// The tight pair of a column, by the plain model.
pub fn packed<L: Layout>(call: Call, start: L::Elem, values: &[L::Elem]) -> (Vec<u8>, Vec<u8>) {
    let groups = values.len() / 4;
    let mut tags = vec![0; groups];
    let mut data = vec![0; L::GROUP * groups];
    let mut lent = values.to_vec();
    perform::<L, Plain>(call, start, &mut lent, &mut tags, &mut data);
    let n = total::<L>(&tags);
    data.truncate(n);
    (tags, data)
}

/// A copy with something cut, put in, flipped or swapped.
pub fn damaged(r: &mut Random, tags: &[u8], data: &[u8]) -> (Vec<u8>, Vec<u8>) {
    let (mut tags, mut data) = (tags.to_vec(), data.to_vec());
    for _ in 0..1 + r.below(3) {
        let of_tags = r.below(2) == 0;
        let (t, d) = (&mut tags, &mut data);
        let buffer = if of_tags { t } else { d };
        let n = buffer.len();
        match r.below(6) {
            0 => buffer.truncate(r.below(n as u64 + 1) as usize),
            1 if n > 0 => buffer.truncate(n - 1),
            2 => {
                let more = 1 + r.below(if of_tags { 3 } else { 40 }) as usize;
                let bytes = r.bytes(more);
                buffer.extend(bytes);
            }
            3 if n > 0 => {
                let at = r.below(n as u64) as usize;
                buffer.remove(at);
            }
            4 if n > 1 => {
                let (a, b) = (r.below(n as u64) as usize, r.below(n as u64) as usize);
                buffer.swap(a, b);
            }
            _ if n > 0 => {
                let at = r.below(n as u64) as usize;
                buffer[at] ^= 1 << r.below(8);
            }
            _ => {}
        }
    }
    (tags, data)
}

/// Buffers whose counts do not fit each other: around every row of the refusal table.
pub fn misfit<L: Layout>(r: &mut Random, groups: usize) -> Request<L::Elem> {
    let around = |r: &mut Random, n: usize| match r.below(6) {
        0 => n.saturating_sub(1),
        1 => n + 1,
        2 => r.below(n as u64 + 1) as usize,
        3 => 0,
        _ => n,
    };
    let call = r.pick(&Call::ALL[..6]);
    let count = match r.below(3) {
        0 => 4 * groups + 1 + r.below(3) as usize,
        _ => 4 * groups,
    };
    let tags_n = around(r, groups);
    let start = any(r);
    let (tags, data_n) = if call.encodes() {
        (held(r, tags_n), around(r, L::GROUP * groups))
    } else {
        let tags = r.bytes(tags_n);
        let n = total::<L>(&tags);
        (tags, around(r, n))
    };
    let data = held(r, data_n);
    let values = if call.encodes() || call.decodes() { held_values(r, count) } else { Vec::new() };
    let data = if call == Call::DataLen { Vec::new() } else { data };
    Request { call, start, values, tags, data }
}
