//! The port, through its C boundary: a slice is a pointer and a length, the answer comes by value.

use crate::declarations::*;
use crate::engine::{Engine, Outcome, Tightness};
use crate::layout::Layout;

/// The seven functions of one coder.
pub struct Calls<E> {
    encode: unsafe extern "C" fn(*const E, usize, *mut u8, usize, *mut u8, usize) -> Answer,
    encode_deltas: unsafe extern "C" fn(E, *const E, usize, *mut u8, usize, *mut u8, usize) -> Answer,
    decode: unsafe extern "C" fn(*const u8, usize, *const u8, usize, *mut E, usize) -> Answer,
    decode_deltas: unsafe extern "C" fn(E, *const u8, usize, *const u8, usize, *mut E, usize) -> Answer,
    data_len: unsafe extern "C" fn(*const u8, usize) -> Answer,
    skip_deltas: unsafe extern "C" fn(*const u8, usize, *const u8, usize) -> Answer,
    tightness: unsafe extern "C" fn(*const u8, usize, *const u8, usize) -> TightnessAnswer,
}

macro_rules! calls {
    ($name:ident, $elem:ty, $encode:ident, $encode_deltas:ident, $decode:ident,
     $decode_deltas:ident, $data_len:ident, $skip_deltas:ident, $tightness:ident) => {
        pub const $name: Calls<$elem> = Calls {
            encode: $encode,
            encode_deltas: $encode_deltas,
            decode: $decode,
            decode_deltas: $decode_deltas,
            data_len: $data_len,
            skip_deltas: $skip_deltas,
            tightness: $tightness,
        };
    };
}

calls!(
    CALLS_1234,
    u32,
    chowder_encode_1234,
    chowder_encode_deltas_1234,
    chowder_decode_1234,
    chowder_decode_deltas_1234,
    chowder_data_len_1234,
    chowder_skip_deltas_1234,
    chowder_tightness_1234
);
calls!(
    CALLS_0124,
    u32,
    chowder_encode_0124,
    chowder_encode_deltas_0124,
    chowder_decode_0124,
    chowder_decode_deltas_0124,
    chowder_data_len_0124,
    chowder_skip_deltas_0124,
    chowder_tightness_0124
);
calls!(
    CALLS_1248,
    u64,
    chowder_encode_1248,
    chowder_encode_deltas_1248,
    chowder_decode_1248,
    chowder_decode_deltas_1248,
    chowder_data_len_1248,
    chowder_skip_deltas_1248,
    chowder_tightness_1248
);

/// A refusal must come with count 0 and sum 0; anything else is shown as number 255.
fn outcome(a: Answer) -> Outcome {
    match a.number {
        0 => Outcome::Done { count: a.count, sum: a.sum },
        n if a.count == 0 && a.sum == 0 => Outcome::Refused(n),
        _ => Outcome::Refused(255),
    }
}

pub struct Port;

impl Engine for Port {
    const NAME: &'static str = "port";

    fn encode<L: Layout>(
        start: Option<L::Elem>,
        values: &[L::Elem],
        tags: &mut [u8],
        data: &mut [u8],
    ) -> Outcome {
        let (v, vn) = (values.as_ptr(), values.len());
        let (t, tn) = (tags.as_mut_ptr(), tags.len());
        let (d, dn) = (data.as_mut_ptr(), data.len());
        outcome(unsafe {
            match start {
                Some(s) => (L::PORT.encode_deltas)(s, v, vn, t, tn, d, dn),
                None => (L::PORT.encode)(v, vn, t, tn, d, dn),
            }
        })
    }

    fn decode<L: Layout>(
        start: Option<L::Elem>,
        tags: &[u8],
        data: &[u8],
        values: &mut [L::Elem],
    ) -> Outcome {
        let (t, tn) = (tags.as_ptr(), tags.len());
        let (d, dn) = (data.as_ptr(), data.len());
        let (v, vn) = (values.as_mut_ptr(), values.len());
        outcome(unsafe {
            match start {
                Some(s) => (L::PORT.decode_deltas)(s, t, tn, d, dn, v, vn),
                None => (L::PORT.decode)(t, tn, d, dn, v, vn),
            }
        })
    }

    fn data_len<L: Layout>(tags: &[u8]) -> Outcome {
        outcome(unsafe { (L::PORT.data_len)(tags.as_ptr(), tags.len()) })
    }

    fn skip_deltas<L: Layout>(tags: &[u8], data: &[u8]) -> Outcome {
        outcome(unsafe { (L::PORT.skip_deltas)(tags.as_ptr(), tags.len(), data.as_ptr(), data.len()) })
    }

    fn tightness<L: Layout>(tags: &[u8], data: &[u8]) -> Option<Tightness> {
        let a = unsafe { (L::PORT.tightness)(tags.as_ptr(), tags.len(), data.as_ptr(), data.len()) };
        // Fields that an outcome does not use must be 0; anything else is shown as number 255.
        Some(match (a.number, a.loose) {
            (0, 0) if a.group == 0 && a.position == 0 => Tightness::Tight,
            (0, 1) => Tightness::Loose { group: a.group, position: a.position },
            (n, 0) if n != 0 && a.group == 0 && a.position == 0 => Tightness::Refused(n),
            _ => Tightness::Refused(255),
        })
    }
}
