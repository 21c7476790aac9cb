//! The C library streamvbyte (Debian's libstreamvbyte-dev): its decoders. Tags and data stand in one buffer there, and nothing is checked.

use crate::layout::Layout;

extern "C" {
    fn streamvbyte_decode(packed: *const u8, values: *mut u32, count: u32) -> usize;
    fn streamvbyte_decode_0124(packed: *const u8, values: *mut u32, count: u32) -> usize;
    fn streamvbyte_delta_decode(packed: *const u8, values: *mut u32, count: u32, before: u32) -> usize;
}

/// The decoder for a coder, plain or with deltas from 0: 1234 has both, 0124 the plain one, 1248 none.
pub fn decoder<L: Layout>(deltas: bool) -> Option<Decoder> {
    match (L::NAME, deltas) {
        ("1234", false) => Some(|p, v, n| unsafe { streamvbyte_decode(p, v, n) }),
        ("1234", true) => Some(|p, v, n| unsafe { streamvbyte_delta_decode(p, v, n, 0) }),
        ("0124", false) => Some(|p, v, n| unsafe { streamvbyte_decode_0124(p, v, n) }),
        _ => None,
    }
}

/// Takes the packed column, room for the values, and their count; says how many bytes it read. The column must be whole: it is not looked at.
pub type Decoder = fn(*const u8, *mut u32, u32) -> usize;
