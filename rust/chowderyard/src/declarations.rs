//! The one Rust declaration of the library's C functions; `include/chowderyard.h` is C's. `tests/declarations.rs` compares
//! both with the Rattle source. The oracle's driver is built with a copy of this file (`oracle/build`), so it uses no other
//! file of the package.

#[repr(C)]
#[derive(Clone, Copy)]
pub struct Answer {
    pub number: u8,
    pub count: u64,
    pub sum: u64,
}

#[repr(C)]
#[derive(Clone, Copy)]
pub struct TightnessAnswer {
    pub number: u8,
    pub loose: u8,
    pub group: u64,
    pub position: u8,
}

/// The functions of one coder: a slice goes over as its pointer and its length.
macro_rules! declare {
    (
        $elem:ty,
        $encode:ident, $encode_deltas:ident, $decode:ident, $decode_deltas:ident,
        $data_len:ident, $skip_deltas:ident, $tightness:ident
    ) => {
        extern "C" {
            pub fn $encode(
                values: *const $elem,
                values_len: usize,
                tags: *mut u8,
                tags_len: usize,
                data: *mut u8,
                data_len: usize,
            ) -> Answer;
            pub fn $encode_deltas(
                start: $elem,
                values: *const $elem,
                values_len: usize,
                tags: *mut u8,
                tags_len: usize,
                data: *mut u8,
                data_len: usize,
            ) -> Answer;
            pub fn $decode(
                tags: *const u8,
                tags_len: usize,
                data: *const u8,
                data_len: usize,
                values: *mut $elem,
                values_len: usize,
            ) -> Answer;
            pub fn $decode_deltas(
                start: $elem,
                tags: *const u8,
                tags_len: usize,
                data: *const u8,
                data_len: usize,
                values: *mut $elem,
                values_len: usize,
            ) -> Answer;
            pub fn $data_len(tags: *const u8, tags_len: usize) -> Answer;
            pub fn $skip_deltas(
                tags: *const u8,
                tags_len: usize,
                data: *const u8,
                data_len: usize,
            ) -> Answer;
            pub fn $tightness(
                tags: *const u8,
                tags_len: usize,
                data: *const u8,
                data_len: usize,
            ) -> TightnessAnswer;
        }
    };
}

declare! {
    u32,
    chowder_encode_1234, chowder_encode_deltas_1234, chowder_decode_1234, chowder_decode_deltas_1234,
    chowder_data_len_1234, chowder_skip_deltas_1234, chowder_tightness_1234
}

declare! {
    u32,
    chowder_encode_0124, chowder_encode_deltas_0124, chowder_decode_0124, chowder_decode_deltas_0124,
    chowder_data_len_0124, chowder_skip_deltas_0124, chowder_tightness_0124
}

declare! {
    u64,
    chowder_encode_1248, chowder_encode_deltas_1248, chowder_decode_1248, chowder_decode_deltas_1248,
    chowder_data_len_1248, chowder_skip_deltas_1248, chowder_tightness_1248
}
