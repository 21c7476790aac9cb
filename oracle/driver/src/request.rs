//! One call with the buffers it is lent, in the form in which `ask` takes it.

use crate::engine::{Engine, Outcome};
use crate::hex;
use crate::layout::{Elem, Layout};

#[derive(Clone, Copy, PartialEq, Eq, Debug)]
pub enum Call {
    Encode,
    EncodeDeltas,
    Decode,
    DecodeDeltas,
    DataLen,
    SkipDeltas,
    Tightness,
}

impl Call {
    pub const ALL: [Call; 7] = [
        Call::Encode,
        Call::EncodeDeltas,
        Call::Decode,
        Call::DecodeDeltas,
        Call::DataLen,
        Call::SkipDeltas,
        Call::Tightness,
    ];

    pub fn name(self) -> &'static str {
        match self {
            Call::Encode => "encode",
            Call::EncodeDeltas => "encode_deltas",
            Call::Decode => "decode",
            Call::DecodeDeltas => "decode_deltas",
            Call::DataLen => "data_len",
            Call::SkipDeltas => "skip_deltas",
            Call::Tightness => "tightness",
        }
    }

    pub fn encodes(self) -> bool {
        matches!(self, Call::Encode | Call::EncodeDeltas)
    }

    pub fn decodes(self) -> bool {
        matches!(self, Call::Decode | Call::DecodeDeltas)
    }
}

#[derive(Clone, PartialEq, Eq, Debug)]
pub struct Request<E> {
    pub call: Call,
    pub start: E,
    pub values: Vec<E>,
    pub tags: Vec<u8>,
    pub data: Vec<u8>,
}

impl<E: Elem> Request<E> {
    /// The line that `ask` takes.
    pub fn line(&self, layout: &str) -> String {
        format!(
            "{} {} {} {} {} {}",
            self.call.name(),
            layout,
            self.start.to_u64(),
            hex::show(&bytes_of(&self.values)),
            hex::show(&self.tags),
            hex::show(&self.data)
        )
    }
}

/// The numbers' bytes, low byte first.
pub fn bytes_of<E: Elem>(values: &[E]) -> Vec<u8> {
    values.iter().flat_map(|v| v.to_u64().to_le_bytes().into_iter().take(E::SIZE)).collect()
}

pub fn numbers_of<E: Elem>(bytes: &[u8]) -> Vec<E> {
    bytes.chunks(E::SIZE).map(|c| E::from_u64(c.iter().rev().fold(0, |n, b| n << 8 | *b as u64))).collect()
}

/// Makes one of the six calls on the lent buffers (not the tightness check).
pub fn perform<L: Layout, N: Engine>(
    call: Call,
    start: L::Elem,
    values: &mut [L::Elem],
    tags: &mut [u8],
    data: &mut [u8],
) -> Outcome {
    match call {
        Call::Encode => N::encode::<L>(None, values, tags, data),
        Call::EncodeDeltas => N::encode::<L>(Some(start), values, tags, data),
        Call::Decode => N::decode::<L>(None, tags, data, values),
        Call::DecodeDeltas => N::decode::<L>(Some(start), tags, data, values),
        Call::DataLen => N::data_len::<L>(tags),
        Call::SkipDeltas => N::skip_deltas::<L>(tags, data),
        Call::Tightness => unreachable!("the tightness check has its own answer"),
    }
}
