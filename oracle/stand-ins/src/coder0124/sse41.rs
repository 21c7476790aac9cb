// A stand-in for the published `src/coder0124/sse41.rs`, which is not part of the given source.
// Every function of this engine aborts the process.

pub(crate) type RawGroupImpl = crate::arch::absent::AbsentEngine<super::CodingDescriptor0124>;
