//! The coders over the library's C functions.
//!
//! A slice goes over as its pointer and its length. The library asks nothing else of a caller: it tests every count
//! itself, before it reads or writes. Rust's borrow rules give what C callers must see to: each pointer is valid and
//! aligned, and a buffer that is written overlaps no other.

use crate::declarations::*;
use crate::{Coder, Refusal, Tightness, GROUP_LIMIT};

/// What a call was lent: enough to say in a refusal what was wanted.
struct Lent {
    values: usize,
    tags: usize,
    data: usize,
    /// The bytes of the widest group.
    widest: usize,
}

impl Lent {
    /// `needed` gives the bytes that the tags call for; it is asked only where they are missing.
    fn refusal(&self, number: u8, needed: impl FnOnce() -> usize) -> Refusal {
        let groups = self.values / 4;
        match number {
            1 => Refusal::NotFours {
                values: self.values,
            },
            2 => Refusal::TooManyGroups {
                groups: if groups > GROUP_LIMIT {
                    groups
                } else {
                    self.tags
                },
            },
            3 => Refusal::FewTags {
                tags: self.tags,
                groups,
            },
            4 => Refusal::LittleRoom {
                bytes: self.data,
                needed: groups * self.widest,
            },
            5 => Refusal::OtherTags {
                tags: self.tags,
                groups,
            },
            6 => Refusal::MissingData {
                bytes: self.data,
                needed: needed(),
            },
            7 => Refusal::TailOverrun,
            number => Refusal::Unknown { number },
        }
    }
}

macro_rules! coder {
    (
        $(#[$doc:meta])*
        $name:ident, $elem:ty,
        $encode:ident, $encode_deltas:ident, $decode:ident, $decode_deltas:ident,
        $data_len:ident, $skip_deltas:ident, $tightness:ident
    ) => {
        $(#[$doc])*
        #[derive(Clone, Copy, Debug, Default, PartialEq, Eq, Hash)]
        pub struct $name(());

        impl $name {
            fn lent(values: usize, tags: usize, data: usize) -> Lent {
                Lent { values, tags, data, widest: 4 * std::mem::size_of::<$elem>() }
            }

            /// An accepted answer, or its refusal.
            fn told(answer: Answer, lent: Lent, tags: &[u8]) -> Result<Answer, Refusal> {
                match answer.number {
                    0 => Ok(answer),
                    number => Err(lent.refusal(number, || Self::needed(tags))),
                }
            }

            fn needed(tags: &[u8]) -> usize {
                // SAFETY: a slice's pointer and length.
                unsafe { $data_len(tags.as_ptr(), tags.len()) }.count as usize
            }
        }

        impl Coder for $name {
            type Elem = $elem;

            fn new() -> Self {
                $name(())
            }

            #[inline]
            fn encode(
                &self,
                values: &[$elem],
                tags: &mut [u8],
                data: &mut [u8],
            ) -> Result<usize, Refusal> {
                // SAFETY: slices' pointers and lengths; `tags` and `data` are borrowed mutably, so nothing overlaps.
                let answer = unsafe {
                    $encode(
                        values.as_ptr(), values.len(),
                        tags.as_mut_ptr(), tags.len(),
                        data.as_mut_ptr(), data.len(),
                    )
                };
                Self::told(answer, Self::lent(values.len(), tags.len(), data.len()), tags)
                    .map(|a| a.count as usize)
            }

            #[inline]
            fn encode_deltas(
                &self,
                initial: $elem,
                values: &[$elem],
                tags: &mut [u8],
                data: &mut [u8],
            ) -> Result<usize, Refusal> {
                // SAFETY: as for `encode`.
                let answer = unsafe {
                    $encode_deltas(
                        initial,
                        values.as_ptr(), values.len(),
                        tags.as_mut_ptr(), tags.len(),
                        data.as_mut_ptr(), data.len(),
                    )
                };
                Self::told(answer, Self::lent(values.len(), tags.len(), data.len()), tags)
                    .map(|a| a.count as usize)
            }

            #[inline]
            fn decode(
                &self,
                tags: &[u8],
                data: &[u8],
                values: &mut [$elem],
            ) -> Result<usize, Refusal> {
                // SAFETY: slices' pointers and lengths; `values` is borrowed mutably, so nothing overlaps it.
                let answer = unsafe {
                    $decode(
                        tags.as_ptr(), tags.len(),
                        data.as_ptr(), data.len(),
                        values.as_mut_ptr(), values.len(),
                    )
                };
                Self::told(answer, Self::lent(values.len(), tags.len(), data.len()), tags)
                    .map(|a| a.count as usize)
            }

            #[inline]
            fn decode_deltas(
                &self,
                initial: $elem,
                tags: &[u8],
                data: &[u8],
                values: &mut [$elem],
            ) -> Result<usize, Refusal> {
                // SAFETY: as for `decode`.
                let answer = unsafe {
                    $decode_deltas(
                        initial,
                        tags.as_ptr(), tags.len(),
                        data.as_ptr(), data.len(),
                        values.as_mut_ptr(), values.len(),
                    )
                };
                Self::told(answer, Self::lent(values.len(), tags.len(), data.len()), tags)
                    .map(|a| a.count as usize)
            }

            #[inline]
            fn data_len(&self, tags: &[u8]) -> Result<usize, Refusal> {
                // SAFETY: a slice's pointer and length.
                let answer = unsafe { $data_len(tags.as_ptr(), tags.len()) };
                Self::told(answer, Self::lent(0, tags.len(), 0), tags).map(|a| a.count as usize)
            }

            #[inline]
            fn skip_deltas(&self, tags: &[u8], data: &[u8]) -> Result<(usize, $elem), Refusal> {
                // SAFETY: slices' pointers and lengths.
                let answer = unsafe {
                    $skip_deltas(tags.as_ptr(), tags.len(), data.as_ptr(), data.len())
                };
                Self::told(answer, Self::lent(0, tags.len(), data.len()), tags)
                    .map(|a| (a.count as usize, a.sum as $elem))
            }

            #[inline]
            fn tightness(&self, tags: &[u8], data: &[u8]) -> Result<Tightness, Refusal> {
                // SAFETY: slices' pointers and lengths.
                let answer = unsafe {
                    $tightness(tags.as_ptr(), tags.len(), data.as_ptr(), data.len())
                };
                let lent = Self::lent(0, tags.len(), data.len());
                match (answer.number, answer.loose) {
                    (0, 0) => Ok(Tightness::Tight),
                    (0, _) => Ok(Tightness::Loose {
                        group: answer.group as usize,
                        position: answer.position.into(),
                    }),
                    (number, _) => Err(lent.refusal(number, || Self::needed(tags))),
                }
            }
        }
    };
}

coder! {
    /// Packs a `u32` in 1, 2, 3 or 4 bytes.
    Coder1234, u32,
    chowder_encode_1234, chowder_encode_deltas_1234, chowder_decode_1234, chowder_decode_deltas_1234,
    chowder_data_len_1234, chowder_skip_deltas_1234, chowder_tightness_1234
}

coder! {
    /// Packs a `u32` in 0, 1, 2 or 4 bytes: zero takes none.
    Coder0124, u32,
    chowder_encode_0124, chowder_encode_deltas_0124, chowder_decode_0124, chowder_decode_deltas_0124,
    chowder_data_len_0124, chowder_skip_deltas_0124, chowder_tightness_0124
}

coder! {
    /// Packs a `u64` in 1, 2, 4 or 8 bytes.
    Coder1248, u64,
    chowder_encode_1248, chowder_encode_deltas_1248, chowder_decode_1248, chowder_decode_deltas_1248,
    chowder_data_len_1248, chowder_skip_deltas_1248, chowder_tightness_1248
}
