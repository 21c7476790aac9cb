//! Columns of whole numbers, packed in groups of four.
//!
//! These are the coders of streamvbyte64 over a library that is proved: each call answers on any input, what it cannot
//! do it refuses by number, and a refusal alters no buffer. The packed bytes are those of streamvbyte64's scalar engine,
//! so columns go both ways between the two.
//!
//! A column is two streams: a tag byte for each group of four numbers, and the bytes of the numbers, each at one of four
//! widths. The names give the widths: [`Coder1234`] stores a `u32` in 1, 2, 3 or 4 bytes, [`Coder0124`] in 0, 1, 2 or 4,
//! [`Coder1248`] a `u64` in 1, 2, 4 or 8. How many numbers there are is kept by the caller, and is a multiple of four.
//!
//! ## Pack a slice and unpack it
//!
//! ```
//! use chowderyard::{Coder, Coder1234};
//!
//! # fn main() -> Result<(), chowderyard::Refusal> {
//! let coder = Coder1234::new();
//! let sizes: [u32; 8] = [1514, 60, 60, 1514, 9014, 60, 90_000, 40];
//!
//! // Room for the widest result; `written` says how much of it is used.
//! let (tags_len, room) = Coder1234::max_compressed_bytes(sizes.len());
//! let mut tags = vec![0; tags_len];
//! let mut data = vec![0; room];
//! let written = coder.encode(&sizes, &mut tags, &mut data)?;
//! data.truncate(written);
//! assert_eq!((tags.len(), data.len()), (2, 13));
//!
//! let mut back = [0; 8];
//! coder.decode(&tags, &data, &mut back)?;
//! assert_eq!(back, sizes);
//!
//! // One group in the middle: the tags before it say where its data starts.
//! let at = coder.data_len(&tags[..1])?;
//! let mut group = [0; 4];
//! coder.decode(&tags[1..2], &data[at..], &mut group)?;
//! assert_eq!(group, [9014, 60, 90_000, 40]);
//! # Ok(())
//! # }
//! ```
//!
//! ## Pack steps, skip to a group and unpack it
//!
//! ```
//! use chowderyard::{Coder, Coder0124};
//!
//! # fn main() -> Result<(), chowderyard::Refusal> {
//! let coder = Coder0124::new();
//! // Labels of frames: one more each time, two left out at the change of a minute.
//! let labels: Vec<u32> = (1788..1800).chain(1802..1814).collect();
//! let start = 1787;
//!
//! let (tags_len, room) = Coder0124::max_compressed_bytes(labels.len());
//! let mut tags = vec![0; tags_len];
//! let mut data = vec![0; room];
//! let written = coder.encode_deltas(start, &labels, &mut tags, &mut data)?;
//! data.truncate(written);
//! assert_eq!(written, labels.len(), "a byte for each step");
//!
//! // Frame 18 is number 2 of group 4. The sum of the steps before the group says what it starts from.
//! let (frame, group) = (18, 18 / 4);
//! let (at, sum) = coder.skip_deltas(&tags[..group], &data)?;
//! let mut four = [0; 4];
//! coder.decode_deltas(
//!     start.wrapping_add(sum),
//!     &tags[group..group + 1],
//!     &data[at..],
//!     &mut four,
//! )?;
//! assert_eq!(four[frame % 4], labels[frame]);
//! # Ok(())
//! # }
//! ```
//!
//! ## Refusals
//!
//! ```
//! use chowderyard::{Coder, Coder0124, Refusal};
//!
//! // The last byte of the data is lost.
//! let mut values = [7; 4];
//! let refusal = Coder0124::new().decode(&[0x55], &[1, 3, 1], &mut values).unwrap_err();
//! assert_eq!(refusal, Refusal::MissingData { bytes: 3, needed: 4 });
//! assert_eq!((refusal.number(), refusal.name()), (6, "missing data"));
//! assert_eq!(
//!     refusal.to_string(),
//!     "refused with 6 (missing data): the tags call for 4 data bytes and 3 are there, 1 too few; \
//!      the data was cut, or the tags are of another column or coder"
//! );
//! assert_eq!(values, [7; 4]);
//! ```

use std::fmt::{Debug, Display};
use std::hash::Hash;
use std::mem::size_of;

mod declarations;
mod library;
mod refusal;

/// The README's example is run with the others.
#[cfg(doctest)]
#[doc = include_str!("../README.md")]
mod readme {}

pub use library::{Coder0124, Coder1234, Coder1248};
pub use refusal::{Reason, Refusal};

/// The most groups that a call takes: a column of more is refused with 2.
pub const GROUP_LIMIT: usize = 16_777_216;

/// What the tightness check finds where it refuses nothing.
#[derive(Clone, Copy, Debug, PartialEq, Eq, Hash)]
pub enum Tightness {
    /// Each number is stored at its shortest width.
    Tight,
    /// The first number that is wider than it need be.
    Loose {
        /// Its group, from 0.
        group: usize,
        /// Its position in the group, 0 to 3.
        position: usize,
    },
}

/// A coder packs whole numbers to a stream of tags and a stream of data, and back.
///
/// The methods have the names and the order of arguments of streamvbyte64's. Where streamvbyte64 panics, these answer
/// with a [`Refusal`], and no buffer is altered.
pub trait Coder: Sized + Copy + Clone {
    /// The type of a number: `u32` or `u64`.
    type Elem: Copy
        + Debug
        + Default
        + Display
        + Eq
        + Hash
        + Into<u64>
        + Ord
        + Send
        + Sync
        + TryFrom<u64>
        + 'static;

    /// Makes the coder. It holds nothing.
    fn new() -> Self;

    /// How many tag bytes and data bytes encoding `len` values asks for.
    ///
    /// Where the answer does not fit a `usize` it is `usize::MAX`; a column as long as that is refused anyway.
    fn max_compressed_bytes(len: usize) -> (usize, usize) {
        let groups = len.div_ceil(4);
        (groups, groups.saturating_mul(4 * size_of::<Self::Elem>()))
    }

    /// Encodes `values`: a tag for each group to the front of `tags`, the numbers to the front of `data`. The bytes behind
    /// those keep what they held.
    ///
    /// Returns the count of bytes written to `data`.
    ///
    /// # Errors
    ///
    /// Refuses with 1 (not fours), 2 (too many groups), 3 (few tags), 4 (little room).
    fn encode(
        &self,
        values: &[Self::Elem],
        tags: &mut [u8],
        data: &mut [u8],
    ) -> Result<usize, Refusal>;

    /// Encodes the steps: each value minus the one before it, the first minus `initial`, wrapping.
    ///
    /// Returns the count of bytes written to `data`.
    ///
    /// # Errors
    ///
    /// As [`encode`](Coder::encode).
    fn encode_deltas(
        &self,
        initial: Self::Elem,
        values: &[Self::Elem],
        tags: &mut [u8],
        data: &mut [u8],
    ) -> Result<usize, Refusal>;

    /// Decodes all `tags` and fills all `values`. Any bytes may stand behind the data that is read.
    ///
    /// Returns the count of bytes read from `data`.
    ///
    /// # Errors
    ///
    /// Refuses with 1 (not fours), 2 (too many groups), 5 (other tags), 6 (missing data), 7 (tail overrun).
    fn decode(&self, tags: &[u8], data: &[u8], values: &mut [Self::Elem])
        -> Result<usize, Refusal>;

    /// Decodes steps: each stored number is added to the value before it, the first to `initial`, wrapping.
    ///
    /// Returns the count of bytes read from `data`.
    ///
    /// # Errors
    ///
    /// As [`decode`](Coder::decode).
    fn decode_deltas(
        &self,
        initial: Self::Elem,
        tags: &[u8],
        data: &[u8],
        values: &mut [Self::Elem],
    ) -> Result<usize, Refusal>;

    /// The count of data bytes that `tags` call for.
    ///
    /// # Errors
    ///
    /// Refuses with 2 (too many groups).
    fn data_len(&self, tags: &[u8]) -> Result<usize, Refusal>;

    /// Passes over all `tags`.
    ///
    /// Returns the count of data bytes and the sum of the stored numbers, wrapping. What follows them decodes from the
    /// column's start plus this sum.
    ///
    /// # Errors
    ///
    /// Refuses with 2 (too many groups), 6 (missing data), 7 (tail overrun).
    fn skip_deltas(&self, tags: &[u8], data: &[u8]) -> Result<(usize, Self::Elem), Refusal>;

    /// Whether each number is stored at its shortest width, or the place of the first that is not. streamvbyte64 has no
    /// such check.
    ///
    /// Bytes behind the data that the tags call for do not count.
    ///
    /// # Errors
    ///
    /// Refuses with 2 (too many groups), 6 (missing data).
    fn tightness(&self, tags: &[u8], data: &[u8]) -> Result<Tightness, Refusal>;
}
