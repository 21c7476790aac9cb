//! The three coders' tables, as document 01 gives them, and the two number types.

use std::fmt::Debug;

/// u32 or u64.
pub trait Elem: Copy + Eq + Debug + 'static {
    /// Bytes of the number.
    const SIZE: usize;
    fn from_u64(v: u64) -> Self;
    fn to_u64(self) -> u64;
    fn add(self, other: Self) -> Self;
    fn sub(self, other: Self) -> Self;
}

impl Elem for u32 {
    const SIZE: usize = 4;
    fn from_u64(v: u64) -> u32 {
        v as u32
    }
    fn to_u64(self) -> u64 {
        self as u64
    }
    fn add(self, other: u32) -> u32 {
        self.wrapping_add(other)
    }
    fn sub(self, other: u32) -> u32 {
        self.wrapping_sub(other)
    }
}

impl Elem for u64 {
    const SIZE: usize = 8;
    fn from_u64(v: u64) -> u64 {
        v
    }
    fn to_u64(self) -> u64 {
        self
    }
    fn add(self, other: u64) -> u64 {
        self.wrapping_add(other)
    }
    fn sub(self, other: u64) -> u64 {
        self.wrapping_sub(other)
    }
}

/// One of the three coders.
pub trait Layout: 'static {
    type Elem: Elem;
    type Published: streamvbyte64::Coder<Elem = Self::Elem>;
    const NAME: &'static str;
    /// The width of each field.
    const WIDTHS: [usize; 4];
    /// The most bytes that a group can take.
    const GROUP: usize = 4 * <Self::Elem as Elem>::SIZE;
    /// The slack that the eight-tag stage of the decoders asks for.
    const SLACK: usize = 4 * (Self::WIDTHS[3] - Self::WIDTHS[0]);
    #[cfg(feature = "port")]
    const PORT: crate::port::Calls<Self::Elem>;
}

pub struct L1234;
pub struct L0124;
pub struct L1248;

impl Layout for L1234 {
    type Elem = u32;
    type Published = streamvbyte64::Coder1234;
    const NAME: &'static str = "1234";
    const WIDTHS: [usize; 4] = [1, 2, 3, 4];
    #[cfg(feature = "port")]
    const PORT: crate::port::Calls<u32> = crate::port::CALLS_1234;
}

impl Layout for L0124 {
    type Elem = u32;
    type Published = streamvbyte64::Coder0124;
    const NAME: &'static str = "0124";
    const WIDTHS: [usize; 4] = [0, 1, 2, 4];
    #[cfg(feature = "port")]
    const PORT: crate::port::Calls<u32> = crate::port::CALLS_0124;
}

impl Layout for L1248 {
    type Elem = u64;
    type Published = streamvbyte64::Coder1248;
    const NAME: &'static str = "1248";
    const WIDTHS: [usize; 4] = [1, 2, 4, 8];
    #[cfg(feature = "port")]
    const PORT: crate::port::Calls<u64> = crate::port::CALLS_1248;
}
