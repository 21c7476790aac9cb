// A stand-in for the published `src/arch/mod.rs`, which is not part of the given source.
//
// It declares the one given file of this folder that an x86-64 build can compile, and it
// holds the engine that takes the place of the missing SIMD engines. That engine computes
// nothing: each of its functions aborts the process. A run that ends in any other way has
// therefore used the scalar engine and no other.

#[allow(dead_code)]
pub(crate) mod shuffle;

pub(crate) mod absent {
    use crate::coding_descriptor::CodingDescriptor;
    use crate::raw_group::RawGroup;
    use std::marker::PhantomData;

    /// In place of a SIMD engine that is not there. Aborts at every call.
    #[derive(Copy, Clone, Debug)]
    pub(crate) struct AbsentEngine<D: CodingDescriptor>(PhantomData<D>);

    #[cold]
    #[inline(never)]
    fn absent<D: CodingDescriptor>(function: &str) -> ! {
        eprintln!(
            "stand-in engine called: {} of {}",
            function,
            std::any::type_name::<D>()
        );
        std::process::abort()
    }

    impl<D: CodingDescriptor> RawGroup for AbsentEngine<D> {
        type Elem = D::Elem;

        const TAG_LEN: [usize; 4] = D::TAG_LEN;

        fn set1(_value: Self::Elem) -> Self {
            absent::<D>("set1")
        }

        unsafe fn load_unaligned(_ptr: *const Self::Elem) -> Self {
            absent::<D>("load_unaligned")
        }

        unsafe fn store_unaligned(_ptr: *mut Self::Elem, _group: Self) {
            absent::<D>("store_unaligned")
        }

        unsafe fn encode(_output: *mut u8, _group: Self) -> (u8, usize) {
            absent::<D>("encode")
        }

        unsafe fn encode_deltas(_output: *mut u8, _base: Self, _group: Self) -> (u8, usize) {
            absent::<D>("encode_deltas")
        }

        unsafe fn decode(_input: *const u8, _tag: u8) -> (usize, Self) {
            absent::<D>("decode")
        }

        unsafe fn decode_deltas(_input: *const u8, _tag: u8, _base: Self) -> (usize, Self) {
            absent::<D>("decode_deltas")
        }

        fn data_len(_tag: u8) -> usize {
            absent::<D>("data_len")
        }

        unsafe fn skip_deltas(_input: *const u8, _tag: u8) -> (usize, Self::Elem) {
            absent::<D>("skip_deltas")
        }

        unsafe fn decode8(_input: *const u8, _tag8: u64, _output: *mut Self::Elem) -> usize {
            absent::<D>("decode8")
        }

        unsafe fn decode_deltas8(
            _input: *const u8,
            _tag8: u64,
            _base: Self,
            _output: *mut Self::Elem,
        ) -> (usize, Self) {
            absent::<D>("decode_deltas8")
        }

        fn data_len8(_tag8: u64) -> usize {
            absent::<D>("data_len8")
        }

        unsafe fn skip_deltas8(_input: *const u8, _tag8: u64) -> (usize, Self::Elem) {
            absent::<D>("skip_deltas8")
        }
    }
}
