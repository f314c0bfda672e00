//! A stand-in for the crate `debug_unsafe`, so that atoi_simd builds without the network.
//!
//! The crate's own `get_safe_unchecked` leaves out the bounds check in a release build. Here it is
//! plain indexing: an index that is out of range stops the run instead of reading other memory.

pub mod slice {
    use std::slice::SliceIndex;

    /// An element or a part of a slice, by an index or a range inside its bounds.
    pub trait SliceGetter<T> {
        fn get_safe_unchecked<I: SliceIndex<[T]>>(&self, index: I) -> &I::Output;
    }

    impl<T> SliceGetter<T> for [T] {
        #[inline(always)]
        fn get_safe_unchecked<I: SliceIndex<[T]>>(&self, index: I) -> &I::Output {
            &self[index]
        }
    }
}
