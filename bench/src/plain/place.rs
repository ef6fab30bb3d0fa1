//! Elements of a list at places that are within it, read without a test: Rattle leaves the test out where it is proved.

#[inline(always)]
pub fn at<T>(list: &[T], place: usize) -> &T {
    debug_assert!(place < list.len());
    // SAFETY: each caller keeps places of the list alone.
    unsafe { list.get_unchecked(place) }
}

#[inline(always)]
pub fn at_mut<T>(list: &mut [T], place: usize) -> &mut T {
    debug_assert!(place < list.len());
    // SAFETY: each caller keeps places of the list alone.
    unsafe { list.get_unchecked_mut(place) }
}
