//! Where a list begins that is lent to the library. The comparison has its own in the place of these, since it also lends NULL for
//! an empty list, as C programs do.

pub fn read<T>(list: &[T]) -> *const T {
    list.as_ptr()
}

pub fn written<T>(list: &mut [T]) -> *mut T {
    list.as_mut_ptr()
}
