//! Where a list begins that is lent to the library. A C program may lend an empty list as NULL, which no slice of Rust can be: so
//! the declarations, which take slices, leave it to these functions.
use std::cell::Cell;
use std::ptr::{null, null_mut};

thread_local! {
    static NULL_IF_EMPTY: Cell<bool> = const { Cell::new(false) };
    /// How many lists were NULL, of those to be read and of those to be written.
    static NULLS: Cell<[u64; 2]> = const { Cell::new([0; 2]) };
}

/// Does something with each empty list lent as NULL.
pub fn null_if_empty<T>(act: impl FnOnce() -> T) -> T {
    NULL_IF_EMPTY.set(true);
    let done = act();
    NULL_IF_EMPTY.set(false);
    done
}

/// How many lists were NULL since this was last asked.
pub fn nulls() -> [(&'static str, u64); 2] {
    let [read, written] = NULLS.take();
    [("to be read", read), ("to be written", written)]
}

pub fn read<T>(list: &[T]) -> *const T {
    if is_null(list, 0) {
        null()
    } else {
        list.as_ptr()
    }
}

pub fn written<T>(list: &mut [T]) -> *mut T {
    if is_null(list, 1) {
        null_mut()
    } else {
        list.as_mut_ptr()
    }
}

/// Whether the list is lent as NULL, which is counted.
fn is_null<T>(list: &[T], place: usize) -> bool {
    let is_null = list.is_empty() && NULL_IF_EMPTY.get();
    if is_null {
        let mut nulls = NULLS.get();
        nulls[place] += 1;
        NULLS.set(nulls);
    }
    is_null
}
