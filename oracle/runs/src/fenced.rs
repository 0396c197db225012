//! Memory between two stretches that nothing may touch: a list that is put at its very end, or its very beginning, makes the
//! processor stop a program that reads or writes one word further.
use std::cell::RefCell;
use std::ffi::{c_int, c_void};
use std::marker::PhantomData;
use std::mem::size_of;
use std::ops::{Deref, DerefMut};

/// The size of a fence, and the least of what is between two. A multiple of every page size, the emulator's host's too.
const STRETCH: usize = 65_536;

/// As Linux has them on x86-64.
const READ_AND_WRITE: c_int = 1 | 2;
const NOTHING: c_int = 0;
const PRIVATE_AND_ANONYMOUS: c_int = 0x02 | 0x20;

extern "C" {
    fn mmap(address: *mut c_void, length: usize, allowed: c_int, flags: c_int, file: c_int, offset: i64) -> *mut c_void;
    fn mprotect(address: *mut c_void, length: usize, allowed: c_int) -> c_int;
}

thread_local! {
    /// What is free, by the power of two of stretches between the fences: mapping anew for each list would take most of the time.
    static FREE: RefCell<[Vec<*mut u8>; 16]> = RefCell::default();
}

/// Words that end right before a fence, or begin right behind one.
pub struct Fenced<T> {
    /// Where the memory between the fences begins, and its place in `FREE`.
    memory: *mut u8,
    power: usize,
    first: *mut T,
    length: usize,
    words: PhantomData<T>,
}

/// On which side the fence is that a list touches.
#[derive(Clone, Copy, PartialEq, Eq)]
pub enum Fence {
    Behind,
    Before,
}

impl<T: Copy> Fenced<T> {
    pub fn new(fence: Fence, words: impl ExactSizeIterator<Item = T>) -> Self {
        let length = words.len();
        let bytes = length * size_of::<T>();
        let power = bytes.div_ceil(STRETCH).max(1).next_power_of_two().trailing_zeros() as usize;
        let memory = FREE.with_borrow_mut(|free| free[power].pop()).unwrap_or_else(|| map(STRETCH << power));
        let from = if fence == Fence::Behind { (STRETCH << power) - bytes } else { 0 };
        // Sound: the bytes from there on are inside, and nobody else has this memory until it is dropped.
        unsafe {
            let first = memory.add(from).cast::<T>();
            words.enumerate().for_each(|(place, word)| first.add(place).write(word));
            Self { memory, power, first, length, words: PhantomData }
        }
    }
}

/// New memory of so many bytes, with a fence on either side.
fn map(bytes: usize) -> *mut u8 {
    unsafe {
        let start = mmap(std::ptr::null_mut(), bytes + 2 * STRETCH, NOTHING, PRIVATE_AND_ANONYMOUS, -1, 0);
        assert_ne!(start as isize, -1, "memory can be mapped");
        let memory = start.cast::<u8>().add(STRETCH);
        assert_eq!(mprotect(memory.cast(), bytes, READ_AND_WRITE), 0, "memory can be made readable");
        memory
    }
}

impl<T> Deref for Fenced<T> {
    type Target = [T];
    fn deref(&self) -> &[T] {
        unsafe { std::slice::from_raw_parts(self.first, self.length) }
    }
}

impl<T> DerefMut for Fenced<T> {
    fn deref_mut(&mut self) -> &mut [T] {
        unsafe { std::slice::from_raw_parts_mut(self.first, self.length) }
    }
}

impl<T> Drop for Fenced<T> {
    fn drop(&mut self) {
        FREE.with_borrow_mut(|free| free[self.power].push(self.memory));
    }
}
