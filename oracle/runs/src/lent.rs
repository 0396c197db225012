//! Buffers as they are lent to the proved library: each between guard words, and filled with a pattern before the call,
//! so that a word written outside, or written where nothing may be, is seen afterwards. A run can put each against memory
//! that nothing may touch instead, on one side: there a word that is only read outside is seen too, since the program dies.
use crate::fenced::{Fence, Fenced};
use std::hint::black_box;
use std::ops::{Deref, DerefMut};
use std::sync::OnceLock;

/// Guard words on either side. Odd, so that a u32 buffer does not begin at a multiple of 8 bytes.
const GUARD: usize = 5;

pub trait Word: Copy {
    fn of(bits: u64) -> Self;
    fn bits(self) -> u64;
    /// The pattern in a place, of bits that no other place has.
    fn patterned(_place: usize, bits: u64) -> Self {
        Self::of(bits)
    }
}

impl Word for u32 {
    fn of(bits: u64) -> Self {
        bits as u32
    }
    fn bits(self) -> u64 {
        u64::from(self)
    }
}

impl Word for u64 {
    fn of(bits: u64) -> Self {
        bits
    }
    fn bits(self) -> u64 {
        self
    }
}

impl Word for f64 {
    fn of(bits: u64) -> Self {
        f64::from_bits(bits)
    }
    fn bits(self) -> u64 {
        self.to_bits()
    }
    /// In two places of three a NaN, of either sign: arithmetic, and some ways to copy a number, turn a signalling one into a
    /// quiet one, or one NaN into another.
    fn patterned(place: usize, bits: u64) -> Self {
        const EXPONENT: u64 = 0x7ff << 52;
        const QUIET: u64 = 1 << 51;
        f64::from_bits(match place % 3 {
            0 => (bits | EXPONENT | 1) & !QUIET,
            1 => bits | EXPONENT | QUIET,
            _ => bits,
        })
    }
}

/// The pattern: another word in each place, never 0, so that words that only change places are seen too.
fn pattern<T: Word>(place: usize) -> T {
    T::patterned(place, (place as u64 + 1).wrapping_mul(0x9e37_79b9_7f4a_7c15))
}

/// The side on which every buffer of this run touches memory that nothing may touch; on neither where it is not set.
static FENCE: OnceLock<Fence> = OnceLock::new();

/// Puts every buffer of this run against such memory. It is said before the first is made.
pub fn fence(side: Fence) {
    assert!(FENCE.set(side).is_ok(), "one side is chosen, once");
}

enum Words<T> {
    Plain(Vec<T>),
    Fenced(Fenced<T>),
}

impl<T> Deref for Words<T> {
    type Target = [T];
    fn deref(&self) -> &[T] {
        match self {
            Words::Plain(words) => words,
            Words::Fenced(words) => words,
        }
    }
}

impl<T> DerefMut for Words<T> {
    fn deref_mut(&mut self) -> &mut [T] {
        match self {
            Words::Plain(words) => words,
            Words::Fenced(words) => words,
        }
    }
}

/// A buffer, with guard words on each side that touches no fence.
pub struct Lent<T> {
    words: Words<T>,
    before: usize,
    behind: usize,
}

impl<T: Word> Lent<T> {
    /// A buffer to be written, which holds the pattern until then.
    pub fn patterned(length: usize) -> Self {
        Self::made(length, |place| pattern(place + GUARD))
    }

    /// A buffer to be read.
    pub fn holding(contents: &[T]) -> Self {
        Self::made(contents.len(), |place| contents[place])
    }

    fn made(length: usize, word: impl Fn(usize) -> T) -> Self {
        let fence = FENCE.get().copied();
        let before = if fence == Some(Fence::Before) { 0 } else { GUARD };
        let behind = if fence == Some(Fence::Behind) { 0 } else { GUARD };
        let words = (0..before + length + behind).map(|place| match place.checked_sub(before) {
            Some(inside) if inside < length => word(inside),
            _ => pattern(place + GUARD - before),
        });
        let words = match fence {
            Some(fence) => Words::Fenced(Fenced::new(fence, words)),
            None => Words::Plain(words.collect()),
        };
        Self { words, before, behind }
    }

    pub fn slice(&self) -> &[T] {
        &self.words[self.before..self.words.len() - self.behind]
    }

    pub fn slice_mut(&mut self) -> &mut [T] {
        let end = self.words.len() - self.behind;
        &mut self.words[self.before..end]
    }

    /// Whether no guard word has changed.
    pub fn guarded(&self) -> bool {
        // The compiler may think that a callee leaves alone what it was lent to read, or was not lent.
        let words = black_box(&*self.words);
        let end = words.len() - self.behind;
        let right = |place: usize| pattern::<T>(place + GUARD - self.before).bits();
        (0..self.before).chain(end..words.len()).all(|place| words[place].bits() == right(place))
    }

    /// The first place of the buffer that no longer holds the pattern.
    pub fn altered(&self) -> Option<usize> {
        let words = black_box(self.slice());
        (0..words.len()).find(|&place| words[place].bits() != pattern::<T>(place + GUARD).bits())
    }

    /// The first place of the buffer that holds another word than `contents`, bit for bit.
    pub fn differs(&self, contents: &[T]) -> Option<usize> {
        self.unlike(contents, |a, b| a.bits() == b.bits())
    }

    /// The first place of the buffer that holds another word than `contents`, as `same` tells.
    pub fn unlike(&self, contents: &[T], same: impl Fn(T, T) -> bool) -> Option<usize> {
        let words = black_box(self.slice());
        assert_eq!(words.len(), contents.len(), "a buffer is compared with contents of its own length");
        (0..words.len()).find(|&place| !same(words[place], contents[place]))
    }

    /// The first place of the buffer that is not zero, all bits of it.
    pub fn nonzero(&self) -> Option<usize> {
        black_box(self.slice()).iter().position(|word| word.bits() != 0)
    }
}
