//! A list that a call is lent to read: one by itself, or a part of memory that several lists share.
use runs::lent::{Lent, Word};
use std::marker::PhantomData;
use std::mem::size_of;
use std::rc::Rc;
use std::slice::from_raw_parts;

pub enum Part<T> {
    Own(Lent<T>),
    Shared(Shared<T>),
}

/// So many words from a place of the memory on, which is counted in u32.
pub struct Shared<T> {
    memory: Rc<Lent<f64>>,
    place: usize,
    length: usize,
    words: PhantomData<T>,
}

impl<T: Word> Part<T> {
    pub fn own(contents: &[T]) -> Self {
        Self::Own(Lent::holding(contents))
    }

    pub fn slice(&self) -> &[T] {
        match self {
            Self::Own(lent) => lent.slice(),
            // Sound: `Memory` has put the list there, at a multiple of its alignment, and nobody writes to it.
            Self::Shared(shared) => unsafe {
                let first = shared.memory.slice().as_ptr().cast::<u32>().add(shared.place);
                from_raw_parts(first.cast::<T>(), shared.length)
            },
        }
    }

    /// Whether it holds another word than `contents`, or a word outside of it was written.
    pub fn altered(&self, contents: &[T]) -> bool {
        match self {
            Self::Own(lent) => !lent.guarded() || lent.differs(contents).is_some(),
            Self::Shared(shared) => {
                let right = contents.iter().map(|word| word.bits());
                !shared.memory.guarded() || !std::hint::black_box(self.slice()).iter().map(|word| word.bits()).eq(right)
            }
        }
    }
}

/// Memory that lists share wherever their contents allow it.
#[derive(Default)]
pub struct Memory {
    words: Vec<u32>,
    /// Where each list begins and ends, in the order in which they were put.
    taken: Vec<[usize; 2]>,
}

impl Memory {
    /// Puts a list where its words are already, or else where some are that it begins with, so that the rest goes behind them.
    pub fn put<T: Word>(&mut self, contents: &[T]) {
        let each = size_of::<T>() / size_of::<u32>();
        let halves = |word: &T| [word.bits() as u32, (word.bits() >> 32) as u32].into_iter().take(each);
        let list: Vec<u32> = contents.iter().flat_map(halves).collect();
        let fits = |place: usize| self.words[place..].iter().zip(&list).all(|(a, b)| a == b);
        let place = (0..=self.words.len()).step_by(each).find(|&place| fits(place));
        let place = place.unwrap_or_else(|| self.words.len().next_multiple_of(each));
        let end = place + list.len();
        self.words.resize(self.words.len().max(end), 0);
        self.words[place..end].copy_from_slice(&list);
        self.taken.push([place, end]);
    }

    /// Whether two of the lists, by the order in which they were put, have a word in common.
    pub fn overlap(&self, one: usize, other: usize) -> bool {
        let ([a, a_end], [b, b_end]) = (self.taken[one], self.taken[other]);
        a.max(b) < a_end.min(b_end)
    }

    /// The memory itself, to be lent, and where the lists are.
    pub fn made(mut self) -> Made {
        self.words.resize(self.words.len().next_multiple_of(2), 0);
        let pair = |pair: &[u32]| f64::from_bits(u64::from(pair[0]) | u64::from(pair[1]) << 32);
        let numbers: Vec<f64> = self.words.chunks(2).map(pair).collect();
        Made { memory: Rc::new(Lent::holding(&numbers)), taken: self.taken }
    }
}

pub struct Made {
    memory: Rc<Lent<f64>>,
    taken: Vec<[usize; 2]>,
}

impl Made {
    /// The list that was put at this place of the order.
    pub fn part<T>(&self, number: usize) -> Part<T> {
        let [place, end] = self.taken[number];
        let length = (end - place) * size_of::<u32>() / size_of::<T>();
        Part::Shared(Shared { memory: Rc::clone(&self.memory), place, length, words: PhantomData })
    }
}
