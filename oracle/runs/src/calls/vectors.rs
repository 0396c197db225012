//! The two calls that take vectors and alpha alone: what each is given, and how long the buffer is for its answer.
use super::call::abridged;
use super::outcome::Returned;
use crate::entries::Scored;
use std::fmt::{Debug, Formatter, Result};

/// Which of the two is called.
#[derive(Clone, Copy, PartialEq, Eq)]
pub enum Entry {
    /// It reads an estimate and a residual, and is lent a buffer for its answer.
    Extrapolated,
    /// It reads the backward pair and the forward pair, and returns its answer.
    Combined,
}

/// A call, with the vectors that it reads, and the length of the buffer for its answer, if it has one.
#[derive(Clone)]
pub struct Case {
    pub entry: Entry,
    pub read: Vec<Vec<f64>>,
    pub alpha: f64,
    pub length: usize,
}

pub const ENTRIES: [Entry; 2] = [Entry::Extrapolated, Entry::Combined];

impl Entry {
    pub fn name(self) -> &'static str {
        match self {
            Entry::Extrapolated => "extrapolated_solution",
            Entry::Combined => "combine_with_forward",
        }
    }

    /// How many vectors it reads.
    pub fn vectors(self) -> usize {
        match self {
            Entry::Extrapolated => 2,
            Entry::Combined => 4,
        }
    }

    /// How many buffers it is lent for its answer.
    pub fn written(self) -> usize {
        usize::from(self == Entry::Extrapolated)
    }

    /// What it returns with a refusal.
    pub fn refused(self, refusal: u32) -> Returned {
        match self {
            Entry::Extrapolated => Returned::Number(refusal),
            Entry::Combined => Returned::Scored(Scored { refusal, score: 0.0 }),
        }
    }
}

impl Debug for Case {
    fn fmt(&self, out: &mut Formatter<'_>) -> Result {
        let read: Vec<String> = self.read.iter().map(|vector| abridged(vector)).collect();
        write!(out, "{}, alpha = {:?}", read.join(", "), self.alpha)?;
        if self.entry == Entry::Extrapolated {
            write!(out, ", solution {} long", self.length)?;
        }
        Ok(())
    }
}
