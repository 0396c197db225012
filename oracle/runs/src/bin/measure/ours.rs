//! The proved library's side: a call with what it is given and lent, made once and used again each time it is made.
use crate::theirs::Done;
use runs::calls::call::Call;
use runs::calls::lending::Slice;
use runs::calls::make::{make, Read};
use runs::calls::outcome::Returned;
use runs::calls::shape::Kind;
use std::mem::size_of_val;
use std::ops::Range;
use Space::{Real, Whole, Wide};

pub struct Ours {
    pub call: Call,
    written: Vec<Space>,
}

/// A buffer that is lent to be written.
enum Space {
    Whole(Vec<u32>),
    Wide(Vec<u64>),
    Real(Vec<f64>),
}

impl Ours {
    pub fn new(call: Call) -> Self {
        let shapes = call.entry.written();
        let written = shapes.iter().zip(&call.lengths).map(|(shape, &length)| Space::new(shape.kind, length)).collect();
        Self { call, written }
    }

    pub fn make(&mut self) -> Done {
        let Call { first, second, weights, wish, .. } = &self.call;
        let read = Read { first, second, weights, many: &wish.many };
        make(&self.call, &read, &mut self.written.iter_mut().map(Space::lend)).into()
    }

    /// Makes a call on rows with those that a call of `from_edges` has left. It keeps every link here, so that they are as
    /// long as its list.
    pub fn make_on(&mut self, rows: &Ours) -> Done {
        let [Whole(first), Whole(second), Real(weights), ..] = &rows.written[..] else { unreachable!("rows first") };
        let read = Read { first, second, weights, many: &[] };
        make(&self.call, &read, &mut self.written.iter_mut().map(Space::lend)).into()
    }

    /// Where the buffer of that name lies.
    pub fn addresses(&self, name: &str) -> Range<usize> {
        let place = self.call.entry.written().iter().position(|shape| shape.name == name).expect("a buffer of the call");
        self.written[place].addresses()
    }

    /// The bytes that it is lent to write.
    pub fn lent(&self) -> usize {
        self.written.iter().map(Space::bytes).sum()
    }
}

impl Space {
    fn new(kind: Kind, length: usize) -> Self {
        match kind {
            Kind::Whole => Whole(vec![0; length]),
            Kind::Wide => Wide(vec![0; length]),
            Kind::Real => Real(vec![0.0; length]),
        }
    }

    fn lend(&mut self) -> Slice<'_> {
        match self {
            Whole(words) => Slice::Whole(words),
            Wide(words) => Slice::Wide(words),
            Real(words) => Slice::Real(words),
        }
    }

    fn addresses(&self) -> Range<usize> {
        let start = match self {
            Whole(words) => words.as_ptr() as usize,
            Wide(words) => words.as_ptr() as usize,
            Real(words) => words.as_ptr() as usize,
        };
        start..start + self.bytes()
    }

    fn bytes(&self) -> usize {
        match self {
            Whole(words) => size_of_val(&words[..]),
            Wide(words) => size_of_val(&words[..]),
            Real(words) => size_of_val(&words[..]),
        }
    }
}

impl From<Returned> for Done {
    fn from(returned: Returned) -> Self {
        let (refusal, pushes, number) = match returned {
            Returned::Number(refusal) => (refusal, 0, 0.0),
            Returned::Built(built) => (built.refusal, 0, 0.0),
            Returned::Found(found) => (found.refusal, 0, f64::from(found.found)),
            Returned::Weighed(weighed) => (weighed.refusal, 0, weighed.weight),
            Returned::Solved(solved) => (solved.refusal, solved.push_count as usize, solved.residual_norm),
            Returned::Scored(scored) => (scored.refusal, 0, scored.score),
        };
        assert_eq!(refusal, 0, "what is measured is not refused");
        Self { pushes, number }
    }
}
