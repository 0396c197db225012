//! A call that was made: what it returned, what it left in every buffer, and how that differs from an expected outcome.
use super::buffer::Buffer;
use super::part::{Memory, Part};
use runs::calls::call::Call;
use runs::calls::entry::{Entry, Task};
use runs::calls::make::{make, Read};
use runs::calls::outcome::{Outcome, Returned};
use runs::calls::shape::Shape;
use std::cell::Cell;

pub struct Made<'a> {
    call: &'a Call,
    first: Part<u32>,
    second: Part<u32>,
    weights: Part<f64>,
    many: Part<u32>,
    written: Vec<Buffer>,
    returned: Returned,
}

/// What lists that share memory were, of those that a call reads.
const SHARING: [&str; 4] =
    ["the first two lists", "the first and the sources", "the second and the sources", "weights and another"];

thread_local! {
    /// How many calls had these lists share memory.
    static SHARED: Cell<[u64; 4]> = const { Cell::new([0; 4]) };
    /// How many calls, by the number that they were refused with, left NaNs of both kinds as they were.
    static NANS_LEFT: Cell<[u64; 8]> = const { Cell::new([0; 8]) };
}

/// Begins to count anew.
pub fn forget() {
    SHARED.take();
    NANS_LEFT.take();
}

/// Counts a refusal that has left these buffers as they were, if there are NaNs in them.
pub fn note_refusal(outcome: &Outcome, written: &[Buffer]) {
    if let Outcome::Refused(number) = outcome {
        let mut left = NANS_LEFT.get();
        left[*number as usize] += u64::from(written.iter().any(Buffer::has_nans));
        NANS_LEFT.set(left);
    }
}

/// How many calls, by these numbers, were refused and left NaNs of both kinds as they were.
pub fn nans_left(numbers: &[u32]) -> Vec<(&'static str, u64)> {
    const NAMES: [&str; 8] = ["0", "1", "2", "3", "4", "5", "6", "7"];
    let left = NANS_LEFT.get();
    numbers.iter().map(|&number| (NAMES[number as usize], left[number as usize])).collect()
}

/// How many calls had lists share memory: sources or targets too, if calls take them.
pub fn shared(of_many: bool) -> Vec<(&'static str, u64)> {
    let counted = SHARING.into_iter().zip(SHARED.get());
    counted.filter(|(name, _)| of_many || !name.ends_with("sources")).collect()
}

impl<'a> Made<'a> {
    /// Makes the call.
    pub fn of(call: &'a Call) -> Self {
        let (first, second) = (Part::own(&call.first), Part::own(&call.second));
        Self::reading(call, first, second, Part::own(&call.weights), Part::own(&call.wish.many))
    }

    /// Makes the call with the lists that it reads in one memory, which they share as far as their contents allow.
    pub fn sharing(call: &'a Call) -> Self {
        let mut memory = Memory::default();
        memory.put(&call.weights);
        memory.put(&call.first);
        memory.put(&call.second);
        memory.put(&call.wish.many);
        let of_many = call.entry.task() == Some(Task::Multi);
        let of_weights = memory.overlap(0, 1) || memory.overlap(0, 2) || of_many && memory.overlap(0, 3);
        let [first, second] = [1, 2].map(|list| of_many && memory.overlap(list, 3));
        let mut shared = SHARED.get();
        for (count, found) in shared.iter_mut().zip([memory.overlap(1, 2), first, second, of_weights]) {
            *count += u64::from(found);
        }
        SHARED.set(shared);
        let made = memory.made();
        Self::reading(call, made.part(1), made.part(2), made.part(0), made.part(3))
    }

    fn reading(call: &'a Call, first: Part<u32>, second: Part<u32>, weights: Part<f64>, many: Part<u32>) -> Self {
        let lend = |(shape, &length): (&Shape, &usize)| Buffer::patterned(shape.kind, length);
        let mut written: Vec<Buffer> = call.entry.written().iter().zip(&call.lengths).map(lend).collect();
        let read = Read { first: first.slice(), second: second.slice(), weights: weights.slice(), many: many.slice() };
        let returned = make(call, &read, &mut written.iter_mut().map(Buffer::lend));
        Self { call, first, second, weights, many, written, returned }
    }

    /// What differs from the expected outcome, if anything.
    pub fn difference(&self, expected: &Outcome) -> Option<String> {
        let entry = self.call.entry;
        let (name, returned) = (entry.name(), self.returned);
        let right = match expected {
            Outcome::Refused(number) => Returned::refused(entry, *number),
            Outcome::Done { returned, .. } => *returned,
        };
        if let Some(unlike) = returned.unlike(right, &name) {
            return Some(unlike);
        }
        if let Some(read) = self.read_altered() {
            return Some(format!("{name} has written to {read}, which it was lent to read"));
        }
        for (place, (shape, buffer)) in entry.written().iter().zip(&self.written).enumerate() {
            if let Some(found) = buffer.difference(expected, place) {
                return Some(format!("{name} returns {returned:?}, but {}{found}", shape.name));
            }
        }
        note_refusal(expected, &self.written);
        None
    }

    /// The name of a list that was lent to be read, and has changed.
    fn read_altered(&self) -> Option<&'static str> {
        let call = self.call;
        let graph =
            [self.first.altered(&call.first), self.second.altered(&call.second), self.weights.altered(&call.weights)];
        let of_graph = call.entry.given().iter().zip(graph).find(|(_, altered)| *altered);
        let many = self.many.altered(&call.wish.many).then_some("the list of sources or targets");
        of_graph.map(|(shape, _)| shape.name).or(many)
    }

    /// An entry that takes rows, on those that `from_edges` has left: a caller cuts them to the kept links.
    pub fn on_rows_left(&self, entry: Entry) -> Call {
        let (Returned::Built(built), [Buffer::Whole(starts), Buffer::Whole(columns), Buffer::Real(weights), ..]) =
            (self.returned, &self.written[..])
        else {
            unreachable!("a call of `from_edges`")
        };
        let kept = built.kept as usize;
        let (columns, weights) = (columns.slice()[..kept].to_vec(), weights.slice()[..kept].to_vec());
        Call::on_rows(entry, self.call.nodes, starts.slice().to_vec(), columns, weights)
    }

    /// Turns the last digit of the first number that the call has written.
    pub fn spoil(&mut self) {
        self.written.first_mut().into_iter().for_each(Buffer::spoil);
    }
}
