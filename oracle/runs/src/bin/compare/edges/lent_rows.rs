//! Rows that are lent once, and searched for many links.
use crate::calls::part::Part;
use runs::calls::call::Call;
use runs::calls::entry::Entry;
use runs::calls::make::{make, Read};
use runs::calls::outcome::Returned;
use std::iter::empty;

pub struct LentRows {
    /// The last search, or the next.
    call: Call,
    starts: Part<u32>,
    columns: Part<u32>,
    weights: Part<f64>,
}

impl LentRows {
    /// Those of a call on rows.
    pub fn new(call: Call) -> Self {
        let (starts, columns) = (Part::own(&call.first), Part::own(&call.second));
        Self { starts, columns, weights: Part::own(&call.weights), call }
    }

    /// Searches them.
    pub fn search(&mut self, entry: Entry, from: u32, to: u32) -> Returned {
        self.call.entry = entry;
        (self.call.wish.source, self.call.wish.target) = (from, to);
        let (first, second) = (self.starts.slice(), self.columns.slice());
        let read = Read { first, second, weights: self.weights.slice(), many: &[] };
        make(&self.call, &read, &mut empty())
    }

    /// Says so if a search has written to them, or beside them.
    pub fn altered(&self) -> Option<String> {
        let Call { first, second, weights, .. } = &self.call;
        let altered = self.starts.altered(first) || self.columns.altered(second) || self.weights.altered(weights);
        altered.then(|| "a search has written to a list that it was lent to read".to_string())
    }
}
