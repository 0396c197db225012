//! One piece of work that both sides do: how long it takes them, what memory it takes them, and that they come to the same.
use crate::heap::peak;
use crate::keep;
use crate::table;
use crate::theirs::Done;
use runs::timing::{interleaved, Timed};

/// What one side does.
pub type Side<'a> = Box<dyn FnMut() -> Done + 'a>;

pub struct Work<'a> {
    /// The first cells of its line in a table.
    pub labels: Vec<String>,
    /// What its time is divided by: links, pushes, calls.
    pub units: usize,
    /// The bytes that the proved library is lent to write.
    pub lent: usize,
    pub ours: Side<'a>,
    pub theirs: Side<'a>,
}

/// The columns of a table of works, behind those that are the table's own.
pub const COLUMNS: [&str; 6] = ["rounds", "proved library", "Rust", "ratio", "lent (bytes)", "Rust's peak heap (bytes)"];

impl Work<'_> {
    /// Sees that both sides come to the same.
    pub fn check(&mut self) {
        let (ours, theirs) = ((self.ours)(), (self.theirs)());
        assert!(ours.agrees(&theirs), "{}: {ours:?} against {theirs:?}", self.labels[0]);
    }

    /// Checks it, and prints its line of a table.
    pub fn print(mut self, rounds: usize) -> Timed {
        self.check();
        let timed = interleaved(rounds, self.units, || keep((self.ours)()), || keep((self.theirs)()));
        let mut cells = self.labels;
        cells.push(table::grouped(rounds));
        cells.extend(table::sides(&timed));
        cells.extend([self.lent, peak(self.theirs)].map(table::grouped));
        table::line(&cells);
        timed
    }

    /// Lets one side work, or both, or neither: for a tool that counts instructions.
    pub fn once(mut self, side: &str) {
        if matches!(side, "ours" | "both") {
            keep((self.ours)());
        }
        if matches!(side, "theirs" | "both") {
            keep((self.theirs)());
        }
    }
}
