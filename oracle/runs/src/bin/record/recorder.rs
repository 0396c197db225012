//! Puts records one after the other, and says what they hold.
use crate::solves::recorded::Recorded;
use crate::solves::vectors::Vectors;
use runs::calls::outcome::Outcome;
use runs::calls::vectors;
use runs::recorded::layout::{Record, RECORDS};

#[derive(Default)]
pub struct Recorder {
    records: Vec<u8>,
    answers: usize,
    refused: usize,
    pushes: u32,
}

impl Recorder {
    fn put(&mut self, record: &Record) {
        self.answers += 1;
        self.refused += usize::from(record.refusal != 0);
        self.pushes = self.pushes.max(record.pushes);
        self.records.extend(record.bytes());
    }

    pub fn solve(&mut self, recorded: &Recorded, outcome: &Outcome) {
        self.put(&Record::of_solve(&recorded.call, recorded.read, outcome));
    }

    pub fn vectors(&mut self, entry: vectors::Entry, call: &Vectors, outcome: &Outcome) {
        self.put(&Record::of_vectors(entry, &call.read, call.settings, &call.lengths, outcome));
    }

    pub fn finished(self) -> Vec<u8> {
        let Self { records, answers, refused, pushes } = self;
        eprintln!("{answers} answers, {refused} refused, up to {pushes} pushes, {} bytes", records.len());
        assert_eq!(answers, RECORDS, "who reads them asks for so many");
        records
    }
}
