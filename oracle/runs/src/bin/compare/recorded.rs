//! The recorded answers of the repaired Rust's solvers: each call is made of the proved library, and compared whole with what
//! stands in its record. The Rust is not called.
use crate::calls::made::Made;
use crate::vectors;
use runs::comparison::Comparison;
use runs::jobs::program::root;
use runs::recorded::called::Called;
use runs::recorded::layout::Record;
use std::fmt::{Debug, Formatter, Result};
use std::fs;

/// The refusals that records reach. Number 2 takes more links, or more sources or targets, than a record has room for.
const REFUSALS: [u32; 6] = [1, 3, 4, 5, 6, 7];

/// A record, and its number in the recording, counted from 1.
#[derive(Clone)]
struct Numbered {
    number: usize,
    record: Record,
}

pub fn compare(comparison: &mut Comparison) {
    let records = recording();
    for called in Called::all() {
        let kind = format!("recorded, {}", called.name());
        comparison.kind(&kind, of_call(&records, called), |record| record.difference(false), |_| Vec::new());
    }
    for (name, refused) in [("done", false), ("refused", true)] {
        let like = |numbered: &Numbered| (numbered.record.refusal != 0) == refused;
        let count = |called: &Called| of_call(&records, *called).filter(like).count() as u64;
        let counts: Vec<(String, u64)> = Called::all().iter().map(|called| (called.name(), count(called))).collect();
        reached(comparison, &format!("recorded, each call {name}"), &counts);
    }
    let count = |number: u32| records.iter().filter(|numbered| numbered.record.refusal == number).count() as u64;
    let counts = REFUSALS.map(|number| (number.to_string(), count(number)));
    reached(comparison, "recorded, each refusal but 2", &counts);
}

/// Each call with a wrong digit in its answers.
pub fn planted(comparison: &mut Comparison) {
    let records = recording();
    for called in Called::all() {
        let kind = format!("recorded, {}, planted", called.name());
        comparison.kind(&kind, of_call(&records, called), |record| record.difference(true), |_| Vec::new());
    }
}

fn recording() -> Vec<Numbered> {
    let path = root().join("oracle/recorded/solver");
    let bytes = fs::read(&path).unwrap_or_else(|error| panic!("{}: {error}", path.display()));
    let records = Record::all(&bytes).unwrap_or_else(|error| panic!("{}: {error}", path.display()));
    (1..).zip(records).map(|(number, record)| Numbered { number, record }).collect()
}

fn of_call(records: &[Numbered], called: Called) -> impl Iterator<Item = Numbered> + '_ {
    records.iter().filter(move |numbered| numbered.record.called() == called).cloned()
}

fn reached(comparison: &mut Comparison, name: &str, counts: &[(String, u64)]) {
    let counts: Vec<(&str, u64)> = counts.iter().map(|(thing, count)| (thing.as_str(), *count)).collect();
    comparison.reached(name, &counts);
}

impl Numbered {
    /// What differs, if anything; where it is `planted`, a digit of what a call has done is turned before.
    fn difference(&self, planted: bool) -> Option<String> {
        let outcome = match self.record.outcome() {
            Ok(outcome) => outcome,
            Err(error) => return Some(error),
        };
        let planted = planted && self.record.refusal == 0;
        match self.record.called() {
            Called::Solve(entry) => {
                let call = self.record.solve(entry);
                let mut made = Made::of(&call);
                if planted {
                    made.spoil();
                }
                made.difference(&outcome)
            }
            Called::OfVectors(entry) => vectors::difference(&self.record.case(entry), &outcome, planted),
        }
    }
}

impl Debug for Numbered {
    fn fmt(&self, out: &mut Formatter<'_>) -> Result {
        write!(out, "record {}, ", self.number)?;
        match self.record.called() {
            Called::Solve(entry) => self.record.solve(entry).fmt(out),
            Called::OfVectors(entry) => self.record.case(entry).fmt(out),
        }
    }
}
