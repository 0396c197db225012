//! The calls that are recorded, by number, and how what one is given and comes to stands in its record.
use super::layout::{Record, NODES, VECTORS, WORKSPACE};
use crate::calls::call::{Call, Wish};
use crate::calls::entry::{Entry, Form, Question, Solver, Task};
use crate::calls::outcome::{Contents, Outcome, Returned};
use crate::calls::vectors::{self, Case};
use crate::entries::{Scored, Settings, Solved};
use std::ops::Range;

/// A call that is recorded: one that takes a graph, or one that takes vectors alone.
#[derive(Clone, Copy, PartialEq, Eq)]
pub enum Called {
    Solve(Entry),
    OfVectors(vectors::Entry),
}

/// The workspace, in the order of its lengths: by name, and a forward call's by its other name.
const NAMES: [&[&str]; WORKSPACE] = [
    &["starts"],
    &["columns"],
    &["weights"],
    &["reverse_starts"],
    &["reverse_columns"],
    &["reverse_weights"],
    &["in_degrees"],
    &["out_degrees", "degrees"],
    &["priorities"],
    &["nodes"],
    &["queued"],
    &["visited"],
];

/// The solves: those of links, and then those of rows.
pub fn solves() -> Vec<Entry> {
    let one_way = [Task::Multi, Task::Single, Task::Watched, Task::Query];
    let forward = one_way.map(|task| Question { solver: Solver::Forward, task });
    let backward = one_way.map(|task| Question { solver: Solver::Backward, task });
    let reachability = Question { solver: Solver::Backward, task: Task::Reachability };
    let both = [Task::Together, Task::Adaptive].map(|task| Question { solver: Solver::Bidirectional, task });
    let questions = [&forward[..], &backward[..], &[reachability], &both[..]].concat();
    let of = |form: Form| questions.iter().map(move |&question| Entry::Solve(question, form));
    of(Form::Links).chain(of(Form::Rows)).collect()
}

impl Called {
    /// All of them, in the order of their numbers.
    pub fn all() -> Vec<Self> {
        solves().into_iter().map(Self::Solve).chain(vectors::ENTRIES.map(Self::OfVectors)).collect()
    }

    pub fn name(self) -> String {
        match self {
            Self::Solve(entry) => entry.name(),
            Self::OfVectors(entry) => entry.name().to_string(),
        }
    }

    fn number(self) -> u32 {
        Self::all().into_iter().position(|called| called == self).expect("a call that is recorded") as u32
    }

    /// What it returns with a refusal.
    fn refused(self, refusal: u32) -> Returned {
        match self {
            Self::Solve(entry) => Returned::refused(entry, refusal),
            Self::OfVectors(entry) => entry.refused(refusal),
        }
    }

    /// Where in a record the vectors of its answer are.
    fn answered(self) -> Range<usize> {
        match self {
            Self::Solve(entry) => 0..places(entry).into_iter().filter(|&place| place < VECTORS).count(),
            Self::OfVectors(entry) => entry.vectors()..entry.vectors() + entry.written(),
        }
    }
}

/// Where in a record the length of each buffer is that a solve writes: those of its answer are no workspace.
fn places(entry: Entry) -> Vec<usize> {
    let mut vectors = 0..VECTORS;
    let place = |name: &str| match NAMES.iter().position(|names| names.contains(&name)) {
        Some(place) => VECTORS + place,
        None => vectors.next().expect("room for the vectors of an answer"),
    };
    entry.written().iter().map(|shape| shape.name).map(place).collect()
}

/// Puts a list into its room.
fn put<T: Copy>(room: &mut [T], list: &[T]) {
    room[..list.len()].copy_from_slice(list);
}

impl Record {
    /// A solve with its outcome, and how much it is lent of each list that it reads.
    pub fn of_solve(call: &Call, read: [usize; 4], outcome: &Outcome) -> Self {
        let Wish { source, target, many, precision, settings, backward_settings } = &call.wish;
        let mut record = Self::new(Called::Solve(call.entry).number(), [*settings, *backward_settings]);
        (record.nodes, record.source, record.target) = (call.nodes, *source, *target);
        (record.read, record.precision) = (read, *precision);
        for (place, &length) in places(call.entry).into_iter().zip(&call.lengths) {
            record.lent[place] = length;
        }
        put(&mut record.many, many);
        put(&mut record.first, &call.first);
        put(&mut record.second, &call.second);
        put(&mut record.weights, &call.weights);
        record.answering(outcome)
    }

    /// The solve, of an entry.
    pub fn solve(&self, entry: Entry) -> Call {
        let [first, second, weights, many] = self.read;
        let [settings, backward_settings] = self.settings;
        Call {
            entry,
            nodes: self.nodes,
            first: self.first[..first].to_vec(),
            second: self.second[..second].to_vec(),
            weights: self.weights[..weights].to_vec(),
            wish: Wish {
                source: self.source,
                target: self.target,
                many: self.many[..many].to_vec(),
                precision: self.precision,
                settings,
                backward_settings,
            },
            lengths: places(entry).into_iter().map(|place| self.lent[place]).collect(),
        }
    }

    /// A call that takes vectors alone with its outcome, and how much it is lent of each, that of its answer last.
    pub fn of_vectors(
        entry: vectors::Entry,
        read: &[Vec<f64>],
        settings: Settings,
        lengths: &[usize],
        outcome: &Outcome,
    ) -> Self {
        let mut record = Self::new(Called::OfVectors(entry).number(), [settings; 2]);
        put(&mut record.lent, lengths);
        record.vectors.iter_mut().zip(read).for_each(|(room, vector)| put(room, vector));
        record.answering(outcome)
    }

    /// The call that takes vectors alone, of an entry.
    pub fn case(&self, entry: vectors::Entry) -> Case {
        let lent = self.vectors.iter().zip(self.lent);
        let read = lent.take(entry.vectors()).map(|(vector, length)| vector[..length].to_vec()).collect();
        Case { entry, read, alpha: self.settings[0].alpha, length: self.lent[entry.vectors()] }
    }

    /// Whether its number is one of a call.
    pub fn is_of_a_call(&self) -> bool {
        (self.call as usize) < Called::all().len()
    }

    /// Which call it is of.
    pub fn called(&self) -> Called {
        Called::all()[self.call as usize]
    }

    /// The record with this outcome in the place of its own.
    fn answering(mut self, outcome: &Outcome) -> Self {
        let answered = self.called().answered();
        (self.refusal, self.pushes, self.visited, self.number) = (0, 0, 0, 0.0);
        self.vectors[answered.start..].fill([0.0; NODES]);
        match outcome {
            Outcome::Refused(number) => self.refusal = *number,
            Outcome::Done { returned, answer } => {
                match returned {
                    Returned::Solved(Solved { push_count, nodes_visited, residual_norm, .. }) => {
                        (self.pushes, self.visited) = (*push_count as u32, *nodes_visited as u32);
                        self.number = *residual_norm;
                    }
                    Returned::Scored(Scored { score, .. }) => self.number = *score,
                    _ => {}
                }
                for (room, contents) in self.vectors[answered].iter_mut().zip(answer) {
                    put(room, contents.reals());
                }
            }
        }
        self
    }

    /// What the call comes to. Where the record has anything else of an answer, it is not one of this call.
    pub fn outcome(&self) -> Result<Outcome, String> {
        let called = self.called();
        let outcome = if self.refusal == 0 { self.done(called) } else { Outcome::Refused(self.refusal) };
        let again = self.clone().answering(&outcome);
        let more = || format!("the record has more of an answer than {} gives", called.name());
        (again.bytes() == self.bytes()).then_some(outcome).ok_or_else(more)
    }

    fn done(&self, called: Called) -> Outcome {
        let returned = match called.refused(0) {
            Returned::Solved(solved) => Returned::Solved(Solved {
                push_count: u64::from(self.pushes),
                nodes_visited: u64::from(self.visited),
                residual_norm: self.number,
                ..solved
            }),
            Returned::Scored(scored) => Returned::Scored(Scored { score: self.number, ..scored }),
            other => other,
        };
        let vector = |place: usize| Contents::Real(self.vectors[place][..self.lent[place]].to_vec());
        let answer = called.answered().map(vector).collect();
        Outcome::Done { returned, answer }
    }
}
