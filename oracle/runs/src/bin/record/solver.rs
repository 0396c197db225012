//! Records what the repaired Rust's solvers answer on small graphs, one record to a call, for `compare recorded` to make the
//! public calls of the proved library and compare their answers. `runs::recorded` says how a record is laid out.
use crate::recorder::Recorder;
use crate::solves::recorded::Recorded;
use crate::solves::vectors::{self, Vectors};
use crate::solves::{damage, drawn};
use repaired::graph::PushGraph;
use repaired::solver::backward_push::{BackwardPushResult, BackwardPushSolver};
use repaired::solver::forward_push::{ForwardPushResult, ForwardPushSolver};
use runs::calls::approach;
use runs::calls::entry::{Entry, Form, Question, Solver, Task};
use runs::calls::outcome::{Contents, Outcome, Returned};
use runs::calls::repaired::{backward_config, forward_config};
use runs::calls::vectors::Entry::{Combined, Extrapolated};
use runs::entries::Scored;
use runs::random::Random;
use runs::recorded::called::solves;

/// A part of the recording: some of the solves, and a call that takes their vectors.
struct Part {
    solves: Vec<Entry>,
    combining: Combining,
    /// How many sound calls of each are drawn, how many besides that watch a node, and how many with several damages.
    drawn: usize,
    watching: usize,
    damaged: usize,
    /// Whether each threshold at the floor and each length, one short and one long, is recorded of every solve; else they
    /// come by turns.
    each: bool,
}

/// A call that takes vectors alone.
struct Combining {
    entry: runs::calls::vectors::Entry,
    /// The solves whose vectors it takes.
    of: Vec<Entry>,
    outcome: fn(&Vectors) -> Outcome,
    /// What it is given where it is refused.
    refused: &'static [&'static [f64]],
}

fn single(solver: Solver) -> Entry {
    Entry::Solve(Question { solver, task: Task::Single }, Form::Links)
}

fn extrapolated(call: &Vectors) -> Outcome {
    let solver = ForwardPushSolver::new(PushGraph::from_edges(0, &[]), forward_config(&call.settings));
    let (estimate, residual) = (call.read[0].clone(), call.read[1].clone());
    let given = ForwardPushResult { estimate, residual, push_count: 0, nodes_visited: 0, residual_norm: 0.0 };
    let answer = vec![Contents::Real(solver.extrapolated_solution(&given))];
    Outcome::Done { returned: Returned::Number(0), answer }
}

fn combined(call: &Vectors) -> Outcome {
    let solver = BackwardPushSolver::new(PushGraph::from_edges(0, &[]), backward_config(&call.settings));
    let (estimate, residual) = (call.read[0].clone(), call.read[1].clone());
    let given = BackwardPushResult { estimate, residual, push_count: 0, nodes_visited: 0, residual_norm: 0.0 };
    let score = solver.combine_with_forward(&given, &call.read[2], &call.read[3]);
    Outcome::Done { returned: Returned::Scored(Scored { refusal: 0, score }), answer: Vec::new() }
}

/// The forward solves and the extrapolation of one.
fn forward() -> Part {
    let combining = Combining {
        entry: Extrapolated,
        of: vec![single(Solver::Forward)],
        outcome: extrapolated,
        refused: &[&[0.5, 0.25, 0.0], &[0.0, 0.25, 0.5]],
    };
    let solves = solves().into_iter().filter(|entry| entry.pushes_forward()).collect();
    Part { solves, combining, drawn: 54, watching: 6, damaged: 40, each: true }
}

/// The backward solves, those of both ways, and a backward solve combined with a forward one.
fn backward() -> Part {
    let combining = Combining {
        entry: Combined,
        of: vec![single(Solver::Backward), single(Solver::Forward)],
        outcome: combined,
        refused: &[&[0.5, 0.25, 0.0], &[0.0, 0.25, 0.5], &[0.125, 0.5, 0.25], &[0.25, 0.0, 0.125]],
    };
    let solves = solves().into_iter().filter(|entry| !entry.pushes_forward()).collect();
    Part { solves, combining, drawn: 15, watching: 5, damaged: 18, each: false }
}

fn sound(r: &mut Recorder, recorded: &Recorded) {
    r.solve(recorded, &recorded.outcome());
}

fn refused(r: &mut Recorder, (recorded, number): (Recorded, u32)) {
    r.solve(&recorded, &Outcome::Refused(number));
}

impl Part {
    fn sound(&self, r: &mut Recorder, random: &mut Random) {
        let Combining { entry: combining, of, outcome, .. } = &self.combining;
        for _ in 0..self.drawn {
            for &entry in &self.solves {
                sound(r, &drawn::solve(random, entry));
            }
            let call = vectors::drawn(random, of, combining.written());
            r.vectors(*combining, &call, &outcome(&call));
        }
        for &entry in self.solves.iter().filter(|entry| entry.task() == Some(Task::Watched)) {
            for _ in 0..self.watching {
                sound(r, &drawn::watched(random, entry));
            }
        }
    }

    /// For each solve some pushes beyond the first thousand, with a threshold that adapts and one that does not.
    fn long(&self, r: &mut Recorder, random: &mut Random) {
        let next_up = f64::from_bits(1e-12f64.to_bits() + 1);
        for &entry in &self.solves {
            for _ in 0..=usize::from(self.each) {
                sound(r, &drawn::long(random, entry, true));
            }
            sound(r, &drawn::long(random, entry, false));
            for (threshold, by_turns) in [(1e-12, !entry.takes_rows()), (next_up, entry.takes_rows())] {
                if self.each || by_turns {
                    sound(r, &drawn::floor(entry, threshold));
                }
            }
        }
    }

    /// The solves that share the damages of this one: those of its form that push as many ways.
    fn sharing(&self, entry: Entry) -> Vec<Entry> {
        let kind = |entry: Entry| (entry.takes_rows(), entry.pushes_both_ways());
        self.solves.iter().copied().filter(|&other| kind(other) == kind(entry)).collect()
    }

    /// Every damage by itself, shared out among the calls, and then several at once.
    fn refusals(&self, r: &mut Recorder, random: &mut Random) {
        for &entry in &self.solves {
            let sharing = self.sharing(entry);
            let turn = sharing.iter().position(|&other| other == entry).expect("it shares with itself");
            let all = damage::damages(entry).into_iter().enumerate();
            let kept = all.filter(|(place, damage)| self.each || damage.number != 3 || place / 2 % 2 == place % 2);
            for (place, (_, damage)) in kept.enumerate() {
                if place % sharing.len() == turn || damage.number == 7 {
                    refused(r, damage::refused(random, entry, std::iter::once(&damage)));
                }
            }
        }
        let Combining { entry: combining, refused: given, .. } = self.combining;
        for (call, number) in vectors::refused(random, given, combining.written()) {
            r.vectors(combining, &call, &Outcome::Refused(number));
        }
        for _ in 0..self.damaged {
            refused(r, damage::several(random, &self.solves));
        }
    }
}

pub fn recording() -> Vec<u8> {
    let mut recorder = Recorder::default();
    for (part, seed) in [(forward(), 11), (backward(), 12)] {
        let mut random = Random::new(seed);
        part.sound(&mut recorder, &mut random);
        part.long(&mut recorder, &mut random);
        part.refusals(&mut recorder, &mut random);
    }
    let taken = approach::taken();
    assert!(taken.iter().all(|(_, count)| *count > 0), "adaptive solves take each approach: {taken:?}");
    recorder.finished()
}
