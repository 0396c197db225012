//! The solvers' calls beside the Rust's, on random links: from a list of links to the answer, from rows to the answer, and
//! the pushes alone.
use crate::given::Given;
use crate::keep;
use crate::table;
use crate::theirs::Theirs;
use crate::work::COLUMNS;
use runs::calls::call::Wish;
use runs::calls::entry::{Entry, Form, Question, Solver, Task};
use runs::entries::Settings;
use runs::timing::{elapsed, interleaved_times, Timed};

/// Rounds of the calls that say most, and of the others, which do much the same work, at each size.
const ROUNDS: [usize; 3] = [31, 15, 11];
const FEWER_ROUNDS: [usize; 3] = [15, 0, 9];

pub const SOLVERS: [Solver; 3] = [Solver::Forward, Solver::Backward, Solver::Bidirectional];

pub fn measure(given: &[Given; 3]) {
    table::head("Solvers: time per push", &["call", "nodes; links", "pushes"], &COLUMNS);
    for entry in SOLVERS.into_iter().flat_map(Solver::entries) {
        let rounds = match entry.task() {
            Some(Task::Single | Task::Together | Task::Adaptive) => ROUNDS,
            _ => FEWER_ROUNDS,
        };
        for (given, rounds) in given.iter().zip(rounds).filter(|(_, rounds)| *rounds > 0) {
            given.divided(entry).print(rounds);
        }
    }

    table::head("Pushes alone: ratio", &["call", "nodes; links"], &["10,000 pushes", "100,000", "1,000,000"]);
    for solver in [Solver::Forward, Solver::Backward] {
        let entry = Entry::Solve(Question { solver, task: Task::Single }, Form::Rows);
        for (given, rounds) in given.iter().zip([[31, 15, 9], [31, 15, 9], [15, 11, 7]]) {
            let asked = [10_000, 100_000, 1_000_000].into_iter().zip(rounds);
            let ratios = asked.map(|(pushes, rounds)| table::ratio(&pushes_alone(given, entry, pushes, rounds).ratio));
            let labels = [table::name(&entry.name()), given.size()];
            table::line(&labels.into_iter().chain(ratios).collect::<Vec<_>>());
        }
    }
}

/// Settings by which a solve makes so many pushes: nothing is below a threshold of zero.
pub fn all_of(pushes: usize) -> Settings {
    Settings { epsilon: 0.0, queue_threshold: 0.0, max_pushes: pushes as u64, ..Settings::DEFAULT }
}

/// A solve of so many pushes less one of none, on both sides, on a graph that is there.
fn pushes_alone(given: &Given, entry: Entry, pushes: usize, rounds: usize) -> Timed {
    let Entry::Solve(Question { solver, task }, _) = entry else { unreachable!("a solve") };
    let wishing = |pushes: usize| Wish { settings: all_of(pushes), ..given.wish.clone() };
    let wishes = [wishing(pushes), wishing(0)];
    let [all, none] = wishes.each_ref().map(|wish| Theirs::new(solver, given.graph.clone(), wish));
    let mut ours = given.ours(entry, &wishes[0]);
    let result = all.solve(&wishes[0], task);
    assert_eq!(result.pushes, pushes, "a run makes all its pushes");
    assert!(ours.make().agrees(&result));

    let mut ours = |pushes: usize| {
        ours.call.wish.settings.max_pushes = pushes as u64;
        elapsed(|| keep(ours.make()))
    };
    let theirs = |solver: &Theirs| elapsed(|| keep(solver.solve(&wishes[0], task)));
    interleaved_times(
        rounds,
        pushes,
        || ours(pushes).saturating_sub(ours(0)),
        || theirs(&all).saturating_sub(theirs(&none)),
    )
}
