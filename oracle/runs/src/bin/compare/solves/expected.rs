//! What a solve is to come to: a refusal, or what the extended Rust gives. That is held to the statement for the stop, and to what
//! the repaired Rust gives where that can be asked, since the call has the adaptive numbers that are in its code.
use super::stop::Statement;
use crate::calls::buffer::turned;
use extended::adaptions;
use repaired::graph::PushGraph;
use runs::calls::call::{Call, Wish};
use runs::calls::entry::{Entry, Question, Solver};
use runs::calls::extended::Theirs as Extended;
use runs::calls::given;
use runs::calls::outcome::{Outcome, Returned};
use runs::calls::refusal::refusal;
use runs::calls::repaired::{takes, Theirs as Repaired};
use runs::comparison::same;
use std::cell::Cell;

/// A graph of more nodes and links than this is large: a solve of it takes the Rust so long that solving each with both copies would
/// be a large part of the whole comparison.
const LARGE: usize = 20_000;

/// Of large graphs, the repaired Rust is asked for one in so many.
const ONE_IN: usize = 4;

thread_local! {
    /// How many answers both copies gave alike, and of how many of these the threshold could adapt.
    static ALIKE: Cell<[u64; 2]> = const { Cell::new([0; 2]) };
}

/// Begins to count anew.
pub fn forget() {
    ALIKE.take();
}

pub fn alike() -> [(&'static str, u64); 2] {
    let [all, adapted] = ALIKE.get();
    [("answers", all), ("of these past a step of an adaptive threshold", adapted)]
}

/// The Rust's solver of a graph, and what its solves are held to.
pub struct Expected {
    theirs: Extended,
    /// Where it is asked too.
    repaired: Option<Repaired>,
    statement: Statement,
}

impl Expected {
    pub fn new(solver: Solver, graph: PushGraph, wish: &Wish) -> Self {
        let statement = Statement::new(solver, &graph);
        let repaired = asks_both(solver, &graph, wish).then(|| Repaired::new(solver, graph.clone(), wish));
        Self { theirs: Extended::new(solver, graph, wish), repaired, statement }
    }

    /// The outcome of a call that is not refused; or where the Rust's own vectors break the statement, or its copies differ, how
    /// they do.
    pub fn done(&self, wish: &Wish, question: Question) -> Result<Outcome, String> {
        let before = adaptions::all();
        let outcome = self.theirs.done(wish, question);
        let adapted = adaptions::all() > before;
        if let Some(repaired) = &self.repaired {
            if let Some(told) = unlike(question, &numbers(&outcome), &repaired.numbers(wish, question.task)) {
                return Err(told);
            }
            let [all, of_these] = ALIKE.get();
            ALIKE.set([all + 1, of_these + u64::from(adapted)]);
        }
        self.statement.broken(question, &wish.settings, &outcome).map_or(Ok(outcome), Err)
    }

    /// How the Rust's vectors break the statement once they are spoiled.
    pub fn spoiled(&self, wish: &Wish, question: Question) -> Option<String> {
        let mut outcome = self.theirs.done(wish, question);
        self.statement.spoil(&wish.settings, &mut outcome);
        self.statement.broken(question, &wish.settings, &outcome)
    }

    /// How the copies differ once the last digit of one's first number is turned.
    pub fn copy_spoiled(&self, wish: &Wish, question: Question) -> Option<String> {
        let mut numbers = numbers(&self.theirs.done(wish, question));
        numbers.first_mut().into_iter().for_each(|number| *number = turned(*number));
        unlike(question, &numbers, &self.repaired.as_ref()?.numbers(wish, question.task))
    }
}

/// Whether the repaired Rust is asked too.
fn asks_both(solver: Solver, graph: &PushGraph, wish: &Wish) -> bool {
    let size = graph.num_nodes() + graph.adjacency.nnz();
    let drawn = size + wish.source as usize + wish.target as usize;
    let second = solver != Solver::Bidirectional || takes(&wish.backward_settings);
    takes(&wish.settings) && second && (size <= LARGE || drawn % ONE_IN == 0)
}

/// All numbers that the Rust's own call has returned, one after the other, as `Theirs::numbers` has them.
fn numbers(outcome: &Outcome) -> Vec<f64> {
    let Outcome::Done { returned, answer } = outcome else { unreachable!("a call that is not refused") };
    match returned {
        Returned::Solved(solved) => {
            let counts = [solved.push_count as f64, solved.nodes_visited as f64, solved.residual_norm];
            counts.into_iter().chain(answer.iter().flat_map(|contents| contents.reals()).copied()).collect()
        }
        Returned::Scored(scored) => vec![scored.score],
        _ => answer.last().expect("every score").reals().to_vec(),
    }
}

/// How the answers of both copies differ, if they do.
fn unlike(question: Question, extended: &[f64], repaired: &[f64]) -> Option<String> {
    assert_eq!(extended.len(), repaired.len(), "an answer has as many numbers from either copy");
    let place = (0..extended.len()).find(|&place| !same(extended[place], repaired[place]))?;
    let (name, a, b) = (question.name(), extended[place], repaired[place]);
    Some(format!("number {place} of what {name} of the extended Rust gives is {a:?}, and {b:?} of the repaired one"))
}

/// The outcome of a call of any kind, likewise.
pub fn outcome(call: &Call) -> Result<Outcome, String> {
    match (refusal(call), call.entry) {
        (0, Entry::Solve(question, _)) => {
            Expected::new(question.solver, given::graph(call), &call.wish).done(&call.wish, question)
        }
        (0, _) => unreachable!("a solve"),
        (number, _) => Ok(Outcome::Refused(number)),
    }
}
