//! Makes a call: passes what it is given, and lends its buffers, to the entry that it names.
use super::call::Call;
use super::entry::{Entry, Form, Question, Solver, Task};
use super::lending::{Lending, Slice};
use super::outcome::Returned::{self, Built, Found, Number, Scored, Solved, Weighed};
use crate::entries::{self, Links, Rows};

/// The lists that a call is lent to read.
pub struct Read<'a> {
    pub first: &'a [u32],
    pub second: &'a [u32],
    pub weights: &'a [f64],
    pub many: &'a [u32],
}

pub fn make<'a>(call: &Call, read: &Read, written: &mut dyn Iterator<Item = Slice<'a>>) -> Returned {
    let links = Links { n: call.nodes, from: read.first, to: read.second, weight: read.weights };
    let rows = Rows { n: call.nodes, starts: read.first, columns: read.second, weights: read.weights };
    let mut lent = Lending(written);
    match call.entry {
        Entry::FromEdges => Built(entries::from_edges(links, lent.rows(), lent.wholes())),
        Entry::FromMatrix => Number(entries::from_matrix(rows, lent.rows(), lent.reals(), lent.reals(), lent.wholes())),
        Entry::Transpose => Number(entries::transpose(rows, lent.rows(), lent.wholes())),
        Entry::RowSums => Number(entries::row_sums(rows, lent.reals())),
        Entry::HasEdge => Found(entries::has_edge(rows, call.wish.source, call.wish.target)),
        Entry::EdgeWeight => Weighed(entries::edge_weight(rows, call.wish.source, call.wish.target)),
        Entry::Solve(question, Form::Links) => of_links(call, question, links, read.many, lent),
        Entry::Solve(question, Form::Rows) => of_rows(call, question, rows, read.many, lent),
    }
}

/// Calls an entry with what it is asked, and with its buffers in the order of its parameters.
macro_rules! solve {
    ($entry:ident($($asked:expr),*), $lent:ident: $($part:ident),*) => {
        entries::$entry($($asked,)* $($lent.$part()),*)
    };
}

fn of_links(call: &Call, question: Question, given: Links, many: &[u32], mut lent: Lending) -> Returned {
    let wish = &call.wish;
    let (source, target, precision) = (wish.source, wish.target, wish.precision);
    let (settings, backward) = (wish.settings, wish.backward_settings);
    match (question.task, question.solver) {
        (Task::Single, Solver::Forward) => {
            Solved(solve!(solve_single_source_links(given, source, settings), lent: pair, rows, reals, queue))
        }
        (Task::Multi, Solver::Forward) => {
            Solved(solve!(solve_multi_source_links(given, many, settings), lent: pair, rows, reals, queue))
        }
        (Task::Watched, Solver::Forward) => Solved(solve!(
            solve_with_target_links(given, source, target, precision, settings), lent: pair, rows, reals, queue
        )),
        (Task::Query, Solver::Forward) => {
            Scored(solve!(query_single_entry_links(given, source, target, settings), lent: pair, rows, reals, queue))
        }
        (Task::Single, _) => Solved(solve!(
            solve_single_target_links(given, target, settings), lent: pair, rows, rows, reals, reals, queue
        )),
        (Task::Multi, _) => Solved(solve!(
            solve_multi_target_links(given, many, settings), lent: pair, rows, rows, reals, reals, queue
        )),
        (Task::Watched, _) => Solved(solve!(
            solve_with_source_links(given, source, target, precision, settings),
            lent: pair, rows, rows, reals, reals, queue
        )),
        (Task::Query, _) => Scored(solve!(
            query_transition_probability_links(given, source, target, settings),
            lent: pair, rows, rows, reals, reals, queue
        )),
        (Task::Reachability, _) => Number(solve!(
            reachability_probabilities_links(given, target, settings),
            lent: pair, reals, rows, rows, reals, reals, queue
        )),
        (Task::Together, _) => Scored(solve!(
            solve_bidirectional_links(given, source, target, settings, backward),
            lent: pair, pair, rows, rows, reals, reals, queue
        )),
        (Task::Adaptive, _) => Scored(solve!(
            adaptive_solve_links(given, source, target, settings, backward),
            lent: pair, pair, rows, rows, reals, reals, queue
        )),
    }
}

fn of_rows(call: &Call, question: Question, given: Rows, many: &[u32], mut lent: Lending) -> Returned {
    let wish = &call.wish;
    let (source, target, precision) = (wish.source, wish.target, wish.precision);
    let (settings, backward) = (wish.settings, wish.backward_settings);
    match (question.task, question.solver) {
        (Task::Single, Solver::Forward) => {
            Solved(solve!(solve_single_source_rows(given, source, settings), lent: pair, reals, queue))
        }
        (Task::Multi, Solver::Forward) => {
            Solved(solve!(solve_multi_source_rows(given, many, settings), lent: pair, reals, queue))
        }
        (Task::Watched, Solver::Forward) => Solved(solve!(
            solve_with_target_rows(given, source, target, precision, settings), lent: pair, reals, queue
        )),
        (Task::Query, Solver::Forward) => {
            Scored(solve!(query_single_entry_rows(given, source, target, settings), lent: pair, reals, queue))
        }
        (Task::Single, _) => {
            Solved(solve!(solve_single_target_rows(given, target, settings), lent: pair, rows, reals, reals, queue))
        }
        (Task::Multi, _) => {
            Solved(solve!(solve_multi_target_rows(given, many, settings), lent: pair, rows, reals, reals, queue))
        }
        (Task::Watched, _) => Solved(solve!(
            solve_with_source_rows(given, source, target, precision, settings),
            lent: pair, rows, reals, reals, queue
        )),
        (Task::Query, _) => Scored(solve!(
            query_transition_probability_rows(given, source, target, settings),
            lent: pair, rows, reals, reals, queue
        )),
        (Task::Reachability, _) => Number(solve!(
            reachability_probabilities_rows(given, target, settings),
            lent: pair, reals, rows, reals, reals, queue
        )),
        (Task::Together, _) => Scored(solve!(
            solve_bidirectional_rows(given, source, target, settings, backward),
            lent: pair, pair, rows, reals, reals, queue
        )),
        (Task::Adaptive, _) => Scored(solve!(
            adaptive_solve_rows(given, source, target, settings, backward),
            lent: pair, pair, rows, reals, reals, queue
        )),
    }
}
