//! The Rust's side of the calls that solve, on a graph that is there.
use crate::keep;
use repaired::graph::PushGraph;
use repaired::solver::backward_push::BidirectionalPushSolver;
use runs::calls::call::Wish;
use runs::calls::entry::{Solver, Task};
use runs::calls::repaired::{backward_config, forward_config, Theirs as OneWay};

/// What both sides come to: the norm of a solve and its pushes, or a score; nothing where the answer is a list.
#[derive(Debug)]
pub struct Done {
    pub pushes: usize,
    pub number: f64,
}

/// The Rust's solver of a graph.
pub enum Theirs {
    OneWay(OneWay),
    Both(BidirectionalPushSolver),
}

impl Theirs {
    pub fn new(solver: Solver, graph: PushGraph, wish: &Wish) -> Self {
        match solver {
            Solver::Bidirectional => {
                let (forward, backward) = (forward_config(&wish.settings), backward_config(&wish.backward_settings));
                Self::Both(BidirectionalPushSolver::new(graph, forward, backward))
            }
            _ => Self::OneWay(OneWay::new(solver, graph, wish)),
        }
    }

    /// The one call of the Rust that a task stands for.
    pub fn solve(&self, wish: &Wish, task: Task) -> Done {
        let (source, target) = (wish.source as usize, wish.target as usize);
        match (self, task) {
            (Self::Both(solver), Task::Adaptive) => Done::number(solver.adaptive_solve(source, target)),
            (Self::Both(solver), _) => Done::number(solver.solve_bidirectional(source, target)),
            (Self::OneWay(solver), Task::Query) => Done::number(solver.score(wish)),
            (Self::OneWay(OneWay::Backward(solver)), Task::Reachability) => {
                Done::listed(solver.reachability_probabilities(target))
            }
            (Self::OneWay(solver), _) => {
                let run = solver.solved(wish, task);
                Done { pushes: run.push_count, number: run.residual_norm }
            }
        }
    }
}

impl Done {
    /// What comes to a list, which nothing reads.
    pub fn listed<T>(list: T) -> Self {
        keep(list);
        Self::number(0.0)
    }

    pub fn number(number: f64) -> Self {
        Self { pushes: 0, number }
    }

    /// Both sides have done the same work.
    pub fn agrees(&self, other: &Self) -> bool {
        (self.pushes, self.number.to_bits()) == (other.pushes, other.number.to_bits())
    }
}
