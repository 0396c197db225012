//! What a copy of the Rust makes of a solve that is not refused. Each copy has types of its own, so `repaired` and `extended` both
//! have this file as a module: `rust` is their copy.
use super::{backward_config, forward_config, graph_of, rust};
use crate::calls::approach::{self, Approach};
use crate::calls::call::{Call, Wish};
use crate::calls::entry::{Question, Solver, Task};
use crate::calls::given;
use crate::calls::outcome::{Contents, Outcome, Returned};
use crate::entries::{Scored, Solved};
use repaired::graph::PushGraph;
use rust::solver::backward_push::{BackwardPushResult, BackwardPushSolver, BidirectionalPushSolver};
use rust::solver::forward_push::{ForwardPushResult, ForwardPushSolver};

/// The outcome of a solve that is not refused.
pub fn done(call: &Call, question: Question) -> Outcome {
    Theirs::new(question.solver, given::graph(call), &call.wish).done(&call.wish, question)
}

/// The Rust's solver of a graph.
pub enum Theirs {
    Forward(ForwardPushSolver),
    Backward(BackwardPushSolver),
    Bidirectional(Box<BothWays>),
}

/// The Rust's solver of both ways returns a score alone: its two solves are made besides, for their vectors.
pub struct BothWays {
    graph: PushGraph,
    forward: ForwardPushSolver,
    backward: BackwardPushSolver,
    both: BidirectionalPushSolver,
}

/// What a solve gives, of either way.
pub struct Run {
    pub estimate: Vec<f64>,
    pub residual: Vec<f64>,
    pub push_count: usize,
    pub nodes_visited: usize,
    pub residual_norm: f64,
}

impl From<ForwardPushResult> for Run {
    fn from(result: ForwardPushResult) -> Self {
        let ForwardPushResult { estimate, residual, push_count, nodes_visited, residual_norm } = result;
        Self { residual_norm: norm(&residual, residual_norm), estimate, residual, push_count, nodes_visited }
    }
}

impl From<BackwardPushResult> for Run {
    fn from(result: BackwardPushResult) -> Self {
        let BackwardPushResult { estimate, residual, push_count, nodes_visited, residual_norm } = result;
        Self { residual_norm: norm(&residual, residual_norm), estimate, residual, push_count, nodes_visited }
    }
}

/// The norm of a residual, for which the Rust gives this. Of no numbers it gives -0.0, and +0 is right here.
fn norm(residual: &[f64], theirs: f64) -> f64 {
    if residual.is_empty() {
        0.0
    } else {
        theirs
    }
}

impl Run {
    /// All its numbers, one after the other.
    fn numbers(self) -> Vec<f64> {
        let counts = [self.push_count as f64, self.nodes_visited as f64, self.residual_norm];
        counts.into_iter().chain(self.estimate).chain(self.residual).collect()
    }
}

impl Theirs {
    pub fn new(solver: Solver, graph: PushGraph, wish: &Wish) -> Self {
        match solver {
            Solver::Forward => Self::Forward(ForwardPushSolver::new(graph_of(graph), forward_config(&wish.settings))),
            Solver::Backward => Self::Backward(BackwardPushSolver::new(graph_of(graph), backward_config(&wish.settings))),
            Solver::Bidirectional => {
                let (first, second) = (forward_config(&wish.settings), backward_config(&wish.backward_settings));
                Self::Bidirectional(Box::new(BothWays {
                    forward: ForwardPushSolver::new(graph_of(graph.clone()), first.clone()),
                    backward: BackwardPushSolver::new(graph_of(graph.clone()), second.clone()),
                    both: BidirectionalPushSolver::new(graph_of(graph.clone()), first, second),
                    graph,
                }))
            }
        }
    }

    /// The outcome of a call that is not refused, on a list of links or on rows.
    pub fn done(&self, wish: &Wish, question: Question) -> Outcome {
        if let Self::Bidirectional(both) = self {
            return both.done(wish, question.task);
        }
        let run = self.solved(wish, question.task);
        let returned = match question.task {
            Task::Query => Returned::Scored(Scored { refusal: 0, score: self.score(wish) }),
            Task::Reachability => Returned::Number(0),
            _ => Returned::Solved(Solved {
                refusal: 0,
                push_count: run.push_count as u64,
                nodes_visited: run.nodes_visited as u64,
                residual_norm: run.residual_norm,
            }),
        };
        let mut answer = vec![Contents::Real(run.estimate), Contents::Real(run.residual)];
        if let (Self::Backward(solver), Task::Reachability) = (self, question.task) {
            answer.push(Contents::Real(solver.reachability_probabilities(wish.target as usize)));
        }
        Outcome::Done { returned, answer }
    }

    /// All numbers that the Rust's own call returns, one after the other, counts too: by these, copies are held to each other.
    pub fn numbers(&self, wish: &Wish, task: Task) -> Vec<f64> {
        match (self, task) {
            (Self::Bidirectional(both), _) => vec![both.score(wish, task)],
            (_, Task::Query) => vec![self.score(wish)],
            (Self::Backward(solver), Task::Reachability) => solver.reachability_probabilities(wish.target as usize),
            _ => self.solved(wish, task).numbers(),
        }
    }

    /// What the Rust's solve one way gives: that of a query, too.
    pub fn solved(&self, wish: &Wish, task: Task) -> Run {
        let (source, target) = (wish.source as usize, wish.target as usize);
        let many = || -> Vec<usize> { wish.many.iter().map(|&node| node as usize).collect() };
        match self {
            Self::Forward(solver) => match task {
                Task::Multi => solver.solve_multi_source(&many()).into(),
                Task::Watched => solver.solve_with_target(source, target, wish.precision).into(),
                _ => solver.solve_single_source(source).into(),
            },
            Self::Backward(solver) => match task {
                Task::Multi => solver.solve_multi_target(&many()).into(),
                Task::Watched => solver.solve_with_source(source, target, wish.precision).into(),
                _ => solver.solve_single_target(target).into(),
            },
            Self::Bidirectional(_) => unreachable!("a solve one way"),
        }
    }

    /// What the Rust's query one way gives.
    pub fn score(&self, wish: &Wish) -> f64 {
        let (source, target) = (wish.source as usize, wish.target as usize);
        match self {
            Self::Forward(solver) => solver.query_single_entry(source, target),
            Self::Backward(solver) => solver.query_transition_probability(source, target),
            Self::Bidirectional(_) => unreachable!("a query one way"),
        }
    }
}

impl BothWays {
    fn done(&self, wish: &Wish, task: Task) -> Outcome {
        let (source, target) = (wish.source as usize, wish.target as usize);
        let score = self.score(wish, task);
        let taken = match task {
            Task::Adaptive => approach::reached(&self.graph, wish.source, wish.target),
            _ => Approach::Together,
        };
        let zeros = || (vec![0.0; self.graph.num_nodes()], vec![0.0; self.graph.num_nodes()]);
        let forward = if taken.pushes_forward() {
            let result = self.forward.solve_single_source(source);
            (result.estimate, result.residual)
        } else {
            zeros()
        };
        let backward = if taken.pushes_backward() {
            let result = self.backward.solve_single_target(target);
            (result.estimate, result.residual)
        } else {
            zeros()
        };
        let answer = [forward.0, forward.1, backward.0, backward.1].map(Contents::Real).into();
        Outcome::Done { returned: Returned::Scored(Scored { refusal: 0, score }), answer }
    }

    /// What the Rust's solver of both ways gives.
    fn score(&self, wish: &Wish, task: Task) -> f64 {
        let (source, target) = (wish.source as usize, wish.target as usize);
        match task {
            Task::Adaptive => self.both.adaptive_solve(source, target),
            _ => self.both.solve_bidirectional(source, target),
        }
    }
}
