//! What a call comes to: what it returns, and what it leaves in its buffers.
use super::entry::{Entry, Question, Task};
use crate::comparison::same;
use crate::entries::{Built, Found, Scored, Solved, Weighed};

/// What a call is to come to. A refusal leaves every buffer as it was.
pub enum Outcome {
    Refused(u32),
    /// The contents of the answer's buffers. The others are workspace, and all zero.
    Done {
        returned: Returned,
        answer: Vec<Contents>,
    },
}

/// What a buffer of an answer holds.
pub enum Contents {
    Whole(Vec<u32>),
    Real(Vec<f64>),
}

impl Contents {
    /// Those of a vector.
    pub fn reals(&self) -> &[f64] {
        match self {
            Self::Real(vector) => vector,
            Self::Whole(_) => unreachable!("a solve answers with vectors"),
        }
    }
}

/// What a call returns.
#[derive(Clone, Copy, Debug)]
pub enum Returned {
    Number(u32),
    Built(Built),
    Found(Found),
    Weighed(Weighed),
    Solved(Solved),
    Scored(Scored),
}

impl Returned {
    /// What the entry returns with a refusal.
    pub fn refused(entry: Entry, refusal: u32) -> Self {
        match entry {
            Entry::FromEdges => Self::Built(Built { refusal, kept: 0 }),
            Entry::FromMatrix | Entry::Transpose | Entry::RowSums => Self::Number(refusal),
            Entry::HasEdge => Self::Found(Found { refusal, found: false }),
            Entry::EdgeWeight => Self::Weighed(Weighed { refusal, found: false, weight: 0.0 }),
            Entry::Solve(Question { task, .. }, _) => match task {
                Task::Single | Task::Multi | Task::Watched => {
                    Self::Solved(Solved { refusal, push_count: 0, nodes_visited: 0, residual_norm: 0.0 })
                }
                Task::Query | Task::Together | Task::Adaptive => Self::Scored(Scored { refusal, score: 0.0 }),
                Task::Reachability => Self::Number(refusal),
            },
        }
    }

    /// Says so if the call of that name should have returned something else.
    pub fn unlike(self, right: Self, name: &str) -> Option<String> {
        (!self.same(right)).then(|| format!("{name} returns {self:?}, where {right:?} is right"))
    }

    fn same(self, other: Self) -> bool {
        let counts = |s: Solved| (s.refusal, s.push_count, s.nodes_visited);
        // A weight is one that was given, and no NaN is: so not even that is taken for another.
        let bits = |w: Weighed| (w.refusal, w.found, w.weight.to_bits());
        match (self, other) {
            (Self::Number(a), Self::Number(b)) => a == b,
            (Self::Built(a), Self::Built(b)) => a == b,
            (Self::Found(a), Self::Found(b)) => a == b,
            (Self::Weighed(a), Self::Weighed(b)) => bits(a) == bits(b),
            (Self::Solved(a), Self::Solved(b)) => counts(a) == counts(b) && same(a.residual_norm, b.residual_norm),
            (Self::Scored(a), Self::Scored(b)) => a.refusal == b.refusal && same(a.score, b.score),
            _ => unreachable!("what is returned is made for the entry"),
        }
    }
}
