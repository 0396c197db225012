//! What the calls give back.
use crate::entries::Rows;

/// A solve: the scores, what is not handed out yet, and how far it went.
#[derive(Clone, Debug, PartialEq)]
pub struct Solution {
    pub estimate: Vec<f64>,
    pub residual: Vec<f64>,
    pub push_count: u64,
    pub nodes_visited: u64,
    pub residual_norm: f64,
}

/// One score, and both vectors of the solve that gave it.
#[derive(Clone, Debug, PartialEq)]
pub struct Query {
    pub score: f64,
    pub estimate: Vec<f64>,
    pub residual: Vec<f64>,
}

/// estimate + alpha × residual for each node, and both vectors.
#[derive(Clone, Debug, PartialEq)]
pub struct Reachability {
    pub solution: Vec<f64>,
    pub estimate: Vec<f64>,
    pub residual: Vec<f64>,
}

/// A score of both solvers together, and the vectors of each; +0 everywhere in those of a solve that was not made.
#[derive(Clone, Debug, PartialEq)]
pub struct Joined {
    pub score: f64,
    pub forward_estimate: Vec<f64>,
    pub forward_residual: Vec<f64>,
    pub backward_estimate: Vec<f64>,
    pub backward_residual: Vec<f64>,
}

/// Rows that a call has made.
#[derive(Clone, Debug, PartialEq)]
pub struct OwnedRows {
    pub starts: Vec<u32>,
    pub columns: Vec<u32>,
    pub weights: Vec<f64>,
}

impl OwnedRows {
    /// The rows, to be given to a call.
    pub fn rows(&self) -> Rows<'_> {
        Rows { n: nodes(self.starts.len()), starts: &self.starts, columns: &self.columns, weights: &self.weights }
    }
}

/// The number of nodes that have so many starts. One that no u32 holds is far past the limit, and so is the largest u32, which a
/// call refuses for that; cut to its last digits it might pass.
fn nodes(starts: usize) -> u32 {
    u32::try_from(starts.saturating_sub(1)).unwrap_or(u32::MAX)
}

/// What `from_matrix` makes of rows.
#[derive(Clone, Debug, PartialEq)]
pub struct Matrix {
    pub reverse: OwnedRows,
    pub degrees: Vec<f64>,
    pub reverse_degrees: Vec<f64>,
}

#[cfg(test)]
mod tests {
    use super::nodes;
    use crate::{Refusal, Rows};

    #[test]
    fn a_number_of_nodes_is_not_cut() {
        assert_eq!([0, 1, 2, 65_537, 65_538].map(nodes), [0, 0, 1, 65_536, 65_537]);
        // The list itself would take 16 GiB.
        for starts in [1 << 32, (1 << 32) + 1, (1 << 32) + 3, usize::MAX] {
            let n = nodes(starts);
            let rows = Rows { n, starts: &[0], columns: &[], weights: &[] };
            assert_eq!((n, rows.row_sums().err()), (u32::MAX, Some(Refusal::TooManyNodes)));
        }
    }
}
