//! The calls of the graph store, and those on vectors alone.
use crate::answers::{Matrix, OwnedRows};
use crate::entries::{self, Links, Rows};
use crate::refusal::Refusal;
use crate::space::RowSpace;

impl RowSpace {
    fn owned(self) -> OwnedRows {
        OwnedRows { starts: self.starts, columns: self.columns, weights: self.weights }
    }
}

impl Links<'_> {
    /// The rows of the links that are kept: those with both ends below n.
    pub fn from_edges(&self) -> Result<OwnedRows, Refusal> {
        let (mut rows, mut positions) = (RowSpace::new(self.size()), self.size().wholes());
        let built = entries::from_edges(*self, rows.lent(), &mut positions);
        Refusal::unless_done(built.refusal)?;
        rows.columns.truncate(built.kept as usize);
        rows.weights.truncate(built.kept as usize);
        Ok(rows.owned())
    }

    /// Whether a kept link leads from one node to the other. It builds the rows first: who asks more than once should keep those
    /// that `from_edges` gives.
    pub fn has_edge(&self, from: u32, to: u32) -> Result<bool, Refusal> {
        self.from_edges()?.rows().has_edge(from, to)
    }

    /// The weight of the first kept link from one node to the other, if there is one. It builds the rows first, like `has_edge`.
    pub fn edge_weight(&self, from: u32, to: u32) -> Result<Option<f64>, Refusal> {
        self.from_edges()?.rows().edge_weight(from, to)
    }
}

impl Rows<'_> {
    /// The transposed rows, and the degrees of both.
    pub fn from_matrix(&self) -> Result<Matrix, Refusal> {
        let (mut reverse, mut positions) = (RowSpace::new(self.size()), self.size().wholes());
        let (mut degrees, mut reverse_degrees) = (self.size().reals(), self.size().reals());
        let number = entries::from_matrix(*self, reverse.lent(), &mut degrees, &mut reverse_degrees, &mut positions);
        Refusal::unless_done(number).map(|()| Matrix { reverse: reverse.owned(), degrees, reverse_degrees })
    }

    /// The transposed rows.
    pub fn transpose(&self) -> Result<OwnedRows, Refusal> {
        let (mut reverse, mut positions) = (RowSpace::new(self.size()), self.size().wholes());
        let number = entries::transpose(*self, reverse.lent(), &mut positions);
        Refusal::unless_done(number).map(|()| reverse.owned())
    }

    /// The degree of each row.
    pub fn row_sums(&self) -> Result<Vec<f64>, Refusal> {
        let mut degrees = self.size().reals();
        Refusal::unless_done(entries::row_sums(*self, &mut degrees)).map(|()| degrees)
    }

    /// Whether a link leads from one node to the other.
    pub fn has_edge(&self, from: u32, to: u32) -> Result<bool, Refusal> {
        let answer = entries::has_edge(*self, from, to);
        Refusal::unless_done(answer.refusal).map(|()| answer.found)
    }

    /// The weight of the first link from one node to the other, if there is one.
    pub fn edge_weight(&self, from: u32, to: u32) -> Result<Option<f64>, Refusal> {
        let answer = entries::edge_weight(*self, from, to);
        Refusal::unless_done(answer.refusal).map(|()| answer.found.then_some(answer.weight))
    }
}

/// estimate + alpha × residual for each node.
pub fn extrapolated_solution(estimate: &[f64], residual: &[f64], alpha: f64) -> Result<Vec<f64>, Refusal> {
    let mut solution = vec![0.0; estimate.len()];
    let number = entries::extrapolated_solution(estimate, residual, alpha, &mut solution);
    Refusal::unless_done(number).map(|()| solution)
}

/// The score that the vectors of a backward and a forward solve come to; alpha is the backward solve's.
pub fn combine_with_forward(
    backward_estimate: &[f64],
    backward_residual: &[f64],
    forward_estimate: &[f64],
    forward_residual: &[f64],
    alpha: f64,
) -> Result<f64, Refusal> {
    let scored =
        entries::combine_with_forward(backward_estimate, backward_residual, forward_estimate, forward_residual, alpha);
    Refusal::unless_done(scored.refusal).map(|()| scored.score)
}
