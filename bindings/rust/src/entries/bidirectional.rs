//! The calls of the bidirectional solver, and the backward solver's that puts a pair of answers together. Those on a
//! list of links are lent workspace for its rows besides.
use super::{Links, Pair, QueueBuffers, RowBuffers, Rows, Scored, Settings};

exported! {
    fn solve_bidirectional_links(
        given: Links, source: u32, target: u32, forward_settings: Settings, backward_settings: Settings,
        forward: Pair, backward: Pair, rows: RowBuffers, reverse: RowBuffers,
        in_degrees: &mut [f64], out_degrees: &mut [f64], queue: QueueBuffers
    ) -> Scored;
    fn adaptive_solve_links(
        given: Links, source: u32, target: u32, forward_settings: Settings, backward_settings: Settings,
        forward: Pair, backward: Pair, rows: RowBuffers, reverse: RowBuffers,
        in_degrees: &mut [f64], out_degrees: &mut [f64], queue: QueueBuffers
    ) -> Scored;
    fn solve_bidirectional_rows(
        given: Rows, source: u32, target: u32, forward_settings: Settings, backward_settings: Settings,
        forward: Pair, backward: Pair, reverse: RowBuffers,
        in_degrees: &mut [f64], out_degrees: &mut [f64], queue: QueueBuffers
    ) -> Scored;
    fn adaptive_solve_rows(
        given: Rows, source: u32, target: u32, forward_settings: Settings, backward_settings: Settings,
        forward: Pair, backward: Pair, reverse: RowBuffers,
        in_degrees: &mut [f64], out_degrees: &mut [f64], queue: QueueBuffers
    ) -> Scored;
    fn combine_with_forward(
        backward_estimate: &[f64], backward_residual: &[f64], forward_estimate: &[f64], forward_residual: &[f64],
        alpha: f64
    ) -> Scored;
}
