//! The calls of the forward solver. Those on a list of links are lent workspace for its rows besides.
use super::{Links, Pair, QueueBuffers, RowBuffers, Rows, Scored, Settings, Solved};

exported! {
    fn solve_single_source_links(
        given: Links, source: u32, settings: Settings,
        answer: Pair, rows: RowBuffers, degrees: &mut [f64], queue: QueueBuffers
    ) -> Solved;
    fn solve_multi_source_links(
        given: Links, sources: &[u32], settings: Settings,
        answer: Pair, rows: RowBuffers, degrees: &mut [f64], queue: QueueBuffers
    ) -> Solved;
    fn solve_with_target_links(
        given: Links, source: u32, target: u32, target_precision: f64, settings: Settings,
        answer: Pair, rows: RowBuffers, degrees: &mut [f64], queue: QueueBuffers
    ) -> Solved;
    fn query_single_entry_links(
        given: Links, source: u32, target: u32, settings: Settings,
        answer: Pair, rows: RowBuffers, degrees: &mut [f64], queue: QueueBuffers
    ) -> Scored;
    fn solve_single_source_rows(
        given: Rows, source: u32, settings: Settings,
        answer: Pair, degrees: &mut [f64], queue: QueueBuffers
    ) -> Solved;
    fn solve_multi_source_rows(
        given: Rows, sources: &[u32], settings: Settings,
        answer: Pair, degrees: &mut [f64], queue: QueueBuffers
    ) -> Solved;
    fn solve_with_target_rows(
        given: Rows, source: u32, target: u32, target_precision: f64, settings: Settings,
        answer: Pair, degrees: &mut [f64], queue: QueueBuffers
    ) -> Solved;
    fn query_single_entry_rows(
        given: Rows, source: u32, target: u32, settings: Settings,
        answer: Pair, degrees: &mut [f64], queue: QueueBuffers
    ) -> Scored;
    fn extrapolated_solution(estimate: &[f64], residual: &[f64], alpha: f64, solution: &mut [f64]) -> u32;
}
