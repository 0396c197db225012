//! The calls of the backward solver. Those on a list of links are lent workspace for its rows besides.
use super::{Links, Pair, QueueBuffers, RowBuffers, Rows, Scored, Settings, Solved};

exported! {
    fn solve_single_target_links(
        given: Links, target: u32, settings: Settings, answer: Pair, rows: RowBuffers, reverse: RowBuffers,
        in_degrees: &mut [f64], out_degrees: &mut [f64], queue: QueueBuffers
    ) -> Solved;
    fn solve_multi_target_links(
        given: Links, targets: &[u32], settings: Settings, answer: Pair, rows: RowBuffers, reverse: RowBuffers,
        in_degrees: &mut [f64], out_degrees: &mut [f64], queue: QueueBuffers
    ) -> Solved;
    fn solve_with_source_links(
        given: Links, source: u32, target: u32, source_precision: f64, settings: Settings,
        answer: Pair, rows: RowBuffers, reverse: RowBuffers,
        in_degrees: &mut [f64], out_degrees: &mut [f64], queue: QueueBuffers
    ) -> Solved;
    fn query_transition_probability_links(
        given: Links, source: u32, target: u32, settings: Settings,
        answer: Pair, rows: RowBuffers, reverse: RowBuffers,
        in_degrees: &mut [f64], out_degrees: &mut [f64], queue: QueueBuffers
    ) -> Scored;
    fn reachability_probabilities_links(
        given: Links, target: u32, settings: Settings,
        answer: Pair, solution: &mut [f64], rows: RowBuffers, reverse: RowBuffers,
        in_degrees: &mut [f64], out_degrees: &mut [f64], queue: QueueBuffers
    ) -> u32;
    fn solve_single_target_rows(
        given: Rows, target: u32, settings: Settings, answer: Pair, reverse: RowBuffers,
        in_degrees: &mut [f64], out_degrees: &mut [f64], queue: QueueBuffers
    ) -> Solved;
    fn solve_multi_target_rows(
        given: Rows, targets: &[u32], settings: Settings, answer: Pair, reverse: RowBuffers,
        in_degrees: &mut [f64], out_degrees: &mut [f64], queue: QueueBuffers
    ) -> Solved;
    fn solve_with_source_rows(
        given: Rows, source: u32, target: u32, source_precision: f64, settings: Settings,
        answer: Pair, reverse: RowBuffers, in_degrees: &mut [f64], out_degrees: &mut [f64], queue: QueueBuffers
    ) -> Solved;
    fn query_transition_probability_rows(
        given: Rows, source: u32, target: u32, settings: Settings,
        answer: Pair, reverse: RowBuffers, in_degrees: &mut [f64], out_degrees: &mut [f64], queue: QueueBuffers
    ) -> Scored;
    fn reachability_probabilities_rows(
        given: Rows, target: u32, settings: Settings, answer: Pair, solution: &mut [f64], reverse: RowBuffers,
        in_degrees: &mut [f64], out_degrees: &mut [f64], queue: QueueBuffers
    ) -> u32;
}
