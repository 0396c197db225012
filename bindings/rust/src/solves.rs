//! The solvers' calls as methods of both forms of a graph. What a call does is said once; the form says which entry is called,
//! and whether it is lent workspace for rows besides.
use crate::answers::{Joined, Query, Reachability, Solution};
use crate::entries::{self, Links, Rows, Scored, Settings, Solved};
use crate::refusal::Refusal;
use crate::space::{QueueSpace, RowSpace, Size, Vectors};

impl Solution {
    fn of(solved: Solved, vectors: Vectors) -> Result<Self, Refusal> {
        let Solved { refusal, push_count, nodes_visited, residual_norm } = solved;
        let Vectors { estimate, residual } = vectors;
        Refusal::unless_done(refusal).map(|()| Self { estimate, residual, push_count, nodes_visited, residual_norm })
    }
}

impl Query {
    fn of(scored: Scored, vectors: Vectors) -> Result<Self, Refusal> {
        let Vectors { estimate, residual } = vectors;
        Refusal::unless_done(scored.refusal).map(|()| Self { score: scored.score, estimate, residual })
    }
}

impl Joined {
    fn of(scored: Scored, forward: Vectors, backward: Vectors) -> Result<Self, Refusal> {
        Refusal::unless_done(scored.refusal).map(|()| Self {
            score: scored.score,
            forward_estimate: forward.estimate,
            forward_residual: forward.residual,
            backward_estimate: backward.estimate,
            backward_residual: backward.residual,
        })
    }
}

/// Lends a forward entry its answer and workspace.
macro_rules! forward {
    ($graph:ident, $entry:ident($($asked:expr),*), [$($rows:ident)?]) => {{
        let size = $graph.size();
        let mut vectors = Vectors::new(size);
        $(let mut $rows = RowSpace::new(size);)?
        let (mut degrees, mut queue) = (size.reals(), QueueSpace::new(size));
        let returned = entries::$entry(
            *$graph, $($asked,)* vectors.lent(), $($rows.lent(),)? &mut degrees, queue.lent(),
        );
        (returned, vectors)
    }};
}

/// Lends a backward entry, or one of both solvers, its answers and workspace.
macro_rules! backward {
    ($graph:ident, $entry:ident($($asked:expr),*), [$($rows:ident)?], $($answer:expr),+) => {{
        let size = $graph.size();
        $(let mut $rows = RowSpace::new(size);)?
        let (mut reverse, mut queue) = (RowSpace::new(size), QueueSpace::new(size));
        let (mut in_degrees, mut out_degrees) = (size.reals(), size.reals());
        entries::$entry(
            *$graph, $($asked,)* $($answer,)+ $($rows.lent(),)? reverse.lent(), &mut in_degrees, &mut out_degrees, queue.lent(),
        )
    }};
}

/// Lends an entry of both solvers a pair of vectors for each, and takes its answer.
macro_rules! joined {
    ($graph:ident, $entry:ident($($asked:expr),*), $rows:tt) => {{
        let (mut forward, mut backward) = (Vectors::new($graph.size()), Vectors::new($graph.size()));
        let scored = backward!($graph, $entry($($asked),*), $rows, forward.lent(), backward.lent());
        Joined::of(scored, forward, backward)
    }};
}

macro_rules! calls {
    (
        $form:ident, counted $counted:ident, workspace for $rows:tt,
        $single_source:ident, $multi_source:ident, $with_target:ident, $single_entry:ident,
        $single_target:ident, $multi_target:ident, $with_source:ident, $transition:ident, $reachability:ident,
        $bidirectional:ident, $adaptive:ident
    ) => {
        impl $form<'_> {
            pub(crate) fn size(&self) -> Size {
                Size::of(self.n, self.$counted.len())
            }

            /// Scores from one source.
            pub fn solve_single_source(&self, source: u32, settings: Settings) -> Result<Solution, Refusal> {
                let (solved, vectors) = forward!(self, $single_source(source, settings), $rows);
                Solution::of(solved, vectors)
            }

            /// Scores from a list of sources, each entry with mass 1 / length.
            pub fn solve_multi_source(&self, sources: &[u32], settings: Settings) -> Result<Solution, Refusal> {
                let (solved, vectors) = forward!(self, $multi_source(sources, settings), $rows);
                Solution::of(solved, vectors)
            }

            /// Scores from one source, until the target's is above the precision and its residual below a tenth of it.
            pub fn solve_with_target(
                &self,
                source: u32,
                target: u32,
                target_precision: f64,
                settings: Settings,
            ) -> Result<Solution, Refusal> {
                let (solved, vectors) = forward!(self, $with_target(source, target, target_precision, settings), $rows);
                Solution::of(solved, vectors)
            }

            /// The target's score from one source.
            pub fn query_single_entry(&self, source: u32, target: u32, settings: Settings) -> Result<Query, Refusal> {
                let (scored, vectors) = forward!(self, $single_entry(source, target, settings), $rows);
                Query::of(scored, vectors)
            }

            /// Scores to one target.
            pub fn solve_single_target(&self, target: u32, settings: Settings) -> Result<Solution, Refusal> {
                let mut vectors = Vectors::new(self.size());
                let solved = backward!(self, $single_target(target, settings), $rows, vectors.lent());
                Solution::of(solved, vectors)
            }

            /// Scores to a list of targets, each entry with mass 1 / length.
            pub fn solve_multi_target(&self, targets: &[u32], settings: Settings) -> Result<Solution, Refusal> {
                let mut vectors = Vectors::new(self.size());
                let solved = backward!(self, $multi_target(targets, settings), $rows, vectors.lent());
                Solution::of(solved, vectors)
            }

            /// Scores to one target, until the source's is above the precision and its residual below a tenth of it.
            pub fn solve_with_source(
                &self,
                source: u32,
                target: u32,
                source_precision: f64,
                settings: Settings,
            ) -> Result<Solution, Refusal> {
                let mut vectors = Vectors::new(self.size());
                let solved =
                    backward!(self, $with_source(source, target, source_precision, settings), $rows, vectors.lent());
                Solution::of(solved, vectors)
            }

            /// The source's score to one target.
            pub fn query_transition_probability(
                &self,
                source: u32,
                target: u32,
                settings: Settings,
            ) -> Result<Query, Refusal> {
                let mut vectors = Vectors::new(self.size());
                let scored = backward!(self, $transition(source, target, settings), $rows, vectors.lent());
                Query::of(scored, vectors)
            }

            /// estimate + alpha × residual of a solve to one target.
            pub fn reachability_probabilities(&self, target: u32, settings: Settings) -> Result<Reachability, Refusal> {
                let (mut vectors, mut solution) = (Vectors::new(self.size()), self.size().reals());
                let number = backward!(self, $reachability(target, settings), $rows, vectors.lent(), &mut solution);
                let Vectors { estimate, residual } = vectors;
                Refusal::unless_done(number).map(|()| Reachability { solution, estimate, residual })
            }

            /// What `combine_with_forward` makes of a forward solve from the source and a backward one to the target.
            pub fn solve_bidirectional(
                &self,
                source: u32,
                target: u32,
                forward_settings: Settings,
                backward_settings: Settings,
            ) -> Result<Joined, Refusal> {
                joined!(self, $bidirectional(source, target, forward_settings, backward_settings), $rows)
            }

            /// By the degrees of source and target: one of the solves alone, or `solve_bidirectional`.
            pub fn adaptive_solve(
                &self,
                source: u32,
                target: u32,
                forward_settings: Settings,
                backward_settings: Settings,
            ) -> Result<Joined, Refusal> {
                joined!(self, $adaptive(source, target, forward_settings, backward_settings), $rows)
            }
        }
    };
}

calls!(
    Links, counted from, workspace for [rows],
    solve_single_source_links, solve_multi_source_links, solve_with_target_links, query_single_entry_links,
    solve_single_target_links, solve_multi_target_links, solve_with_source_links, query_transition_probability_links,
    reachability_probabilities_links, solve_bidirectional_links, adaptive_solve_links
);

calls!(
    Rows, counted columns, workspace for [],
    solve_single_source_rows, solve_multi_source_rows, solve_with_target_rows, query_single_entry_rows,
    solve_single_target_rows, solve_multi_target_rows, solve_with_source_rows, query_transition_probability_rows,
    reachability_probabilities_rows, solve_bidirectional_rows, adaptive_solve_rows
);
