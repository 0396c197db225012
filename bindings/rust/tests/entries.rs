//! The examples of docs/ENTRIES.md, those that take a graph in both forms.
mod chain;

use chain::{backward, forward, settings, CHAIN, CHAIN_ROWS};
use talwighest::entries::{self, Built, Found, RowBuffers, Weighed};
use talwighest::{combine_with_forward, compute_residual_norm, extrapolated_solution, square_root};
use talwighest::{Links, Matrix, OwnedRows, Settings};

/// What both forms of a call on the chain give.
macro_rules! on_chain {
    ($call:ident($($given:expr),*)) => {{
        let answer = CHAIN.$call($($given),*);
        assert_eq!(answer, CHAIN_ROWS.$call($($given),*));
        answer.unwrap()
    }};
}

#[test]
fn square_root_and_compute_residual_norm() {
    assert_eq!(square_root(2.0).to_bits(), 0x3ff6_a09e_667f_3bcd);
    assert_eq!(compute_residual_norm(&[3.0, 4.0]), 5.0);
    assert_eq!(compute_residual_norm(&[]).to_bits(), 0);
}

#[test]
fn from_edges_and_the_calls_on_its_rows() {
    let links = Links { n: 3, from: &[2, 0, 1, 0], to: &[1, 2, 3, 1], weight: &[1.0, 0.5, 4.0, 2.0] };
    let (mut starts, mut columns, mut weights, mut positions) = ([9; 4], [9; 4], [9.0; 4], [9; 3]);
    let rows = RowBuffers { starts: &mut starts, columns: &mut columns, weights: &mut weights };
    assert_eq!(entries::from_edges(links, rows, &mut positions), Built { refusal: 0, kept: 3 });
    assert_eq!((starts, columns, weights, positions), ([0, 2, 2, 3], [2, 1, 1, 0], [0.5, 2.0, 1.0, 0.0], [0; 3]));

    let built = links.from_edges().unwrap();
    let cut = OwnedRows { starts: starts.to_vec(), columns: columns[..3].to_vec(), weights: weights[..3].to_vec() };
    assert_eq!(built, cut);
    let reverse = OwnedRows { starts: vec![0, 0, 2, 3], columns: vec![0, 2, 0], weights: vec![2.0, 1.0, 0.5] };
    assert_eq!(built.rows().transpose(), Ok(reverse.clone()));
    let degrees = vec![2.5, 0.0, 1.0];
    assert_eq!(built.rows().row_sums(), Ok(degrees.clone()));
    assert_eq!(built.rows().from_matrix(), Ok(Matrix { reverse, degrees, reverse_degrees: vec![0.0, 3.0, 0.5] }));
}

#[test]
fn has_edge_and_edge_weight() {
    let links = Links { n: 3, from: &[0, 0, 0, 1], to: &[1, 2, 1, 3], weight: &[2.0, 0.0, 3.0, 4.0] };
    let built = links.from_edges().unwrap();
    let rows = built.rows();
    let none = Weighed { refusal: 0, found: false, weight: 0.0 };
    for (from, to, weight) in [(0, 1, Some(2.0)), (0, 2, Some(0.0)), (1, 0, None), (1, 3, None), (3, 0, None)] {
        assert_eq!(links.has_edge(from, to), Ok(weight.is_some()));
        assert_eq!(rows.has_edge(from, to), Ok(weight.is_some()));
        assert_eq!(links.edge_weight(from, to), Ok(weight));
        assert_eq!(rows.edge_weight(from, to), Ok(weight));
        assert_eq!(entries::has_edge(rows, from, to), Found { refusal: 0, found: weight.is_some() });
        let answer = weight.map_or(none, |weight| Weighed { found: true, weight, ..none });
        assert_eq!(entries::edge_weight(rows, from, to), answer);
    }
}

#[test]
fn settings_with_other_adaptive_numbers() {
    let rising = Settings {
        adaptive_threshold: true,
        adaptive_step: 1,
        upper_size: 0,
        lower_size: 0,
        raising_factor: 4.0,
        ..settings(10)
    };
    for (settings, pushes, remainder) in [(settings(10), 3, 0.125), (rising, 2, 0.25)] {
        let solved = on_chain!(solve_single_source(0, settings));
        assert_eq!((solved.push_count, solved.residual), (pushes, vec![0.0, remainder]));
    }
}

/// Whether a push is still due at a node of the chain, where d is 1.
fn is_due(remainder: f64, settings: Settings) -> bool {
    remainder >= settings.epsilon && remainder >= settings.queue_threshold
}

#[test]
fn pushes_that_are_still_due() {
    let high_threshold = Settings { queue_threshold: 0.75, ..settings(10) };
    let stops = [(settings(10), 3, 0.125, false), (settings(1), 1, 0.5, true), (high_threshold, 1, 0.5, false)];
    for (settings, pushes, remainder, due) in stops {
        let solved = on_chain!(solve_single_source(0, settings));
        assert_eq!((solved.push_count, solved.residual), (pushes, vec![0.0, remainder]));
        assert_eq!((is_due(0.0, settings), is_due(remainder, settings)), (false, due));
    }
}

#[test]
fn the_forward_solver() {
    let solved = on_chain!(solve_single_source(0, settings(10)));
    assert_eq!(solved, forward());
    let many = on_chain!(solve_multi_source(&[0, 5], settings(0)));
    assert_eq!((many.residual, many.residual_norm), (vec![0.5, 0.0], 0.5));
    let stopped = on_chain!(solve_with_target(0, 0, 0.25, settings(10)));
    assert_eq!((stopped.push_count, stopped.estimate, stopped.residual), (1, vec![0.5, 0.0], vec![0.0, 0.5]));
    assert_eq!(on_chain!(query_single_entry(0, 1, settings(10))).score, 0.375);
    assert_eq!(extrapolated_solution(&solved.estimate, &solved.residual, 0.5), Ok(vec![0.5, 0.4375]));
}

#[test]
fn the_backward_solver() {
    assert_eq!(on_chain!(solve_single_target(1, settings(10))), backward());
    let many = on_chain!(solve_multi_target(&[1, 5], settings(0)));
    assert_eq!((many.residual, many.residual_norm), (vec![0.0, 0.5], 0.5));
    let stopped = on_chain!(solve_with_source(1, 1, 0.25, settings(10)));
    assert_eq!((stopped.push_count, stopped.estimate, stopped.residual), (1, vec![0.0, 0.5], vec![0.5, 0.0]));
    assert_eq!(on_chain!(query_transition_probability(0, 1, settings(10))).score, 0.375);
    assert_eq!(on_chain!(reachability_probabilities(1, settings(10))).solution, vec![0.4375, 0.5]);
}

#[test]
fn both_solvers_together() {
    let (back, ahead) = (backward(), forward());
    let combined = combine_with_forward(&back.estimate, &back.residual, &ahead.estimate, &ahead.residual, 0.5);
    assert_eq!(combined, Ok(0.4375));
    assert_eq!(on_chain!(solve_bidirectional(0, 1, settings(10), settings(10))).score, 0.4375);
    assert_eq!(on_chain!(adaptive_solve(0, 1, settings(10), settings(10))).score, 0.4375);
}
