//! The cases that docs/RULES.md works out by hand, in both forms.
mod chain;

use chain::{backward, forward, settings, CHAIN, CHAIN_ROWS};
use talwighest::{combine_with_forward, square_root, Links, Solution};

#[test]
fn p1_forward_from_the_chain() {
    assert_eq!(CHAIN.solve_single_source(0, settings(10)), Ok(forward()));
    assert_eq!(CHAIN_ROWS.solve_single_source(0, settings(10)), Ok(forward()));
    assert_eq!(CHAIN.solve_multi_source(&[0], settings(10)), Ok(forward()));
    assert_eq!(CHAIN_ROWS.solve_multi_source(&[0], settings(10)), Ok(forward()));
    assert_eq!(CHAIN.solve_with_target(0, 1, 1.0, settings(10)), Ok(forward()));
    assert_eq!(CHAIN_ROWS.solve_with_target(0, 1, 1.0, settings(10)), Ok(forward()));
}

#[test]
fn p2_a_source_that_is_no_node_and_no_nodes_at_all() {
    let nothing =
        Solution { estimate: vec![0.0; 2], residual: vec![0.0; 2], push_count: 0, nodes_visited: 0, residual_norm: 0.0 };
    assert_eq!(CHAIN.solve_single_source(2, settings(10)), Ok(nothing.clone()));
    let none = Links { n: 0, from: &[], to: &[], weight: &[] };
    assert_eq!(none.solve_single_source(0, settings(10)), Ok(Solution { estimate: vec![], residual: vec![], ..nothing }));
}

#[test]
fn p3_and_p4_few_pushes() {
    let none = CHAIN.solve_single_source(0, settings(0)).unwrap();
    assert_eq!((none.residual, none.residual_norm), (vec![1.0, 0.0], 1.0));
    let one = CHAIN.solve_single_source(0, settings(1)).unwrap();
    assert_eq!((one.estimate, one.residual), (vec![0.5, 0.0], vec![0.0, 0.5]));
}

#[test]
fn p8_backward_to_the_end_of_the_chain() {
    assert_eq!(CHAIN.solve_single_target(1, settings(10)), Ok(backward()));
    assert_eq!(CHAIN_ROWS.solve_single_target(1, settings(10)), Ok(backward()));
    assert_eq!(CHAIN.solve_multi_target(&[1], settings(10)), Ok(backward()));
    assert_eq!(CHAIN_ROWS.solve_multi_target(&[1], settings(10)), Ok(backward()));
    assert_eq!(CHAIN.solve_with_source(0, 1, 1.0, settings(10)), Ok(backward()));
    assert_eq!(CHAIN_ROWS.solve_with_source(0, 1, 1.0, settings(10)), Ok(backward()));
}

#[test]
fn p9_both_together() {
    let (back, ahead) = (backward(), forward());
    let combined = combine_with_forward(&back.estimate, &back.residual, &ahead.estimate, &ahead.residual, 0.5);
    assert_eq!(combined, Ok(0.4375));
    let joined = CHAIN.solve_bidirectional(0, 1, settings(10), settings(10)).unwrap();
    assert_eq!(joined.score, 0.4375);
    assert_eq!((joined.forward_estimate.clone(), joined.backward_residual.clone()), (ahead.estimate, back.residual));
    assert_eq!(Ok(joined), CHAIN_ROWS.solve_bidirectional(0, 1, settings(10), settings(10)));
}

#[test]
fn p11_a_share_is_lost_of_a_source_that_is_no_node() {
    let solved = CHAIN.solve_multi_source(&[0, 5], settings(0)).unwrap();
    assert_eq!((solved.residual, solved.residual_norm), (vec![0.5, 0.0], 0.5));
}

#[test]
fn p12_square_roots() {
    assert_eq!(square_root(2.0).to_bits(), 0x3ff6_a09e_667f_3bcd);
    assert_eq!(square_root(f64::from_bits(1)), 2f64.powi(-537));
}

#[test]
fn the_approach_by_degrees() {
    // Three links leave node 0 and one arrives at node 1: the backward solve is enough, and the forward pair stays +0.
    let fan = Links { n: 4, from: &[0, 0, 0], to: &[1, 2, 3], weight: &[1.0; 3] };
    let alone = fan.adaptive_solve(0, 1, settings(10), settings(10)).unwrap();
    let solved = fan.solve_single_target(1, settings(10)).unwrap();
    assert_eq!((alone.score, &alone.backward_estimate), (solved.estimate[0], &solved.estimate));
    assert_eq!(alone.forward_estimate, vec![0.0; 4]);
}
