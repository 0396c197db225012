//! What the adaptive numbers do to solves of one node without links, by hand: each push leaves half of the residual there, and the
//! node waits again while that is not below the threshold.
use talwighest::{Links, Settings, Solution};

const NODE: Links = Links { n: 1, from: &[], to: &[], weight: &[] };

/// A threshold between the fourth half and the third, and at most ten pushes.
const SETTINGS: Settings = Settings { alpha: 0.5, epsilon: 0.0, queue_threshold: 0.1, max_pushes: 10, ..Settings::DEFAULT };

/// What so many pushes leave.
fn after(pushes: i32) -> Solution {
    let left = 0.5f64.powi(pushes);
    Solution {
        estimate: vec![1.0 - left],
        residual: vec![left],
        push_count: pushes as u64,
        nodes_visited: 1,
        residual_norm: left,
    }
}

/// Holds both ways to so many pushes.
fn pushes(settings: Settings, pushes: i32) {
    assert_eq!(NODE.solve_single_source(0, settings), Ok(after(pushes)));
    assert_eq!(NODE.solve_single_target(0, settings), Ok(after(pushes)));
}

#[test]
fn a_step_past_the_pushes() {
    pushes(SETTINGS, 4);
    pushes(Settings { adaptive_step: u64::MAX, lowering_factor: 0.5, ..SETTINGS }, 4);
}

#[test]
fn a_threshold_that_falls() {
    // Halved after each push, it stays below the residual; after each second, the residual falls below it at the sixth.
    let falling = Settings { adaptive_step: 1, lowering_factor: 0.5, ..SETTINGS };
    pushes(falling, 10);
    pushes(Settings { adaptive_step: 2, ..falling }, 6);
    pushes(Settings { adaptive_threshold: false, ..falling }, 4);
    // At a floor of 0.05 it stays once it is there, and above one of 0.1 it never was.
    pushes(Settings { threshold_floor: 0.05, ..falling }, 5);
    pushes(Settings { threshold_floor: 0.1, ..falling }, 4);
    // One node waits: fewer than 2, and not fewer than 1.
    pushes(Settings { lower_size: 2, ..falling }, 10);
    pushes(Settings { lower_size: 1, ..falling }, 4);
}

#[test]
fn a_threshold_that_rises() {
    // One node waits: more than 0, and not more than 1.
    let rising = Settings { adaptive_step: 1, upper_size: 0, lower_size: 0, raising_factor: 4.0, ..SETTINGS };
    pushes(rising, 2);
    pushes(Settings { upper_size: 1, ..rising }, 4);
    // It comes to 1.8e307 after the first push, and after the second, at which nothing waits, the solve is over.
    pushes(Settings { raising_factor: f64::MAX, ..rising }, 2);
    pushes(Settings { raising_factor: 0.0, ..rising }, 10);
}

#[test]
fn each_way_has_numbers_of_its_own() {
    let falling = Settings { adaptive_step: 1, lowering_factor: 0.5, ..SETTINGS };
    let joined = NODE.solve_bidirectional(0, 0, falling, SETTINGS).unwrap();
    assert_eq!((joined.forward_residual, joined.backward_residual), (after(10).residual, after(4).residual));
    let joined = NODE.solve_bidirectional(0, 0, SETTINGS, falling).unwrap();
    assert_eq!((joined.forward_residual, joined.backward_residual), (after(4).residual, after(10).residual));
}
