//! The calls that take no graph: the square root, the norm, and the two that take a solve's vectors.
use crate::table;
use crate::theirs::Done;
use crate::work::{Work, COLUMNS};
use repaired::graph::PushGraph;
use repaired::solver::backward_push::{BackwardPushResult, BackwardPushSolver};
use repaired::solver::forward_push::{ForwardPushResult, ForwardPushSolver};
use runs::calls::repaired::{backward_config, forward_config};
use runs::entries::{self, Settings};
use runs::random::Random;
use std::hint::black_box;

/// How many roots are taken at a time.
const ROOTS: usize = 4_096;

pub const NAMES: [&str; 4] = ["square_root", "compute_residual_norm", "extrapolated_solution", "combine_with_forward"];

pub fn measure() {
    table::head("Square root and vectors: time per call", &["call", "numbers"], &COLUMNS);
    for name in NAMES {
        for &size in if name == NAMES[0] { &[1][..] } else { &[1_000, 65_536] } {
            work(name, size).print(101);
        }
    }
}

/// The work of one of the calls, on so many numbers. The Rust's norm is private there: its expression stands for it, and
/// the machine's own instruction for a root.
pub fn work(name: &str, size: usize) -> Work<'static> {
    let mut random = Random::new(1);
    let labels = vec![table::name(name), table::grouped(size)];
    let mut vector = || -> Vec<f64> { (0..size).map(|_| random.unit()).collect() };
    let [estimate, residual, forward_estimate, forward_residual] = [(); 4].map(|()| vector());
    let alpha = Settings::DEFAULT.alpha;
    let empty = || PushGraph::from_edges(0, &[]);
    let (push_count, nodes_visited, residual_norm) = (0, 0, 0.0);
    match name {
        "square_root" => {
            let number = |random: &mut Random| f64::from_bits(random.next() >> 1 & !(0x400 << 52));
            let numbers: Vec<f64> = (0..ROOTS).map(|_| number(&mut random)).collect();
            let same = numbers.clone();
            Work {
                labels,
                units: ROOTS,
                lent: 0,
                ours: Box::new(move || Done::number(numbers.iter().map(|&x| entries::square_root(black_box(x))).sum())),
                theirs: Box::new(move || Done::number(same.iter().map(|&x| black_box(x).sqrt()).sum())),
            }
        }
        "compute_residual_norm" => {
            let same = residual.clone();
            Work {
                labels,
                units: 1,
                lent: 0,
                ours: Box::new(move || Done::number(entries::compute_residual_norm(black_box(&residual)))),
                theirs: Box::new(move || Done::number(black_box(&same).iter().map(|&x| x * x).sum::<f64>().sqrt())),
            }
        }
        "extrapolated_solution" => {
            let (estimate_too, residual_too, mut solution) = (estimate.clone(), residual.clone(), vec![0.0; size]);
            let solver = ForwardPushSolver::new(empty(), forward_config(&Settings::DEFAULT));
            let result = ForwardPushResult { estimate, residual, push_count, nodes_visited, residual_norm };
            Work {
                labels,
                units: 1,
                lent: 8 * size,
                ours: Box::new(move || {
                    Done::listed(entries::extrapolated_solution(&estimate_too, &residual_too, alpha, &mut solution))
                }),
                theirs: Box::new(move || Done::listed(solver.extrapolated_solution(black_box(&result)))),
            }
        }
        "combine_with_forward" => {
            let (estimate_too, residual_too) = (estimate.clone(), residual.clone());
            let (forward_too, rest_too) = (forward_estimate.clone(), forward_residual.clone());
            let solver = BackwardPushSolver::new(empty(), backward_config(&Settings::DEFAULT));
            let result = BackwardPushResult { estimate, residual, push_count, nodes_visited, residual_norm };
            Work {
                labels,
                units: 1,
                lent: 0,
                ours: Box::new(move || {
                    let (backward, rest) = (&estimate_too, &residual_too);
                    Done::number(entries::combine_with_forward(backward, rest, &forward_too, &rest_too, alpha).score)
                }),
                theirs: Box::new(move || {
                    let (estimate, residual) = (&forward_estimate, &forward_residual);
                    Done::number(solver.combine_with_forward(black_box(&result), estimate, residual))
                }),
            }
        }
        _ => panic!("no such call: {name}"),
    }
}
