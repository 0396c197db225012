//! `compute_residual_norm` against the Rust: the norms that solves of the repaired Rust return beside their residuals,
//! and the Rust's own expression (its function is private) on vectors that no solve leaves.
use crate::Asked;
use repaired::graph::PushGraph;
use repaired::solver::backward_push::BackwardPushSolver;
use repaired::solver::forward_push::{ForwardPushConfig, ForwardPushSolver};
use runs::comparison::{same, Comparison};
use runs::entries;
use runs::lent::Lent;
use runs::pointers::{null_if_empty, nulls};
use runs::random::Random;

/// A residual vector and the norm that the Rust gives for it.
#[derive(Clone, Debug)]
struct Case {
    residual: Vec<f64>,
    norm: f64,
}

pub fn compare(asked: &Asked, comparison: &mut Comparison, random: &mut Random) {
    let solves: Vec<Case> = (0..asked.size(300, 5_000)).map(|_| solved(random)).collect();
    comparison.kind("residual norm, of solves", solves.into_iter(), difference, |_| Vec::new());
    let vectors: Vec<Case> = (0..asked.size(2_000, 50_000)).map(|_| expression(any_vector(random))).collect();
    comparison.kind("residual norm, any numbers", vectors.into_iter(), difference, shorter);
    let empty = Case { residual: Vec::new(), norm: 0.0 };
    comparison.kind("residual norm, +0 of nothing", std::iter::once(empty.clone()), difference, |_| Vec::new());
    comparison.kind("residual norm, what the Rust makes of no nodes", NO_NODES.into_iter(), of_no_nodes, |_| Vec::new());
    let at_null = |case: &Case| null_if_empty(|| difference(case));
    comparison.kind("residual norm, +0 of nothing at NULL", std::iter::once(empty), at_null, |_| Vec::new());
    comparison.reached("residual norm, a list that was NULL", &nulls()[..1]);
}

/// The Rust's solves, each on a graph of no nodes, and whether its norm there is that of an empty sum. The others give +0 outright,
/// since their source or target is no node.
const NO_NODES: [(&str, fn() -> f64, bool); 12] = [
    ("solve_multi_source(&[])", || forward().solve_multi_source(&[]).residual_norm, true),
    ("solve_multi_source(&[0])", || forward().solve_multi_source(&[0]).residual_norm, true),
    ("solve_multi_source(&[7, 0, 7])", || forward().solve_multi_source(&[7, 0, 7]).residual_norm, true),
    ("solve_multi_target(&[])", || backward().solve_multi_target(&[]).residual_norm, true),
    ("solve_multi_target(&[0])", || backward().solve_multi_target(&[0]).residual_norm, true),
    ("solve_multi_target(&[7, 0, 7])", || backward().solve_multi_target(&[7, 0, 7]).residual_norm, true),
    ("solve_single_source(0)", || forward().solve_single_source(0).residual_norm, false),
    ("solve_single_source(7)", || forward().solve_single_source(7).residual_norm, false),
    ("solve_with_target(0, 0, 0.5)", || forward().solve_with_target(0, 0, 0.5).residual_norm, false),
    ("solve_single_target(0)", || backward().solve_single_target(0).residual_norm, false),
    ("solve_single_target(7)", || backward().solve_single_target(7).residual_norm, false),
    ("solve_with_source(0, 0, 0.5)", || backward().solve_with_source(0, 0, 0.5).residual_norm, false),
];

fn forward() -> ForwardPushSolver {
    ForwardPushSolver::new(PushGraph::from_edges(0, &[]), Default::default())
}

fn backward() -> BackwardPushSolver {
    BackwardPushSolver::new(PushGraph::from_edges(0, &[]), Default::default())
}

/// An empty sum is -0.0 with some compilers, and +0 with older ones.
fn of_no_nodes((name, norm, summed): &(&str, fn() -> f64, bool)) -> Option<String> {
    let right = if *summed { expression(Vec::new()).norm } else { 0.0 };
    let norm = norm();
    (norm.to_bits() != right.to_bits()).then(|| format!("{name} of the Rust gives {norm:?}, where {right:?} is awaited"))
}

fn difference(case: &Case) -> Option<String> {
    let lent = Lent::holding(&case.residual);
    let norm = entries::compute_residual_norm(lent.slice());
    if !lent.guarded() || lent.differs(&case.residual).is_some() {
        return Some("compute_residual_norm has written to the list that it was lent to read".to_string());
    }
    (!same(norm, case.norm))
        .then(|| format!("compute_residual_norm gives {:016x}, the Rust {:016x}", norm.to_bits(), case.norm.to_bits()))
}

/// What a solve of the repaired Rust on a random graph leaves.
fn solved(random: &mut Random) -> Case {
    let nodes = 1 + random.below(200) as usize;
    let links: Vec<(usize, usize, f64)> = (0..random.below(800))
        .map(|_| (random.below(nodes as u64) as usize, random.below(nodes as u64) as usize, random.unit()))
        .collect();
    let sources: Vec<usize> = (0..1 + random.below(5)).map(|_| random.below(nodes as u64) as usize).collect();
    let config = ForwardPushConfig { max_pushes: random.below(300) as usize, ..Default::default() };
    let result = ForwardPushSolver::new(PushGraph::from_edges(nodes, &links), config).solve_multi_source(&sources);
    Case { residual: result.residual, norm: result.residual_norm }
}

/// Numbers of every size: any pattern, specials among them, or patterns close to 1.
fn any_vector(random: &mut Random) -> Vec<f64> {
    let any = random.below(4) == 0;
    (0..1 + random.below(40))
        .map(|_| if any { f64::from_bits(random.next()) } else { random.unit() * 2f64.powi(random.below(40) as i32 - 20) })
        .collect()
}

/// A vector with the norm that the Rust's expression gives it. Of no numbers that is -0.0 there, and +0 here.
fn expression(residual: Vec<f64>) -> Case {
    let norm = residual.iter().map(|&x| x * x).sum::<f64>().sqrt();
    Case { residual, norm }
}

fn shorter(case: &Case) -> Vec<Case> {
    let without = |place: usize| {
        let mut residual = case.residual.clone();
        residual.remove(place);
        expression(residual)
    };
    (0..case.residual.len()).filter(|_| case.residual.len() > 1).map(without).collect()
}
