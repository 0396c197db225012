//! What the Rust answers where the proved library refuses: a small example for each reason, made on both sides, as the table that
//! docs/DIFFERENCES.md has. The gate holds the two together.
use runs::calls::call::{Call, Wish, CHAIN_SETTINGS as SETTINGS};
use runs::calls::entry::{Entry, Form, Question, Solver, Task};
use runs::calls::extended::{Run, Theirs};
use runs::calls::given;
use runs::calls::lending::Slice;
use runs::calls::make::{make, Read};
use runs::calls::outcome::Returned;
use runs::calls::shape::Kind;
use runs::entries::{Built, Found, Scored, Settings, Solved, Weighed};
use std::panic::{catch_unwind, set_hook};

const FORWARD: Solver = Solver::Forward;
/// Every node is queued, and every node that is popped is pushed.
const ALL_PUSHED: Settings = Settings { epsilon: 0.0, queue_threshold: 0.0, max_pushes: 2, ..SETTINGS };
/// Every node that is popped is pushed, and the threshold adapts each time.
const ADAPTING: Settings = Settings { epsilon: 0.0, adaptive_threshold: true, adaptive_step: 1, ..SETTINGS };

fn main() {
    // The text of a panic goes into the table, and not to standard error besides.
    set_hook(Box::new(|_| ()));
    println!("| number | input | the Rust |");
    println!("|---|---|---|");
    sizes();
    rows();
    weights();
    settings();
    adaptive_numbers();
    precisions();
}

fn sizes() {
    show("65,537 nodes, and the link 0 to 65,536", &solve(65_537, &[(0, 65_536, 1.0)], SETTINGS));
    let links = vec![(0, 1, 1.0); 1_048_577];
    show("1,048,577 times the link 0 to 1, epsilon and threshold 0, at most 2 pushes", &solve(2, &links, ALL_PUSHED));
    let mut many = chain(Settings { max_pushes: 0, ..SETTINGS }).solving(Question { solver: FORWARD, task: Task::Multi });
    many.wish.many = vec![0; 65_537];
    show("65,537 times the source 0, at most 0 pushes", &many);
    show("rows: starts 0, 1, 2, columns 1, 0, one weight", &matrix(2, &[0, 1, 2], &[1, 0], &[1.0]));
}

fn rows() {
    show("rows: starts 1, 1, 2, columns 1, 0", &matrix(2, &[1, 1, 2], &[1, 0], &[1.0, 1.0]));
    show("rows: starts 0, 1, 0, 2, columns 0, 1", &matrix(3, &[0, 1, 0, 2], &[0, 1], &[1.0, 1.0]));
    show("rows: starts 0, 2, 1, column 0", &matrix(2, &[0, 2, 1], &[0], &[1.0]));
    show("rows: starts 0, 1, 1, columns 1, 0", &matrix(2, &[0, 1, 1], &[1, 0], &[1.0, 1.0]));
    show("rows: starts 0, 1, 2, column 1", &matrix(2, &[0, 1, 2], &[1], &[1.0]));
    show("rows: starts 0, 1, 1, column 2", &matrix(2, &[0, 1, 1], &[2], &[1.0]));
}

fn weights() {
    for weight in [-1.0, f64::NAN, f64::INFINITY] {
        show(&format!("weight {weight}"), &solve(2, &[(0, 1, weight)], SETTINGS));
    }
    let text = "weight 1,048,577, epsilon and threshold 0, at most 2 pushes";
    show(text, &solve(2, &[(0, 1, 1_048_577.0)], ALL_PUSHED));
}

fn settings() {
    for alpha in [-0.5, 1.5, f64::NAN] {
        show(&format!("alpha {alpha}"), &chain(Settings { alpha, ..SETTINGS }));
    }
    for epsilon in [-1.0, f64::NAN, f64::INFINITY] {
        let settings = Settings { epsilon, queue_threshold: 0.0, ..SETTINGS };
        show(&format!("epsilon {epsilon}, threshold 0"), &chain(settings));
    }
    for queue_threshold in [-1.0, f64::NAN, f64::INFINITY] {
        let settings = Settings { queue_threshold, epsilon: 0.0, ..SETTINGS };
        show(&format!("threshold {queue_threshold}, epsilon 0"), &chain(settings));
    }
    show("max_pushes 1,000,000,001", &chain(Settings { max_pushes: 1_000_000_001, ..SETTINGS }));
}

fn adaptive_numbers() {
    let adaptive = "adaptive, epsilon 0";
    show(&format!("{adaptive}, step 0"), &chain(Settings { adaptive_step: 0, ..ADAPTING }));
    let sizes = Settings { upper_size: 0, lower_size: 1, ..ADAPTING };
    show(&format!("{adaptive}, step 1, upper size 0, lower size 1"), &chain(sizes));
    for raising_factor in [-1.0, f64::NAN, f64::INFINITY] {
        let settings = Settings { raising_factor, upper_size: 0, lower_size: 0, ..ADAPTING };
        show(&format!("{adaptive}, step 1, sizes 0, raising factor {raising_factor}"), &chain(settings));
    }
    for lowering_factor in [-1.0, f64::NAN, f64::INFINITY] {
        let settings = Settings { lowering_factor, ..ADAPTING };
        show(&format!("{adaptive}, step 1, lowering factor {lowering_factor}"), &chain(settings));
    }
    for threshold_floor in [-1.0, f64::NAN, f64::INFINITY] {
        let settings = Settings { threshold_floor, lowering_factor: 0.5, ..ADAPTING };
        show(&format!("{adaptive}, step 1, lowering factor 0.5, floor {threshold_floor}"), &chain(settings));
    }
}

fn precisions() {
    for precision in [-1.0, f64::NAN, f64::INFINITY] {
        let mut call = chain(SETTINGS).solving(Question { solver: FORWARD, task: Task::Watched });
        call.wish = Wish { target: 0, precision, ..call.wish };
        show(&format!("target 0, precision {precision}"), &call);
    }
}

/// Node 0 with a link to node 1 of weight 1, solved from node 0.
fn chain(settings: Settings) -> Call {
    solve(2, &[(0, 1, 1.0)], settings)
}

/// A solve from node 0.
fn solve(nodes: u32, links: &[(u32, u32, f64)], settings: Settings) -> Call {
    let call = Call::on_links(nodes, links).solving(Question { solver: FORWARD, task: Task::Single });
    call.wishing(Wish { source: 0, many: vec![0], settings, ..Wish::default() })
}

fn matrix(nodes: u32, starts: &[u32], columns: &[u32], weights: &[f64]) -> Call {
    Call::on_rows(Entry::FromMatrix, nodes, starts.to_vec(), columns.to_vec(), weights.to_vec())
}

/// Prints the number that the library refuses the call with, and what the Rust makes of it.
fn show(input: &str, call: &Call) {
    let number = refused(call);
    assert_ne!(number, 0, "{input}: the library refuses it");
    let answer = catch_unwind(|| theirs(call)).unwrap_or_else(|panic| {
        let text = panic.downcast_ref::<String>().map(String::as_str).or(panic.downcast_ref::<&str>().copied());
        format!("panics: `{}`", text.expect("a text"))
    });
    println!("| {number} | {input} | {answer} |");
}

/// What the library returns.
fn refused(call: &Call) -> u32 {
    enum Space {
        Whole(Vec<u32>),
        Wide(Vec<u64>),
        Real(Vec<f64>),
    }
    let shapes = call.entry.written();
    let space = shapes.iter().zip(&call.lengths).map(|(shape, &length)| match shape.kind {
        Kind::Whole => Space::Whole(vec![0; length]),
        Kind::Wide => Space::Wide(vec![0; length]),
        Kind::Real => Space::Real(vec![0.0; length]),
    });
    let mut space: Vec<Space> = space.collect();
    let mut lent = space.iter_mut().map(|space| match space {
        Space::Whole(words) => Slice::Whole(words),
        Space::Wide(words) => Slice::Wide(words),
        Space::Real(words) => Slice::Real(words),
    });
    let read = Read { first: &call.first, second: &call.second, weights: &call.weights, many: &call.wish.many };
    match make(call, &read, &mut lent) {
        Returned::Number(refusal)
        | Returned::Built(Built { refusal, .. })
        | Returned::Found(Found { refusal, .. })
        | Returned::Weighed(Weighed { refusal, .. })
        | Returned::Solved(Solved { refusal, .. })
        | Returned::Scored(Scored { refusal, .. }) => refusal,
    }
}

/// What the Rust answers.
fn theirs(call: &Call) -> String {
    let graph = given::graph(call);
    let Entry::Solve(question, Form::Links) = call.entry else {
        return format!(
            "rows with the links {}, reverse rows with the links {}",
            links(|node| graph.forward_neighbors(node).map(|(other, weight)| (node, other, weight)).collect(), call.nodes),
            links(|node| graph.backward_neighbors(node).map(|(other, weight)| (other, node, weight)).collect(), call.nodes)
        );
    };
    let Run { estimate, residual, push_count, nodes_visited, residual_norm } =
        Theirs::new(FORWARD, graph, &call.wish).solved(&call.wish, question.task);
    let pushes = if push_count == 1 { "push" } else { "pushes" };
    let nodes = if nodes_visited == 1 { "node" } else { "nodes" };
    format!(
        "{push_count} {pushes} on {nodes_visited} {nodes}, norm {residual_norm}, estimate {}, residual {}",
        ends(&estimate),
        ends(&residual)
    )
}

/// Each link as its ends and weight.
fn links(of_node: impl Fn(usize) -> Vec<(usize, usize, f64)>, nodes: u32) -> String {
    let all = (0..nodes as usize).flat_map(of_node);
    all.map(|(from, to, weight)| format!("{from} to {to} of {weight}")).collect::<Vec<_>>().join(", ")
}

/// The first number and the last.
fn ends(vector: &[f64]) -> String {
    format!("{} and {}", vector[0], vector[vector.len() - 1])
}
