//! How the time of a whole call grows with the number of nodes and with that of links, on both sides, as tables and as
//! plots. Each solve makes the same number of pushes at every size, so that what grows is the graph alone.
use crate::given::Given;
use crate::plot::{Line, Plot};
use crate::solves::{all_of, SOLVERS};
use crate::table;
use crate::work::COLUMNS;
use runs::calls::entry::{Entry, Form, Solver};
use runs::jobs::program::root;
use std::fs;

const ROUNDS: usize = 15;
const PUSHES: usize = 10_000;

/// One for each entry.
const COLOURS: [&str; 4] = ["#0072b2", "#d55e00", "#009e73", "#b0489b"];

pub fn measure() {
    let nodes = (9..=16).map(|power| (1 << power, 8 << power)).collect();
    let links = (13..=20).map(|power| (1 << 13, 1 << power)).collect();
    series("Growth with nodes, 8 links per node: time per call", "nodes", nodes, |size| size.0);
    series("Growth with links, 8,192 nodes: time per call", "links", links, |size| size.1);
}

/// Measures and draws a series of sizes, of which `along` goes along the plot.
fn series(title: &str, what: &str, sizes: Vec<(usize, usize)>, along: fn((usize, usize)) -> usize) {
    table::head(title, &["call", "nodes; links"], &COLUMNS);
    let solves = SOLVERS.map(|solver: Solver| Entry::Solve(solver.first_question(), Form::Links));
    let mut lines = Vec::new();
    for (entry, colour) in [Entry::FromEdges].into_iter().chain(solves).zip(COLOURS) {
        let named = |side: &str| format!("{}, {side}", entry.name());
        let side = |side: &str, dashed: bool| Line { name: named(side), colour, dashed, points: Vec::new() };
        let (mut ours, mut theirs) = (side("proved", false), side("Rust", true));
        for &(nodes, links) in &sizes {
            let mut given = Given::new(nodes, links);
            given.wish.settings = all_of(PUSHES);
            given.wish.backward_settings = all_of(PUSHES);
            let timed = given.work(entry).print(ROUNDS);
            ours.points.push((along((nodes, links)), timed.ours));
            theirs.points.push((along((nodes, links)), timed.theirs));
        }
        lines.extend([ours, theirs]);
    }
    let file = format!("docs/growth-{what}.svg");
    fs::write(root().join(&file), Plot { title, along: what, lines }.drawn()).expect("a plot can be written");
    println!("\n![{title}](growth-{what}.svg)");
}
