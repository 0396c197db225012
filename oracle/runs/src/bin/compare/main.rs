//! Compares the proved library with the Rust, input by input: with the extended copy of it, and where that can be asked with the
//! repaired one.
//!
//! compare [full | quarter | short] [seed N] [for MINUTES] [behind | before] [overrun NAME] [store] [forward] [backward] [bidirectional] [recorded] [jobs] [planted]
//!
//! Without `full` it runs the share that the gate runs. Where parts are named it runs these: `store` is the square
//! root, the norm, the graph store and the calls on vectors alone, `recorded` what `record solver` wrote of the Rust,
//! which itself is not called there, `jobs` the job program as a process. `planted` puts one wrong digit, or a wrong no, into
//! some of the proved library's answers, of the square root, of each search for a link, of each call of the solvers, of each
//! that is recorded and of the job program, to show that a difference is found, leaves a push due in the Rust's vectors of each
//! solve that is held to the statement for the stop, and puts a wrong digit into what one copy of the Rust answers to each question
//! of the solvers: the program must then fail, and it does so only where each is found.
//! With `for` it begins anew with the next seed, part by part, until so many minutes are over.
//!
//! `behind` puts every list that is lent right before memory that nothing may touch, and `before` right behind such memory, so
//! that a word read or written outside ends the program. `short` draws a hundredth of the gate's inputs, and no large ones;
//! `quarter` is the gate's share under an emulator. `overrun NAME` does what must end it: see `overrun`.
mod calls;
mod edges;
mod graph;
mod jobs;
mod norm;
mod overrun;
mod recorded;
mod solves;
mod square_root;
mod vectors;

use runs::calls::entry::Solver;
use runs::calls::vectors::ENTRIES;
use runs::comparison::Comparison;
use runs::fenced::Fence;
use runs::lent;
use runs::random::Random;
use std::time::{Duration, Instant};

const PARTS: [&str; 6] = ["store", "forward", "backward", "bidirectional", "recorded", "jobs"];
const SOLVERS: [Solver; 3] = [Solver::Forward, Solver::Backward, Solver::Bidirectional];

/// What a run was asked for.
pub struct Asked {
    pub full: bool,
    pub quarter: bool,
    pub short: bool,
    pub planted: bool,
    pub seed: u64,
    /// How long it begins anew.
    time: Duration,
    /// The parts that are named: none stand for all.
    pub parts: Vec<String>,
}

impl Asked {
    /// The number of inputs: `gate` in the gate, `full` in a full run.
    pub fn size(&self, gate: u64, full: u64) -> u64 {
        match () {
            _ if self.short => gate.div_ceil(100),
            _ if self.quarter => gate.div_ceil(4),
            _ if self.full => full,
            _ => gate,
        }
    }

    /// How large the graphs are of which every one is tried: as `size`, but a quarter of the inputs tries them all too.
    pub fn every_up_to(&self, gate: u64, full: u64) -> u64 {
        if self.quarter {
            gate
        } else {
            self.size(gate, full)
        }
    }

    /// Of inputs that are listed, and not drawn, a run takes one in so many: for those that each take a process of their own.
    pub fn one_in(&self) -> usize {
        if self.quarter {
            4
        } else {
            1
        }
    }

    /// Whether graphs of so many nodes are drawn. A short run has large ones at the limits of size, and draws none.
    pub fn draws(&self, nodes: u32) -> bool {
        !self.short || nodes <= 1_000
    }

    fn asks_for(&self, part: &str) -> bool {
        self.parts.is_empty() || self.parts.iter().any(|named| named == part)
    }
}

fn main() {
    let mut asked = Asked {
        full: false,
        quarter: false,
        short: false,
        planted: false,
        seed: 1,
        time: Duration::ZERO,
        parts: Vec::new(),
    };
    let mut words = std::env::args().skip(1);
    while let Some(word) = words.next() {
        match word.as_str() {
            "full" => asked.full = true,
            "quarter" => asked.quarter = true,
            "short" => asked.short = true,
            "behind" => lent::fence(Fence::Behind),
            "before" => lent::fence(Fence::Before),
            "overrun" => return overrun::done(&words.next().expect("overrun takes a name")),
            "planted" => asked.planted = true,
            "seed" => asked.seed = number(&mut words, "seed"),
            "for" => asked.time = Duration::from_secs(60 * number(&mut words, "for")),
            part if PARTS.contains(&part) => asked.parts.push(word),
            _ => panic!("compare [full | quarter | short] [seed N] [for MINUTES] [behind | before] [overrun NAME] [store] [forward] [backward] [bidirectional] [recorded] [jobs] [planted]"),
        }
    }
    if asked.planted {
        return planted(&asked, &mut Random::new(asked.seed));
    }
    let began = Instant::now();
    let mut comparison = Comparison::new();
    loop {
        let mut random = Random::new(asked.seed);
        for part in PARTS.into_iter().filter(|part| asked.asks_for(part)) {
            compare(&asked, part, &mut comparison, &mut random);
            if began.elapsed() >= asked.time && asked.time > Duration::ZERO {
                return comparison.finish();
            }
        }
        if began.elapsed() >= asked.time {
            return comparison.finish();
        }
        asked.seed += 1;
    }
}

fn number(words: &mut impl Iterator<Item = String>, word: &str) -> u64 {
    words.next().and_then(|n| n.parse().ok()).unwrap_or_else(|| panic!("{word} takes a number"))
}

fn compare(asked: &Asked, part: &str, comparison: &mut Comparison, random: &mut Random) {
    match part {
        "store" => {
            square_root::compare(asked, comparison, random);
            norm::compare(asked, comparison, random);
            graph::compare(asked, comparison, random);
            edges::compare(asked, comparison, random);
            for entry in ENTRIES {
                vectors::compare(asked, entry, comparison, random);
            }
        }
        "recorded" => recorded::compare(comparison),
        "jobs" => jobs::compare(asked, comparison, random),
        _ => {
            for solver in SOLVERS.into_iter().filter(|solver| solver.name() == part) {
                solves::compare(asked, solver, comparison, random);
            }
        }
    }
}

fn planted(asked: &Asked, random: &mut Random) {
    let mut comparison = Comparison::of_planted();
    if asked.asks_for("store") {
        square_root::planted(&mut comparison, random);
        edges::planted(&mut comparison);
    }
    for solver in SOLVERS.into_iter().filter(|solver| asked.asks_for(solver.name())) {
        solves::planted(solver, &mut comparison, random);
    }
    if asked.asks_for("store") {
        for entry in ENTRIES {
            vectors::planted(entry, &mut comparison, random);
        }
    }
    if asked.asks_for("recorded") {
        recorded::planted(&mut comparison);
    }
    if asked.asks_for("jobs") {
        jobs::planted(&mut comparison, random);
    }
    comparison.finish();
}
