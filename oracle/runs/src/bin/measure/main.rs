//! Measures the proved library beside the Rust, in one run, and prints tables in Markdown. A ratio above 1 says that the
//! proved library takes longer.
//!
//! measure [calls | edges | job | growth | names | once NAME [ours | theirs | neither] | stores NAME (default | zero) PUSHES]
//!
//! Without a word it measures everything: each call by itself, the job program, and growth with nodes and with links,
//! which draws docs/growth-nodes.svg and docs/growth-links.svg. `edges` is the part of `calls` that searches rows for a link.
//! With `once` both sides work once, untimed, or one of them, or neither, for a tool that counts instructions: NAME is one
//! of those that `names` prints. `once job` prints a job at its limits, for `job` and `rust_job` to read. `stores` prints
//! where the queue's two buffers lie, and solves with default settings or with thresholds of zero, for a tool that counts
//! the stores into them.
mod edges;
mod given;
mod graph;
mod growth;
mod heap;
mod job;
mod machine;
mod numbers;
mod ours;
mod plot;
mod solves;
mod table;
mod theirs;
mod work;

use given::Given;
use runs::calls::call::Wish;
use runs::calls::entry::{store, Entry, Question, Solver, SEARCHES};
use runs::entries::Settings;
use std::env;
use std::hint::black_box;
use std::io::Write;

fn main() {
    let words: Vec<String> = env::args().skip(1).collect();
    let words: Vec<&str> = words.iter().map(String::as_str).collect();
    match words[..] {
        [] => machine::described(|| {
            calls();
            job::measure();
            growth::measure();
        }),
        ["calls"] => machine::described(calls),
        ["edges"] => machine::described(edges::measure),
        ["job"] => machine::described(job::measure),
        ["growth"] => machine::described(growth::measure),
        ["names"] => names().iter().for_each(|name| println!("{name}")),
        ["once", "job"] => std::io::stdout().write_all(&job::largest()).expect("bytes can be printed"),
        ["once", name] => once(name, "both"),
        ["once", name, side @ ("ours" | "theirs" | "neither")] => once(name, side),
        ["stores", name, "default", pushes] => stores(name, Settings::DEFAULT, pushes),
        ["stores", name, "zero", pushes] => stores(name, solves::all_of(0), pushes),
        _ => panic!(
            "measure [calls | edges | job | growth | names | once NAME [ours | theirs | neither] \
             | stores NAME (default | zero) PUSHES]"
        ),
    }
}

fn calls() {
    numbers::measure();
    let given = [(1_000, 10_000), (65_536, 262_144), (65_536, 1_048_576)].map(|(nodes, links)| Given::new(nodes, links));
    graph::measure(&given);
    edges::measure();
    solves::measure(&given);
}

fn entries() -> impl Iterator<Item = Entry> {
    store().chain(solves::SOLVERS.into_iter().flat_map(Solver::entries))
}

fn names() -> Vec<String> {
    let fixed = numbers::NAMES.into_iter().chain([graph::WHOLE]).map(str::to_string);
    fixed.chain(entries().map(Entry::name)).collect()
}

/// A call on 65,536 numbers, or on 65,536 nodes and 262,144 links, with at most 100,000 pushes. By the default settings a
/// backward solve is over after few: it is asked for all of them. A search goes through a row of 65,536 links.
fn once(name: &str, side: &str) {
    if numbers::NAMES.contains(&name) {
        return numbers::work(name, 65_536).once(side);
    }
    if let Some(entry) = SEARCHES.into_iter().find(|entry| entry.name() == name) {
        return edges::Row::new(65_536).search(entry, 1).once(side);
    }
    let mut given = Given::new(65_536, 262_144);
    if name == graph::WHOLE {
        return graph::whole(&given).once(side);
    }
    let entry = named(name);
    given.wish.settings.max_pushes = 100_000;
    given.wish.backward_settings = solves::all_of(100_000);
    if let Entry::Solve(Question { solver: Solver::Backward, .. }, _) = entry {
        given.wish.settings = given.wish.backward_settings;
    }
    given.work(entry).once(side);
}

/// A solve on 1,000 nodes and 10,000 links with at most so many pushes. The addresses of each buffer are printed before it.
fn stores(name: &str, settings: Settings, pushes: &str) {
    let given = Given::new(1_000, 10_000);
    let settings = Settings { max_pushes: pushes.parse().expect("a number of pushes"), ..settings };
    let mut ours = given.ours(named(name), &Wish { settings, ..given.wish.clone() });
    for buffer in ["priorities", "nodes"] {
        let addresses = ours.addresses(buffer);
        println!("{:x} {:x}", addresses.start, addresses.end);
    }
    keep(ours.make());
}

fn named(name: &str) -> Entry {
    entries().find(|entry| entry.name() == name).expect("one of the names that `measure names` prints")
}

/// Keeps a result that nothing reads, so that the work for it is done.
fn keep<T>(result: T) {
    let _ = black_box(result);
}
