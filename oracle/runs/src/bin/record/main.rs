//! Records what the repaired Rust answers, to be held to the proved library without the Rust: a program of Rattle replays
//! what the queue did, and `compare recorded` makes the calls of the solvers. A recording is seeded, so it comes out the same
//! every time.
//!
//! `record queue > crates/queue_check/stdin`, `record solver > oracle/recorded/solver`
mod queue;
mod recorder;
mod solver;
mod solves;

use std::io::{self, Write};
use std::{env, process};

fn main() -> io::Result<()> {
    let recording = match env::args().nth(1).as_deref() {
        Some("queue") => queue::recording(),
        Some("solver") => solver::recording(),
        _ => {
            eprintln!("record queue, or record solver");
            process::exit(2)
        }
    };
    io::stdout().write_all(&recording)
}
