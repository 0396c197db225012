//! The repaired Rust as a job program: reads a job from standard input and prints its text, as the program `job` does.
use runs::calls::repaired::done;
use runs::jobs::text::text;
use std::io::{stdin, stdout, Read, Write};

fn main() {
    let mut bytes = Vec::new();
    stdin().read_to_end(&mut bytes).expect("a job that can be read");
    stdout().write_all(text(&bytes, done).as_bytes()).expect("a text that can be written");
}
