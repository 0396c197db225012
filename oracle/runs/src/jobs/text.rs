//! The text of a job, by a copy of the Rust: what the program `job` is to print.
use super::bytes::{call_in, QUESTION};
use crate::calls::call::Call;
use crate::calls::entry::Question;
use crate::calls::outcome::{Contents, Outcome, Returned};
use crate::calls::refusal::refusal;
use std::fmt::Write;

/// What a copy of the Rust makes of a solve.
pub type Solve = fn(&Call, Question) -> Outcome;

/// The refusal number of a job of another shape, which comes before every other test.
const ANOTHER_SHAPE: u32 = 8;

pub fn text(bytes: &[u8], solve: Solve) -> String {
    let Some(call) = call_in(bytes) else { return refused(ANOTHER_SHAPE) };
    match refusal(&call) {
        0 => done(solve(&call, QUESTION)),
        number => refused(number),
    }
}

fn refused(number: u32) -> String {
    format!("refused {number}\n")
}

fn done(outcome: Outcome) -> String {
    let Outcome::Done { returned: Returned::Solved(solved), answer } = outcome else { unreachable!("a solve") };
    let [Contents::Real(estimate), Contents::Real(residual)] = &answer[..] else { unreachable!("two vectors") };
    let mut text = format!("done {} {} {}\n", solved.push_count, solved.nodes_visited, bits(solved.residual_norm));
    for (node, (estimate, residual)) in estimate.iter().zip(residual).enumerate() {
        writeln!(text, "{node} {} {}", bits(*estimate), bits(*residual)).expect("a text grows");
    }
    text
}

/// The bits of a number; every NaN is written as one.
fn bits(number: f64) -> String {
    let number = if number.is_nan() { f64::from_bits(0x7ff8_0000_0000_0000) } else { number };
    format!("{:016x}", number.to_bits())
}
