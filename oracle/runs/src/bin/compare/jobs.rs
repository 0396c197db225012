//! The job program, run as a process on each input, against the Rust behind the same format: its text byte for byte, and that it
//! ends in success. A job has the adaptive numbers that the repaired Rust has in its code, so both copies give the text.
mod damaged;
mod drawn;
mod input;
mod limits;

use crate::Asked;
use input::{smaller, Input};
use runs::calls::{extended, repaired};
use runs::comparison::Comparison;
use runs::jobs::program::{Printed, Program};
use runs::jobs::text::text;
use runs::random::Random;
use std::sync::atomic::{AtomicU64, Ordering::Relaxed};

/// The answers that a job can get, as its text begins.
const ANSWERS: [&str; 4] = ["done", "refused 5", "refused 6", "refused 8"];

/// The job program, how often the inputs have led to each answer, and how often both copies of the Rust have solved one alike.
struct Jobs {
    program: Program,
    answers: [AtomicU64; ANSWERS.len()],
    alike: AtomicU64,
}

pub fn compare(asked: &Asked, comparison: &mut Comparison, random: &mut Random) {
    let jobs = Jobs::new();
    let mut kind = |name: &str, inputs: &mut dyn Iterator<Item = Input>| {
        comparison.kind_at_once(&format!("job, {name}"), inputs, |input| jobs.difference(input), smaller);
    };
    kind("every list of up to 2 nodes and 1 link", &mut drawn::small(random, 1, asked.size(10, 100)));
    kind("every list of up to 2 nodes and 2 links", &mut drawn::small(random, 2, asked.size(1, 10)));
    for (nodes, links, gate, full) in [(8, 40, 6_000, 120_000), (64, 400, 1_500, 30_000), (256, 1_024, 1_000, 20_000)] {
        let name = format!("random lists of up to {nodes} nodes and {links} links");
        kind(&name, &mut drawn::random(random, nodes, links, asked.size(gate, full)));
    }
    for nodes in [1, 2, 3, 10, 63, 64, 65, 100, 255, 256] {
        let name = format!("planned lists of {nodes} nodes");
        kind(&name, &mut drawn::planned(random, nodes, asked.size(2, 20)).into_iter());
    }
    kind("sources repeated, out of range, none", &mut drawn::sources(random, asked.size(500, 10_000)));
    kind("limits of weight, in each place", &mut limits::weights().into_iter());
    kind("limits of settings, each two", &mut limits::settings().into_iter());
    kind("limits of nodes, links and sources", &mut limits::sizes().into_iter());
    kind("each field of the header", &mut damaged::fields().into_iter());
    kind("each two fields of the header", &mut damaged::pairs_of_fields().into_iter().step_by(asked.one_in()));
    kind("the same bytes shared out otherwise", &mut damaged::shared_otherwise().into_iter());
    kind("each flag, and each two", &mut damaged::flags().into_iter());
    kind("every length", &mut damaged::lengths(asked.full).into_iter().step_by(asked.one_in()));
    kind("more bytes than a job can have", &mut damaged::long().into_iter());
    kind("a bit turned in each place", &mut damaged::bits().into_iter().step_by(asked.one_in()));
    kind("several bytes exchanged", &mut damaged::several(random, asked.size(3_000, 60_000)));
    kind("read in pieces, and from a file", &mut drawn::ways(random, asked.size(60, 600)));
    kind("a read that fails, before the end or behind it", &mut damaged::failing(&jobs.program).into_iter());
    let thousands = drawn::thousands(random, asked.size(300, 6_000));
    kind("thousands of pushes, threshold falling or not", &mut thousands.into_iter());
    kind("queues at the size where the threshold adapts", &mut drawn::queue_sizes().into_iter());
    let by_hand = limits::by_hand().into_iter();
    comparison.kind("job, sums and edges done by hand", by_hand, |case| jobs.of_case(case), |_| Vec::new());
    let answers: Vec<(&str, u64)> =
        ANSWERS.into_iter().zip(&jobs.answers).map(|(answer, count)| (answer, count.load(Relaxed))).collect();
    comparison.reached("job, each answer", &answers);
    let alike = [("texts", jobs.alike.load(Relaxed))];
    comparison.reached("job, solved alike by the extended Rust and the repaired", &alike);
}

/// The program's text with its last digit turned where the job has two nodes.
pub fn planted(comparison: &mut Comparison, random: &mut Random) {
    let jobs = Jobs::new();
    let spoiled = |input: &Input| {
        let mut printed = jobs.printed(input);
        if let [.., digit, b'\n'] = &mut printed.text[..] {
            if input.nodes() == Some(2) {
                *digit ^= 1;
            }
        }
        unlike(&printed, &text(&input.bytes, extended::done))
    };
    comparison.kind_at_once("job, planted", drawn::small(random, 1, 1), spoiled, smaller);
}

impl Jobs {
    fn new() -> Self {
        Self { program: Program::job(), answers: Default::default(), alike: Default::default() }
    }

    fn printed(&self, input: &Input) -> Printed {
        self.program.run(&input.bytes, input.way)
    }

    fn difference(&self, input: &Input) -> Option<String> {
        let right = text(&input.bytes, extended::done);
        let answer = ANSWERS.iter().position(|answer| right.starts_with(answer)).expect("one of the answers");
        self.answers[answer].fetch_add(1, Relaxed);
        self.of_copies(input, &right).or_else(|| unlike(&self.printed(input), &right))
    }

    /// Where the repaired Rust prints another text than the extended one, of a job that is done.
    fn of_copies(&self, input: &Input, extended: &str) -> Option<String> {
        if !extended.starts_with("done") {
            return None;
        }
        let repaired = text(&input.bytes, repaired::done);
        if repaired != extended {
            return Some(format!("the repaired Rust's side prints {repaired:?}, that of the extended one {extended:?}"));
        }
        self.alike.fetch_add(1, Relaxed);
        None
    }

    /// A job whose text docs/RULES.md gives: the Rust's side is held to it too.
    fn of_case(&self, (input, right): &(Input, String)) -> Option<String> {
        let theirs = text(&input.bytes, extended::done);
        let misread = (theirs != *right).then(|| format!("the Rust's side prints {theirs:?}, docs/RULES.md {right:?}"));
        misread.or_else(|| self.difference(input))
    }
}

/// How a text and an end differ from the right text and success.
fn unlike(printed: &Printed, right: &str) -> Option<String> {
    let Printed { text, status } = printed;
    if !status.success() {
        return Some(format!("job ends with {status}"));
    }
    if text == right.as_bytes() {
        return None;
    }
    let text = String::from_utf8_lossy(text);
    let lines = || text.split_inclusive('\n').zip(right.split_inclusive('\n')).enumerate();
    Some(match lines().find(|(_, (ours, theirs))| ours != theirs) {
        Some((line, (ours, theirs))) => format!("job prints {ours:?} as line {line} from 0, where {theirs:?} is right"),
        None => format!("job prints {} bytes, where {} are right", text.len(), right.len()),
    })
}
