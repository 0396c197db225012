//! The job program beside the repaired Rust behind the same format, both as processes: from the start of one to its
//! end.
use crate::given::{drawn, on_links};
use crate::keep;
use crate::table;
use runs::calls::call::{Call, Wish};
use runs::entries::Settings;
use runs::jobs::bytes::{laid_out, MOST_LINKS, MOST_NODES, QUESTION};
use runs::jobs::program::{Program, Way};
use runs::random::Random;
use runs::timing::interleaved;

const ROUNDS: usize = 1_001;

pub fn measure() {
    table::head("Job program: time per process", &["job", "pushes"], &["rounds", "`job`", "`rust_job`", "ratio"]);
    of_job("256 nodes, 1,024 links, the Rust's default settings", &largest());
    let few = Settings { epsilon: 1e-4, queue_threshold: 1e-4, ..Settings::DEFAULT };
    of_job("256 nodes, 1,024 links, epsilon and threshold 1e-4", &solving(graph(), few));
    of_job("no nodes, no links: only the start and end of a process", &solving(Call::on_links(0, &[]), Settings::DEFAULT));
}

/// The bytes of a job at its limits, with the Rust's default settings.
pub fn largest() -> Vec<u8> {
    solving(graph(), Settings::DEFAULT)
}

fn graph() -> Call {
    on_links(MOST_NODES as usize, &drawn(&mut Random::new(1), u64::from(MOST_NODES), MOST_LINKS))
}

/// The bytes of a job that solves from node 0.
fn solving(graph: Call, settings: Settings) -> Vec<u8> {
    laid_out(&graph.solving(QUESTION).wishing(Wish { many: vec![0], settings, ..Wish::default() }))
}

fn of_job(name: &str, bytes: &[u8]) {
    let (ours, theirs) = (Program::job(), Program::rust_job());
    let text = |program: &Program| String::from_utf8(program.run(bytes, Way::Pipe).text).expect("a plain text");
    let printed = text(&ours);
    assert_eq!(printed, text(&theirs), "both sides print the same");
    let word = printed.split(' ').nth(1).expect("a job that is done");
    let pushes = word.parse().expect("its pushes");
    let run = |program: &Program| keep(program.run(bytes, Way::Pipe));
    let timed = interleaved(ROUNDS, 1, || run(&ours), || run(&theirs));
    let labels = [name.to_string(), table::grouped(pushes), table::grouped(ROUNDS)];
    table::line(&labels.into_iter().chain(table::sides(&timed)).collect::<Vec<_>>());
}
