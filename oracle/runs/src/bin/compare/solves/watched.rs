//! Solves that watch a node, with a precision near to what the whole solve gives it.
use crate::calls::wishes::{next_down, next_up};
use crate::calls::{lists, wishes};
use runs::calls::call::Call;
use runs::calls::entry::{Question, Solver, Task};
use runs::calls::extended::Theirs;
use runs::calls::given;
use runs::entries::Settings;
use runs::random::Random;

/// How a solve that watches a node compares with one that does not.
#[derive(PartialEq)]
enum Stop {
    Early,
    Late,
    Never,
}

/// Some stop early, some late, some never; counted is how many do each.
pub fn stopping(random: &mut Random, solver: Solver, count: u64) -> (Vec<Call>, [(&'static str, u64); 3]) {
    let (calls, stops): (Vec<Call>, Vec<Stop>) = (0..count).map(|_| watching(random, solver)).unzip();
    let number = |stop: Stop| stops.iter().filter(|found| **found == stop).count() as u64;
    let counts = [("early", number(Stop::Early)), ("late", number(Stop::Late)), ("never", number(Stop::Never))];
    (calls, counts)
}

fn watching(random: &mut Random, solver: Solver) -> (Call, Stop) {
    let settings = Settings { alpha: 0.05 + 0.3 * random.unit(), max_pushes: 400, ..Settings::DEFAULT };
    let mut call = lists::random(random, 30, 120, false).solving(Question { solver, task: Task::Watched });
    call.wish = wishes::with_settings(random, &call, [settings; 2]);
    let graph = given::graph(&call);
    let theirs = Theirs::new(solver, graph.clone(), &call.wish);
    let whole = theirs.solved(&call.wish, Task::Single);
    let watched = if solver == Solver::Forward { call.wish.target } else { call.wish.source };
    let at_watched = |vector: &[f64]| vector.get(watched as usize).copied().unwrap_or(0.0);
    call.wish.precision = if random.below(2) == 0 {
        at_watched(&whole.estimate) * random.one_of(&[0.0, 0.1, 0.5, 0.9, 0.99, 1.0, 2.0])
    } else {
        // What is compared with the precision, or its tenth, after some of the pushes: equal to it, or next to it.
        let mut wish = call.wish.clone();
        wish.settings.max_pushes = random.below(whole.push_count as u64 + 1);
        let part = Theirs::new(solver, graph, &wish).solved(&wish, Task::Single);
        let (score, tenfold) = (at_watched(&part.estimate), at_watched(&part.residual) / 0.1);
        random.one_of(&[score, next_down(score), tenfold, next_up(tenfold), next_down(tenfold)])
    };
    let stopped = theirs.solved(&call.wish, Task::Watched).push_count;
    let stop = match stopped {
        _ if stopped == whole.push_count => Stop::Never,
        _ if 2 * stopped < whole.push_count => Stop::Early,
        _ => Stop::Late,
    };
    (call, stop)
}
