//! Writes what the extended Rust answers on seeded small graphs as a crate of equations between the push rules and
//! those answers, numbers as bit patterns, and with them where a push is still due after each solve. Where the prover
//! admits the crate, computing the rules gave the same.
//!
//! `rules FOLDER`, or `rules FOLDER planted`, which writes one graph alone, and one answer of it wrong
use extended::adaptions;
use extended::graph::PushGraph;
use extended::solver::backward_push::{BackwardPushSolver, BidirectionalPushSolver};
use extended::solver::forward_push::ForwardPushSolver;
use runs::calls::extended::{backward_config, forward_config, Run};
use runs::calls::left;
use runs::entries::Settings;
use runs::random::Random;
use std::fmt::Write as _;
use std::path::Path;
use std::{env, fs};

const GRAPHS: u64 = 40;

/// What becomes of some threshold, as `adaptions` names it.
const ADAPTIONS: [&str; 6] =
    ["raised", "lowered", "kept by the floor", "kept by both sizes", "turned to zero", "again from zero"];

const HEADER: &str = "\
-- What the Rust answers on seeded small graphs, as equations with the rules. Made by oracle/rules.
use Rattle.std.specs.Prelude.{ℕ, true, false, List, [], ◌∷◌, ◌≡◌, refl, Float}
use Rattle.std.proofs.Common.{ap, ◌∙◌, lit<, lit≤}
use Rattle.std.specs.Float.Ieee.{odd, of_bits, of_int, add, sub, mul, div, lt, le}
use Rattle.numbers.specs.Numbers.{f64}
use Rattle.numbers.specs.Choice.{if◌then◌otherwise◌}
use Rattle.numbers.specs.Tables.{tabulate}
use Rattle.refusals.specs.declared.Settings.{Settings}
use Rattle.norm.specs.Norm.{Norm, add_squares}
use Rattle.marks.specs.Marks.{how_many}
use Rattle.graph.specs.Rows.{Link, link, kept, gives, row_of, rows_of, sum_from, degree, into, into_from, transposed}
use Rattle.queue.specs.Waiting.{waits, taken, answer, offered, better, best_from, next, adapted}
use Rattle.rules.specs.Ways.{push_forward, push_backward, effective, transition, share_of, way_of, over, over_links, degree_of}
use Rattle.rules.specs.Rules.{each, State, unwatched, watched, blank, queued, gain, absorb, threshold_after, counted, offer, pass, hand_out, push}
use Rattle.rules.specs.Rules.{stops, goes_on, due, skips, visit, turn, onward, run, inside, watchable, begun, start, enough, solve}
use Rattle.rules.specs.Answers.{visited_count, score_at, extrapolated, combined, by_degrees, method_among, method, answer_by}
use Rattle.rules.specs.StillDue.{still_due}
use Rattle.rules.specs.Cases.{Ending}
use Rattle.rules.proofs.Ends.{run_add}

abbrev ending : ℕ → ℕ → List Float → List Float → Ending
ending pushes visited estimate residual = record { pushes = pushes; visited = visited; estimate = estimate; residual = residual }

abbrev shown : State → Ending
shown s = ending s.pushes (visited_count s) s.estimate s.residual
";

const UNFOLDING: &str = "unfolding if◌then◌otherwise◌ tabulate how_many kept gives row_of rows_of sum_from degree into into_from \
transposed taken answer offered better best_from next adapted effective transition share_of way_of over degree_of each \
blank queued gain absorb threshold_after counted offer pass hand_out push stops goes_on due skips visit turn onward run \
inside watchable begun start enough solve still_due visited_count score_at extrapolated combined by_degrees method_among method \
answer_by add_squares of_bits of_int add sub mul div lt le odd";

/// A list as antt writes it.
fn listed(items: impl IntoIterator<Item = String>) -> String {
    items.into_iter().map(|item| item + " ∷ ").collect::<String>() + "[]"
}

/// A number by its bit pattern. No answer is a NaN, of which the prover's arithmetic has one alone.
fn bits(x: f64) -> String {
    assert!(!x.is_nan(), "a number");
    format!("f64 0x{:016x}", x.to_bits())
}

fn numbers(xs: &[f64]) -> String {
    listed(xs.iter().map(|&x| bits(x)))
}

fn nodes(vs: &[usize]) -> String {
    listed(vs.iter().map(usize::to_string))
}

/// Why a number is a square root: its significand and its exponent above that of 2^-1074, or nothing where it is none
/// of the numbers that are rounded.
fn root(x: f64) -> String {
    if x == 0.0 || !x.is_finite() {
        return "refl".to_string();
    }
    let (field, digits) = (x.to_bits() >> 52, x.to_bits() & ((1 << 52) - 1));
    assert!(field > 0, "no square root is subnormal");
    let near = "record { from = lit≤ tt; to = lit< tt; over = lit< tt; under = lit< tt }";
    format!("record {{ q = {}; k = {}; is = refl; near = {near} }}", digits + (1 << 52), field - 1)
}

/// A node, and now and then the first number that is none.
fn node(random: &mut Random, n: usize) -> usize {
    let past = random.below(8) / 7;
    random.below(n as u64 + past) as usize
}

/// The equations so far, and the number of the graph that they are about.
struct Written {
    text: String,
    graph: u64,
    count: usize,
    planted: bool,
}

impl Written {
    fn fact(&mut self, name: &str, statement: &str, proof: &str) {
        self.count += 1;
        let graph = self.graph;
        writeln!(self.text, "\n{name}-{graph} : {statement}\n{UNFOLDING}\n{name}-{graph} = {proof}").expect("a string");
    }

    fn equation(&mut self, name: &str, rules: &str, rust: &str) {
        self.fact(name, &format!("{rules} ≡ {rust}"), "refl");
    }

    /// The ending of one solve, its norm, and at which nodes a push is still due.
    fn solve(&mut self, name: &str, side: &Side, watch: &str, from: &[usize], r: &Run) {
        let (graph, direction, n) = (self.graph, side.direction, r.residual.len());
        let pushes = r.push_count + usize::from(std::mem::take(&mut self.planted));
        let way = format!("(over_links {direction} {n} links-{graph}) {direction}-{graph}");
        let rules = format!("shown (solve {way} {watch} {n} ({}))", nodes(from));
        let residual = numbers(&r.residual);
        let rust = format!("ending {pushes} {} ({}) ({residual})", r.nodes_visited, numbers(&r.estimate));
        self.equation(name, &rules, &rust);
        let statement = format!("Norm ({residual}) ({})", bits(r.residual_norm));
        self.fact(&format!("{name}-norm"), &statement, &root(r.residual_norm));
        let due = listed(left::nodes(&r.residual, side.degrees, side.settings).map(|left| left.is_due().to_string()));
        self.equation(&format!("{name}-due"), &format!("tabulate {n} (still_due {way} ({residual}))"), &due);
    }
}

/// A direction as the rules name it, with the settings and the degrees that its solves go by.
struct Side<'a> {
    direction: &'static str,
    settings: &'a Settings,
    degrees: &'a [f64],
}

/// A list of links among n nodes, with the settings of both directions.
struct Given {
    n: usize,
    links: Vec<(usize, usize, f64)>,
    forward: Settings,
    backward: Settings,
}

/// Settings; with a threshold that adapts after few pushes and at small sizes, or with the default adaptive numbers.
fn settings(random: &mut Random, adapting: bool) -> Settings {
    let unit = random.unit();
    let settings = Settings {
        alpha: random.one_of(&[0.0, 0.15, 0.5, unit, unit, 1.0]),
        epsilon: random.one_of(&[0.0, 1e-6, 0.01, 0.1, 0.25]),
        max_pushes: random.below(21),
        queue_threshold: random.one_of(&[0.0, 1e-8, 0.01, 0.1, 0.25]),
        adaptive_threshold: random.below(2) == 0,
        ..Settings::DEFAULT
    };
    if !adapting {
        return settings;
    }
    const FACTORS: [f64; 5] = [0.0, 0.5, 0.9, 1.1, 2.0];
    let lower_size = random.below(4) as u32;
    Settings {
        queue_threshold: random.one_of(&[0.0, 1e-8, 0.01, 0.1, 0.1, 0.25]),
        adaptive_threshold: true,
        adaptive_step: 1 + random.below(4),
        upper_size: lower_size + random.below(3) as u32,
        lower_size,
        raising_factor: random.one_of(&FACTORS),
        lowering_factor: random.one_of(&FACTORS),
        threshold_floor: random.one_of(&[0.0, 0.0, 0.01, 0.05, 0.5]),
        ..settings
    }
}

fn small(random: &mut Random, adapting: bool) -> Given {
    let n = 1 + random.below(5) as usize;
    let links = (0..random.below(3 * n as u64 + 1))
        .map(|_| {
            let unit = random.unit();
            let weights = [1.0, 1.0, 0.5, 2.0, 0.0, -0.0, 0.1, unit, unit, 3.0 * unit, 1e-310, 1_048_576.0];
            (node(random, n), node(random, n), random.one_of(&weights))
        })
        .collect();
    let (forward, backward) = (settings(random, adapting), settings(random, adapting));
    Given { n, links, forward, backward }
}

/// The settings as antt writes them.
fn record(c: &Settings) -> String {
    let fields = [
        ("alpha", bits(c.alpha)),
        ("epsilon", bits(c.epsilon)),
        ("queue_threshold", bits(c.queue_threshold)),
        ("max_pushes", c.max_pushes.to_string()),
        ("adaptive_threshold", c.adaptive_threshold.to_string()),
        ("adaptive_step", c.adaptive_step.to_string()),
        ("upper_size", c.upper_size.to_string()),
        ("lower_size", c.lower_size.to_string()),
        ("raising_factor", bits(c.raising_factor)),
        ("lowering_factor", bits(c.lowering_factor)),
        ("threshold_floor", bits(c.threshold_floor)),
    ];
    format!("record {{ {} }}", fields.map(|(name, value)| format!("{name} = {value}")).join("; "))
}

/// Names for the links and for the settings of both directions.
fn write_given(w: &mut Written, g: &Given) {
    let graph = w.graph;
    let links = listed(g.links.iter().map(|&(f, t, x)| format!("link {f} {t} ({})", bits(x))));
    writeln!(w.text, "\nabbrev links-{graph} : List Link\nlinks-{graph} = {links}").expect("a string");
    for (name, c) in [("push_forward", &g.forward), ("push_backward", &g.backward)] {
        writeln!(w.text, "\nabbrev {name}-{graph} : Settings\n{name}-{graph} = {}", record(c)).expect("a string");
    }
}

fn write(w: &mut Written, g: &Given, random: &mut Random) {
    write_given(w, g);
    let (n, graph) = (g.n, w.graph);
    let made = PushGraph::from_edges(n, &g.links);
    let forward = ForwardPushSolver::new(made.clone(), forward_config(&g.forward));
    let backward = BackwardPushSolver::new(made.clone(), backward_config(&g.backward));
    let both = BidirectionalPushSolver::new(made.clone(), forward_config(&g.forward), backward_config(&g.backward));
    let along = Side { direction: "push_forward", settings: &g.forward, degrees: &made.degrees };
    let against = Side { direction: "push_backward", settings: &g.backward, degrees: &made.reverse_degrees };
    let (source, target) = (node(random, n), node(random, n));
    let many: Vec<usize> = (0..random.below(4)).map(|_| node(random, n)).collect();
    let precision = random.one_of(&[0.0, 0.05, 0.2, 0.5]);

    let watch = |v: usize| format!("(watched {v} ({}))", bits(precision));
    let from_source = Run::from(forward.solve_single_source(source));
    let to_target = Run::from(backward.solve_single_target(target));
    w.solve("single-source", &along, "unwatched", &[source], &from_source);
    w.solve("many-sources", &along, "unwatched", &many, &forward.solve_multi_source(&many).into());
    let stopped = forward.solve_with_target(source, target, precision).into();
    w.solve("with-target", &along, &watch(target), &[source], &stopped);
    w.solve("single-target", &against, "unwatched", &[target], &to_target);
    w.solve("many-targets", &against, "unwatched", &many, &backward.solve_multi_target(&many).into());
    let stopped = backward.solve_with_source(source, target, precision).into();
    w.solve("with-source", &against, &watch(source), &[target], &stopped);

    let rules = |direction: &str, v: usize| {
        format!("(solve (over_links {direction} {n} links-{graph}) {direction}-{graph} unwatched {n} ({v} ∷ []))")
    };
    let (f, b) = (rules("push_forward", source), rules("push_backward", target));
    w.equation("entry", &format!("score_at {f} {target}"), &bits(forward.query_single_entry(source, target)));
    let vectors = format!("({}) ({})", numbers(&to_target.estimate), numbers(&to_target.residual));
    let extrapolated = numbers(&backward.reachability_probabilities(target));
    w.equation("extrapolated", &format!("extrapolated push_backward-{graph}.alpha {n} {vectors}"), &extrapolated);
    let other = format!("({}) ({})", numbers(&from_source.estimate), numbers(&from_source.residual));
    let combined = both.solve_bidirectional(source, target);
    w.equation("combined", &format!("combined push_backward-{graph}.alpha {vectors} {other} {n}"), &bits(combined));
    let method = format!("(method {n} (rows_of {n} links-{graph}) {source} {target})");
    let adaptive = format!("answer_by {method} push_backward-{graph}.alpha {n} {source} {target} {b} {f}");
    w.equation("adaptive", &adaptive, &bits(both.adaptive_solve(source, target)));
}

/// A node with a link to itself is pushed more than a thousand times, in both directions. At the thousandth the threshold
/// falls, so that pushes follow which else would not. It is too long to be computed at once, and so the rules' run is
/// cut in three; what waits at a cut is the node, at the priority of its residual.
fn write_long(w: &mut Written) {
    const CUTS: [usize; 3] = [500, 1_000, 1_004];
    let (node, links) = ("1 (0 ∷ [])", [(0, 0, 1.0)]);
    let threshold = 0.999f64.powi(1_000) * 0.9995;
    let settings = |max_pushes: usize| Settings {
        alpha: 0.001,
        epsilon: 0.0,
        max_pushes: max_pushes as u64,
        queue_threshold: threshold,
        adaptive_threshold: true,
        ..Settings::DEFAULT
    };
    let graph = w.graph;
    let (link, record) = (format!("link 0 0 ({}) ∷ []", bits(1.0)), record(&settings(CUTS[2])));
    writeln!(w.text, "\nabbrev links-{graph} : List Link\nlinks-{graph} = {link}").expect("a string");
    writeln!(w.text, "\nabbrev settings-{graph} : Settings\nsettings-{graph} = {record}").expect("a string");
    for direction in ["push_forward", "push_backward"] {
        let run = format!("run (over_links {direction} 1 links-{graph}) settings-{graph} unwatched");
        let mut from = format!("(start (over_links {direction} 1 links-{graph}) settings-{graph} unwatched {node})");
        let mut turns = [CUTS[0], CUTS[1] - CUTS[0], 2 * CUTS[2] + 1 - CUTS[1]].into_iter();
        for cut in CUTS {
            let made = PushGraph::from_edges(1, &links);
            let Run { push_count: pushes, estimate, residual, .. } = if direction == "push_forward" {
                ForwardPushSolver::new(made, forward_config(&settings(cut))).solve_single_source(0).into()
            } else {
                BackwardPushSolver::new(made, backward_config(&settings(cut))).solve_single_target(0).into()
            };
            let threshold = if cut < 1_000 { threshold } else { threshold * 0.9 };
            let state = format!(
                "record {{ estimate = {}; residual = {}; slots = waits ({}) ∷ []; threshold = {}; pushes = {pushes}; visited = true ∷ [] }}",
                numbers(&estimate),
                numbers(&residual),
                bits(residual[0]),
                bits(threshold)
            );
            let name = format!("{direction}-{cut}");
            writeln!(w.text, "\nabbrev state-{name} : State\nstate-{name} = {state}").expect("a string");
            let turns = turns.next().expect("as many as cuts");
            w.equation(&format!("part-{name}"), &format!("{run} {turns} {from}"), &format!("state-{name}"));
            from = format!("state-{name}");
        }
        let part = |cut: usize| format!("part-{direction}-{cut}-{graph}");
        let add = format!("run_add (over_links {direction} 1 links-{graph}) settings-{graph} unwatched {}", CUTS[0]);
        let rest = 2 * CUTS[2] + 1 - CUTS[0];
        let proof = format!(
            "{add} {rest} _ ∙ ap ({run} {rest}) {} ∙ {add} {} state-{direction}-{} ∙ ap ({run} {}) {} ∙ {}",
            part(CUTS[0]),
            rest - CUTS[0],
            CUTS[0],
            rest - CUTS[0],
            part(CUTS[1]),
            part(CUTS[2])
        );
        w.count += 1;
        writeln!(
            w.text,
            "\nlong-{direction} : solve (over_links {direction} 1 links-{graph}) settings-{graph} unwatched {node} ≡ {from}\n\
             unfolding solve enough\nlong-{direction} = {proof}"
        )
        .expect("a string");
    }
}

fn main() {
    let folder = env::args().nth(1).expect("rules FOLDER [planted]");
    let planted = env::args().nth(2).is_some();
    let mut written = Written { text: HEADER.to_string(), graph: 0, count: 0, planted };
    let mut random = Random::new(7);
    for graph in 0..if planted { 1 } else { GRAPHS } {
        written.graph = graph;
        // The thresholds of every second graph adapt.
        let given = small(&mut random, graph % 2 == 1);
        write(&mut written, &given, &mut random);
    }
    if !planted {
        let reached = adaptions::counts();
        let is_reached = |name: &&str| reached.iter().any(|(kind, count)| kind == name && *count > 0);
        assert!(ADAPTIONS.iter().all(is_reached), "thresholds adapt in each of these ways: {reached:?}");
        written.graph = GRAPHS;
        write_long(&mut written);
    }

    let folder = Path::new(&folder);
    for part in ["src", "specs"] {
        fs::create_dir_all(folder.join(part)).expect("a folder that can be made");
    }
    let file = |name: &str, text: &str| fs::write(folder.join(name), text).expect("a file that can be written");
    file("src/lib.rt", "// Equations alone.\n");
    file("specs/Lib.antt", "-- What the Rust answers.\npub mod Answers\n");
    file("specs/Answers.antt", &written.text);
    println!("{} facts on {} graphs", written.count, GRAPHS + 1);
}
