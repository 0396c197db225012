//! The calls of the forward, backward and bidirectional solvers against the Rust's, and against the refusals of
//! docs/RULES.md. Each call is compared whole: what it returns, and every word of every buffer. What the Rust's solves leave is also
//! held to the statement for the stop, and its two copies to each other.
mod adaptive;
mod boundaries;
mod expected;
mod numbers;
mod stop;
mod watched;

use crate::calls::made::{self, Made};
use crate::calls::smaller::smaller;
use crate::calls::sound::{MOST_LINKS, MOST_NODES, MOST_OF_MANY};
use crate::calls::{damaged, empty, limits, lists, sharing, wishes};
use crate::Asked;
pub use adaptive::Layout;
use expected::Expected;
use extended::adaptions;
use numbers::Numbers;
use runs::calls::call::{Call, Wish};
use runs::calls::entry::{Entry, Form, Question, Solver, Task};
use runs::calls::outcome::Outcome;
use runs::calls::refusal::{misread, refusal};
use runs::calls::{approach, given};
use runs::comparison::Comparison;
use runs::entries::Settings;
use runs::random::Random;

/// What is compared of one solver's calls.
struct Solves<'a> {
    asked: &'a Asked,
    solver: Solver,
}

pub fn compare(asked: &Asked, solver: Solver, comparison: &mut Comparison, random: &mut Random) {
    let solves = Solves { asked, solver };
    stop::forget();
    expected::forget();
    solves.small_graphs(comparison, random);
    solves.refusals(comparison, random);
    solves.random_graphs(comparison, random);
    solves.sharing(comparison, random);
    solves.adapting(comparison, random);
    solves.adaptive_numbers(comparison, random);
    if solver == Solver::Bidirectional {
        let inputs = boundaries::drawn(random, asked.size(5_000, 200_000));
        solves.kind(comparison, "degrees at twice each other, and next to it", inputs.into_iter());
    } else {
        solves.watched_and_many(comparison, random);
    }
    solves.largest(comparison, random);
    if solver == Solver::Bidirectional {
        comparison.reached("adaptive_solve, each approach", &approach::taken());
        let to_itself = [("of them", approach::from_a_node_to_itself())];
        comparison.reached("adaptive_solve, from a node to itself", &to_itself);
    } else {
        solves.reached(comparison, "the statement for the stop", &stop::counts());
    }
    solves.reached(comparison, "solved alike by the extended Rust and the repaired", &expected::alike());
}

/// Each call with a wrong digit in its answers on two nodes, each solve that is held to the statement for the stop with a push
/// left due there, and each question with a wrong digit in what one copy of the Rust answers.
pub fn planted(solver: Solver, comparison: &mut Comparison, random: &mut Random) {
    let grid = wishes::grid();
    for entry in solver.entries() {
        let inputs = on_small_graphs(random, solver, 2, 1, 1, &grid);
        let name = format!("{}, planted", entry.name());
        comparison.kind(&name, inputs, |call| of_graph_spoiling(call, Some(entry)), smaller);
    }
    for question in solver.questions().into_iter().filter(|question| stop::covers(question.task)) {
        let inputs = on_small_graphs(random, solver, 2, 1, 1, &grid);
        let name = format!("{}, a push left due, planted", question.name());
        comparison.kind(&name, inputs, |call| of_stop_spoiled(call, question), smaller);
    }
    for question in solver.questions() {
        let inputs = on_small_graphs(random, solver, 2, 1, 1, &grid);
        let name = format!("{}, copies of the Rust, planted", question.name());
        comparison.kind(&name, inputs, |call| of_copy_spoiled(call, question), smaller);
    }
}

/// Every list of up to so many nodes and exactly so many links, each with so many settings of the grid. A second record has others.
fn on_small_graphs<'a>(
    random: &'a mut Random,
    solver: Solver,
    nodes: u32,
    links: u32,
    each: usize,
    grid: &'a [Settings],
) -> impl Iterator<Item = Call> + 'a {
    assert_ne!(grid.len() % 7, 0, "steps of 7 come to each place of the grid");
    let mut places = (0..grid.len()).cycle().step_by(7);
    lists::every(nodes, links, lists::FEW_WEIGHTS).flat_map(move |graph| {
        let chosen: Vec<usize> = places.by_ref().take(each).collect();
        let call = graph.solving(solver.first_question());
        let wished = |place: usize| {
            let settings = numbers::pair(random, grid, place);
            call.clone().wishing(wishes::with_settings(random, &call, settings))
        };
        chosen.into_iter().map(wished).collect::<Vec<_>>()
    })
}

/// A solve of the graph, with a wish that is drawn.
fn solving(random: &mut Random, solver: Solver, graph: Call) -> Call {
    let call = graph.solving(solver.first_question());
    let wish = wishes::drawn(random, &call);
    call.wishing(wish)
}

impl Solves<'_> {
    /// The number of inputs, as `Asked` has it; in the gate, a third of it where the core has been through the forward
    /// solver's.
    fn size(&self, gate: u64, full: u64) -> u64 {
        self.asked.size(if self.solver == Solver::Forward { gate } else { gate.div_ceil(3) }, full)
    }

    /// Compares every call of the solver at each input.
    fn kind(&self, comparison: &mut Comparison, name: &str, inputs: impl Iterator<Item = Call>) {
        comparison.kind(&format!("{}, {name}", self.solver.name()), inputs, of_graph, smaller);
    }

    /// Demands that the inputs of the solver reached each of the named things.
    fn reached(&self, comparison: &mut Comparison, name: &str, counts: &[(&str, u64)]) {
        comparison.reached(&format!("{}, {name}", self.solver.name()), counts);
    }

    fn small_graphs(&self, comparison: &mut Comparison, random: &mut Random) {
        let classes = [
            (3, 0, self.size(600, 600)),
            (3, 1, self.size(600, 600)),
            (2, 2, self.size(120, 600)),
            (3, 2, self.size(6, 600)),
            (2, 3, self.asked.size(u64::from(self.solver == Solver::Forward && !self.asked.short), 60)),
            (3, 3, self.asked.size(0, 4)),
        ];
        let grid = wishes::grid();
        for (nodes, links, each) in classes.into_iter().filter(|class| class.2 > 0) {
            let name = format!("every list of up to {nodes} nodes and {links} links, {each} settings each");
            self.kind(comparison, &name, on_small_graphs(random, self.solver, nodes, links, each as usize, &grid));
        }
    }

    fn refusals(&self, comparison: &mut Comparison, random: &mut Random) {
        for entry in self.solver.entries() {
            damaged::compare_each(entry, comparison, of_call);
            empty::compare(entry, comparison, of_call);
            let mut kind = |name: &str, inputs: &mut dyn Iterator<Item = Call>| {
                comparison.kind(&format!("{}, {name}", entry.name()), inputs, of_call, smaller);
            };
            kind("limits of weight, in each place", &mut limits::weights(entry).into_iter());
            kind("limits of settings and precision, each two", &mut wishes::limits(entry).into_iter());
            kind("each length, and each two", &mut limits::lengths(entry).into_iter());
            kind("each two damages", &mut damaged::pairs(entry, self.asked.full));
            let all = damaged::damages(entry);
            let several = (0..self.size(2_000, 50_000)).map(|_| damaged::several(random, entry, &all));
            kind("several damages", &mut several.into_iter());
            if entry.takes_rows() {
                let nodes = self.asked.every_up_to(2, 3) as u32;
                let name = format!("every rows of up to {nodes} nodes and 3 links, sound or not");
                kind(&name, &mut limits::every_rows(entry, nodes, 3));
            }
        }
    }

    fn random_graphs(&self, comparison: &mut Comparison, random: &mut Random) {
        let classes = [
            (1, 8, self.size(3_000, 100_000)),
            (8, 40, self.size(20_000, 500_000)),
            (64, 400, self.size(3_000, 60_000)),
            (1_000, 10_000, self.size(100, 3_000)),
            (MOST_NODES, 100_000, self.size(5, 150)),
            (MOST_NODES, MOST_LINKS, self.size(1, 20)),
        ];
        for (nodes, links, count) in classes.into_iter().filter(|class| self.asked.draws(class.0)) {
            // One in three is of exactly the size.
            let inputs = (0..count).map(|number| {
                let graph = lists::random(random, nodes, links, number % 3 == 0);
                solving(random, self.solver, graph)
            });
            self.kind(comparison, &format!("random lists of up to {nodes} nodes and {links} links"), inputs);
        }
        for (nodes, links, count) in [(8, 40, self.size(5_000, 100_000)), (1_000, 10_000, self.size(30, 1_000))] {
            let inputs = (0..count).map(|number| {
                let graph = lists::rows(random, nodes, links, number % 3 == 0);
                solving(random, self.solver, graph)
            });
            self.kind(comparison, &format!("random rows of up to {nodes} nodes and {links} links"), inputs);
        }
        let sizes = [1, 2, 3, 10, 63, 64, 65, 100, 1_000, MOST_NODES - 1, MOST_NODES];
        for nodes in sizes.into_iter().filter(|&nodes| self.asked.draws(nodes)) {
            let turns = if nodes > 1_000 { self.size(1, 4) } else { self.size(5, 100) };
            let inputs = (0..turns).flat_map(|_| {
                // There are four of each plan: of the largest the gate takes one.
                let step = if nodes <= 1_000 || self.asked.full { 1 } else { 4 };
                let graphs = lists::planned(random, nodes).into_iter().step_by(step);
                graphs.map(|graph| solving(random, self.solver, graph)).collect::<Vec<_>>()
            });
            self.kind(comparison, &format!("planned lists of {nodes} nodes"), inputs);
        }
    }

    fn sharing(&self, comparison: &mut Comparison, random: &mut Random) {
        let inputs = (0..self.size(1_000, 20_000).max(200)).map(|number| {
            let form = if number % 2 == 0 { Form::Links } else { Form::Rows };
            sharing::drawn(random, form).solving(self.solver.first_question())
        });
        made::forget();
        let name = format!("{}, lists to be read that share memory", self.solver.name());
        comparison.kind(&name, inputs, of_shared, smaller);
        let shared = made::shared(self.solver != Solver::Bidirectional);
        self.reached(comparison, "lists that shared memory", &shared);
    }

    fn adapting(&self, comparison: &mut Comparison, random: &mut Random) {
        let layout = Layout(self.solver);
        let inputs = layout.thousands(random, self.size(500, 10_000));
        self.kind(comparison, "thousands of pushes, threshold falling", inputs.into_iter());
        let (inputs, shown) = layout.stars(random, self.size(8, 200));
        self.kind(comparison, "queues above 10,000 that stay", inputs.into_iter());
        self.reached(comparison, "a threshold that rises leaves pushes out", &[("queues", shown)]);
        let (inputs, shown) = layout.waves(random, self.size(12, 400));
        self.kind(comparison, "queues above 10,000 and then below 100", inputs.into_iter());
        self.reached(comparison, "a threshold that rises and falls changes the pushes", &[("queues", shown)]);
        // A queue of a certain size takes a solve from many nodes.
        if self.solver != Solver::Bidirectional {
            self.kind(comparison, "queues at the sizes where the threshold adapts", layout.edges().into_iter());
        }
    }

    /// Solves with other adaptive numbers than the default ones, which must reach all that can become of a threshold.
    fn adaptive_numbers(&self, comparison: &mut Comparison, random: &mut Random) {
        let numbers = Numbers(self.solver);
        let classes = [
            (8, 40, self.size(6_000, 60_000).max(100)),
            (64, 400, self.size(600, 8_000)),
            (1_000, 10_000, self.size(20, 250)),
        ];
        let drawn = classes.map(|(nodes, links, count)| numbers.drawn(random, nodes, links, count));
        let long = numbers.long(random, self.size(4, 40));
        // What is counted from here on is of the inputs alone.
        adaptions::forget();
        self.every_adaptive_number(comparison, random);
        let mut shown = 0;
        for ((nodes, links, _), (inputs, unlike)) in classes.into_iter().zip(drawn) {
            let name = format!("adaptive numbers that are drawn, lists of up to {nodes} nodes and {links} links");
            self.kind(comparison, &name, inputs.into_iter());
            shown += unlike;
        }
        self.reached(comparison, "adaptive numbers that change the residual", &[("solves", shown)]);
        self.kind(comparison, "adaptive numbers for queues of many thousands", long.into_iter());
        self.reached(comparison, "what became of thresholds", &adaptions::counts());
    }

    /// Those of a grid on every small graph, and those about the sizes of small queues.
    fn every_adaptive_number(&self, comparison: &mut Comparison, random: &mut Random) {
        let grid = numbers::grid();
        let classes = [(3, 0, self.size(600, 6_480)), (3, 1, self.size(300, 2_500)), (3, 2, self.size(6, 40))];
        for (nodes, links, each) in classes {
            let name = format!("every list of up to {nodes} nodes and {links} links, {each} adaptive numbers each");
            self.kind(comparison, &name, on_small_graphs(random, self.solver, nodes, links, each as usize, &grid));
        }
        let inputs = Numbers(self.solver).queues(random, self.size(1_200, 9_720).max(600));
        self.kind(comparison, "adaptive numbers about the queue's size at each step", inputs.into_iter());
    }

    fn watched_and_many(&self, comparison: &mut Comparison, random: &mut Random) {
        // Some must stop early, some late and some never: a short run has enough of them for that too.
        let (inputs, stops) = watched::stopping(random, self.solver, self.size(2_000, 40_000).max(100));
        self.kind(comparison, "watched nodes reached early, late and never", inputs.into_iter());
        self.reached(comparison, "watched nodes reached", &stops);
        let sizes = [1, 3, 1_000, MOST_NODES];
        let inputs = sizes.into_iter().filter(|&nodes| self.asked.draws(nodes)).flat_map(|nodes| {
            let turns = 0..self.size(2, 20);
            turns.flat_map(|_| self.with_many(random, nodes)).collect::<Vec<_>>()
        });
        self.kind(comparison, "as many sources or targets as are allowed", inputs);
    }

    /// As many sources or targets as are allowed, one fewer, and one more: any nodes, out of range too; each node in
    /// turn; one alone.
    fn with_many(&self, random: &mut Random, nodes: u32) -> Vec<Call> {
        let mut found = Vec::new();
        for count in [MOST_OF_MANY - 1, MOST_OF_MANY, MOST_OF_MANY + 1] {
            let any: Vec<u32> = (0..count).map(|_| random.below(u64::from(nodes) + 2) as u32).collect();
            let in_turn = (0..count as u32).map(|number| number % nodes).collect();
            for many in [any, in_turn, vec![nodes - 1; count]] {
                let graph = lists::random(random, nodes, 4 * nodes as usize, true);
                let mut call = solving(random, self.solver, graph);
                call.entry = Entry::Solve(Question { solver: self.solver, task: Task::Multi }, Form::Links);
                call.wish.many = many;
                call.wish.settings.max_pushes = call.wish.settings.max_pushes.min(3_000);
                found.push(call);
            }
        }
        found
    }

    /// These come last: what fails elsewhere too is found there at a smaller input.
    fn largest(&self, comparison: &mut Comparison, random: &mut Random) {
        let entries = self.solver.entries();
        for &entry in &entries {
            comparison.kind(&format!("{}, limits of size", entry.name()), limits::sizes(entry), of_call, smaller);
        }
        let name = format!("{}, edges done by hand", self.solver.name());
        comparison.kind(&name, limits::by_hand(&entries).into_iter(), of_edge, |_| Vec::new());
        let classes = [
            (1_000, 10_000, self.size(5, 60)),
            (MOST_NODES, 262_144, self.size(1, 8)),
            (MOST_NODES, MOST_LINKS, self.size(1, 4)),
        ];
        for (nodes, links, count) in classes.into_iter().filter(|class| self.asked.draws(class.0)) {
            let inputs = (0..count).map(|_| {
                let call = lists::random(random, nodes, links, true).solving(self.solver.first_question());
                let drawn = wishes::drawn(random, &call);
                call.wishing(Wish { settings: Settings::DEFAULT, backward_settings: Settings::DEFAULT, ..drawn })
            });
            let name = format!("the Rust's default settings, {nodes} nodes and {links} links");
            self.kind(comparison, &name, inputs);
        }
    }
}

/// Every solve of one graph, of its links and of the rows that the Rust makes of them, or of its rows alone.
fn of_graph(call: &Call) -> Option<String> {
    of_graph_spoiling(call, None)
}

/// The same; where an entry is to be spoiled, its answers on two nodes.
fn of_graph_spoiling(call: &Call, spoiled: Option<Entry>) -> Option<String> {
    if refusal(call) != 0 {
        return of_call(call);
    }
    let Entry::Solve(Question { solver, .. }, _) = call.entry else { unreachable!("a solve") };
    let graph = given::graph(call);
    let mut forms = vec![Call::on_matrix(Entry::FromMatrix, &graph.adjacency).wishing(call.wish.clone())];
    if !call.entry.takes_rows() {
        forms.push(call.clone());
    }
    let expected = Expected::new(solver, graph, &call.wish);
    // A call that asks for something else may have more sources or targets than are allowed.
    let asked = |question: &Question| question.task != Task::Multi || call.wish.many.len() <= MOST_OF_MANY;
    solver.questions().into_iter().filter(asked).find_map(|question| {
        let compared = |outcome: Outcome| {
            forms.iter_mut().find_map(|form| {
                form.ask(question);
                let mut made = Made::of(form);
                if spoiled == Some(form.entry) && form.nodes == 2 {
                    made.spoil();
                }
                made.difference(&outcome)
            })
        };
        expected.done(&call.wish, question).map_or_else(Some, compared)
    })
}

/// What the statement for the stop says of one solve of the graph, whose vectors on two nodes are spoiled.
fn of_stop_spoiled(call: &Call, question: Question) -> Option<String> {
    if refusal(call) != 0 || call.nodes != 2 {
        return None;
    }
    Expected::new(question.solver, given::graph(call), &call.wish).spoiled(&call.wish, question)
}

/// What the copies of the Rust are told to differ by, where one's answer to a question of a graph of two nodes is spoiled.
fn of_copy_spoiled(call: &Call, question: Question) -> Option<String> {
    if refusal(call) != 0 || call.nodes != 2 {
        return None;
    }
    Expected::new(question.solver, given::graph(call), &call.wish).copy_spoiled(&call.wish, question)
}

/// One call of any kind.
fn of_call(call: &Call) -> Option<String> {
    expected::outcome(call).map_or_else(Some, |outcome| Made::of(call).difference(&outcome))
}

/// Every solve of what the call is given, in lists by themselves and in lists that share memory.
fn of_shared(call: &Call) -> Option<String> {
    let Entry::Solve(Question { solver, .. }, _) = call.entry else { unreachable!("a solve") };
    solver.questions().into_iter().find_map(|question| {
        let call = call.clone().solving(question);
        let compared =
            |outcome: Outcome| Made::of(&call).difference(&outcome).or_else(|| Made::sharing(&call).difference(&outcome));
        expected::outcome(&call).map_or_else(Some, compared)
    })
}

/// A call whose number docs/RULES.md gives: what is expected of damaged calls is held to it too.
fn of_edge((call, number): &(Call, u32)) -> Option<String> {
    misread(call, *number).or_else(|| of_call(call))
}
