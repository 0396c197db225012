//! A random graph as both sides take it, and the work of every entry on it.
use crate::ours::Ours;
use crate::table;
use crate::theirs::{Done, Theirs};
use crate::work::Work;
use repaired::graph::{CompressedSparseRow, PushGraph};
use runs::calls::approach::Approach;
use runs::calls::call::{Call, Wish};
use runs::calls::entry::{Entry, Form, Question, Solver, Task};
use runs::calls::repaired::{Run, Theirs as OneWay};
use runs::entries::Settings;
use runs::random::Random;
use std::hint::black_box;

/// How many sources or targets a solve from many has, where there are so many nodes.
const MANY: usize = 16;

pub struct Given {
    pub nodes: usize,
    pub edges: Vec<(usize, usize, f64)>,
    pub graph: PushGraph,
    pub wish: Wish,
}

/// Random links among the nodes.
pub fn drawn(random: &mut Random, nodes: u64, links: usize) -> Vec<(usize, usize, f64)> {
    (0..links).map(|_| (random.below(nodes) as usize, random.below(nodes) as usize, random.unit())).collect()
}

/// A call of the proved library on links.
pub fn on_links(nodes: usize, edges: &[(usize, usize, f64)]) -> Call {
    let narrow: Vec<_> = edges.iter().map(|&(from, to, weight)| (from as u32, to as u32, weight)).collect();
    Call::on_links(nodes as u32, &narrow)
}

impl Given {
    /// The graph of a size is the same in every run. Solves of it begin at the first node that links to another, which is
    /// node 0 in all but the sparsest, and at a target of so low a degree that an adaptive solve pushes backward alone,
    /// which the densest don't have.
    pub fn new(nodes: usize, links: usize) -> Self {
        let edges = drawn(&mut Random::new(1), nodes as u64, links);
        let graph = PushGraph::from_edges(nodes, &edges);
        let first = |degrees: &[f64], right: &dyn Fn(f64) -> bool| degrees.iter().position(|&degree| right(degree));
        let linked = |degree: f64| degree > 0.0;
        let source = first(&graph.degrees, &linked).expect("a link");
        let low = |degree: f64| linked(degree) && 2.0 * degree < graph.degrees[source];
        let arriving = &graph.reverse_degrees;
        let target = first(arriving, &low).or(first(arriving, &linked)).expect("a link");
        let wish = Wish {
            source: source as u32,
            target: target as u32,
            many: (0..nodes).step_by(nodes.div_ceil(MANY)).map(|node| node as u32).collect(),
            precision: 0.0,
            settings: Settings::DEFAULT,
            backward_settings: Settings::DEFAULT,
        };
        Self { nodes, edges, graph, wish }
    }

    fn matrix(&self) -> &CompressedSparseRow {
        &self.graph.adjacency
    }

    pub fn size(&self) -> String {
        table::size(self.nodes, self.edges.len())
    }

    /// The entry's work on this graph.
    pub fn work(&self, entry: Entry) -> Work<'_> {
        let wish = self.wish_of(entry);
        let mut ours = self.ours(entry, &wish);
        Work {
            labels: vec![table::name(&entry.name()), self.size()],
            units: 1,
            lent: ours.lent(),
            ours: Box::new(move || ours.make()),
            theirs: Box::new(move || self.theirs(entry, &wish)),
        }
    }

    /// The same, its time for each link, or for each push of a solve.
    pub fn divided(&self, entry: Entry) -> Work<'_> {
        let work = self.work(entry);
        let Entry::Solve(question, _) = entry else { return Work { units: self.edges.len(), ..work } };
        let pushes = self.pushes(question, &self.wish_of(entry));
        Work { labels: [work.labels, vec![table::grouped(pushes)]].concat(), units: pushes, ..work }
    }

    /// A call of the proved library.
    pub fn ours(&self, entry: Entry, wish: &Wish) -> Ours {
        let call = if entry.takes_rows() {
            Call::on_matrix(entry, self.matrix())
        } else {
            Call { entry, ..on_links(self.nodes, &self.edges) }.with_stated_lengths()
        };
        Ours::new(call.wishing(wish.clone()))
    }

    /// The Rust's side, from links or rows to the answer.
    fn theirs(&self, entry: Entry, wish: &Wish) -> Done {
        match entry {
            Entry::FromEdges => Done::listed(self.from_links()),
            Entry::FromMatrix => Done::listed(self.from_rows()),
            Entry::Transpose => Done::listed(black_box(self.matrix()).transpose()),
            Entry::RowSums => Done::listed(black_box(self.matrix()).row_sums()),
            Entry::HasEdge | Entry::EdgeWeight => unreachable!("`edges` has the work of a search"),
            Entry::Solve(question, form) => {
                let graph = if form == Form::Links { self.from_links() } else { self.from_rows() };
                Theirs::new(question.solver, graph, wish).solve(wish, question.task)
            }
        }
    }

    pub fn from_links(&self) -> PushGraph {
        PushGraph::from_edges(self.nodes, black_box(&self.edges))
    }

    fn from_rows(&self) -> PushGraph {
        PushGraph::from_matrix(black_box(self.matrix()))
    }

    /// What an entry is asked. A watched node is one that is linked with the one at which the solve begins, and is precise
    /// enough close to its score.
    fn wish_of(&self, entry: Entry) -> Wish {
        let mut wish = self.wish.clone();
        if let Entry::Solve(Question { solver, task: Task::Watched }, _) = entry {
            let (source, target) = (wish.source as usize, wish.target as usize);
            let linked = |&&(from, to, _): &&(usize, usize, f64)| match solver {
                Solver::Forward => from == source && to != source,
                _ => to == target && from != target,
            };
            let &(from, to, _) = self.edges.iter().find(linked).expect("a linked node");
            (wish.source, wish.target) = (from as u32, to as u32);
            let scores = self.one_way(solver, Task::Single, &wish).estimate;
            wish.precision = scores[if solver == Solver::Forward { to } else { from }] * 0.99;
        }
        wish
    }

    /// How many pushes both sides make, of one way or of both.
    fn pushes(&self, question: Question, wish: &Wish) -> usize {
        let forward = || self.one_way(Solver::Forward, Task::Single, wish).push_count;
        let second = Wish { settings: wish.backward_settings, ..wish.clone() };
        let backward = || self.one_way(Solver::Backward, Task::Single, &second).push_count;
        match (question.task, Approach::of(&self.graph, wish.source, wish.target)) {
            (Task::Together, _) | (Task::Adaptive, Approach::Together) => forward() + backward(),
            (Task::Adaptive, Approach::Forward) => forward(),
            (Task::Adaptive, _) => backward(),
            (task, _) => self.one_way(question.solver, task, wish).push_count,
        }
    }

    fn one_way(&self, solver: Solver, task: Task, wish: &Wish) -> Run {
        OneWay::new(solver, self.graph.clone(), wish).solved(wish, task)
    }
}
