//! One call of an entry that takes a graph: what it is given, and how long the buffers are that it is lent.
use super::entry::{Entry, Form, Question};
use crate::entries::Settings;
use repaired::graph::CompressedSparseRow;
use std::fmt::{Debug, Formatter, Result};

/// A call, sound or damaged.
#[derive(Clone)]
pub struct Call {
    pub entry: Entry,
    pub nodes: u32,
    /// The from list, or the row starts.
    pub first: Vec<u32>,
    /// The to list, or the columns.
    pub second: Vec<u32>,
    pub weights: Vec<f64>,
    pub wish: Wish,
    /// The length of each buffer lent to be written.
    pub lengths: Vec<usize>,
}

/// What a solve is given beside its graph. An entry makes use of what it takes; one that builds rows, of nothing, and one that
/// searches them, of the source and the target, between which it asks for a link.
#[derive(Clone)]
pub struct Wish {
    pub source: u32,
    pub target: u32,
    /// The sources of a solve from many, or the targets.
    pub many: Vec<u32>,
    /// That of the watched node.
    pub precision: f64,
    pub settings: Settings,
    /// The second settings record, of a call that pushes both ways.
    pub backward_settings: Settings,
}

pub const PLAIN_SETTINGS: Settings = Settings {
    alpha: 0.5,
    epsilon: 0.125,
    queue_threshold: 0.125,
    max_pushes: 10,
    adaptive_threshold: false,
    ..Settings::DEFAULT
};

/// The settings of the chain in docs/RULES.md.
pub const CHAIN_SETTINGS: Settings = Settings { epsilon: 0.25, queue_threshold: 0.25, ..PLAIN_SETTINGS };

/// The adaptive numbers of a settings record, to be compared: the step, both sizes, and the bits of both factors and of the floor.
pub fn adaptive_numbers(settings: &Settings) -> (u64, [u32; 2], [u64; 3]) {
    let amounts = [settings.raising_factor, settings.lowering_factor, settings.threshold_floor];
    (settings.adaptive_step, [settings.upper_size, settings.lower_size], amounts.map(f64::to_bits))
}

impl Default for Wish {
    fn default() -> Self {
        Self {
            source: 0,
            target: 2,
            many: vec![2, 0],
            precision: 0.25,
            settings: PLAIN_SETTINGS,
            backward_settings: PLAIN_SETTINGS,
        }
    }
}

impl Call {
    /// `from_edges` of these links, with every buffer as long as stated.
    pub fn on_links(nodes: u32, links: &[(u32, u32, f64)]) -> Self {
        let first = links.iter().map(|link| link.0).collect();
        let second = links.iter().map(|link| link.1).collect();
        let weights = links.iter().map(|link| link.2).collect();
        Self::of(Entry::FromEdges, nodes, first, second, weights)
    }

    /// An entry that takes rows, on these, with every buffer as long as stated.
    pub fn on_rows(entry: Entry, nodes: u32, starts: Vec<u32>, columns: Vec<u32>, weights: Vec<f64>) -> Self {
        Self::of(entry, nodes, starts, columns, weights)
    }

    pub fn on_matrix(entry: Entry, matrix: &CompressedSparseRow) -> Self {
        let narrow = |wide: &[usize]| wide.iter().map(|&word| word as u32).collect();
        let (starts, columns) = (narrow(&matrix.row_ptr), narrow(&matrix.col_indices));
        Self::on_rows(entry, matrix.nrows as u32, starts, columns, matrix.values.clone())
    }

    fn of(entry: Entry, nodes: u32, first: Vec<u32>, second: Vec<u32>, weights: Vec<f64>) -> Self {
        let wish = Wish::default();
        Self { entry, nodes, first, second, weights, wish, lengths: Vec::new() }.with_stated_lengths()
    }

    /// A solve of the same graph.
    pub fn solving(mut self, question: Question) -> Self {
        self.ask(question);
        self
    }

    /// Makes it a solve of its graph.
    pub fn ask(&mut self, question: Question) {
        let form = if self.entry.takes_rows() { Form::Rows } else { Form::Links };
        self.entry = Entry::Solve(question, form);
        self.lengths = self.stated();
    }

    pub fn wishing(mut self, wish: Wish) -> Self {
        self.wish = wish;
        self
    }

    pub fn with_stated_lengths(mut self) -> Self {
        self.lengths = self.stated();
        self
    }

    /// The number m of listed links: the length of the from list, or of the column list.
    pub fn links(&self) -> usize {
        if self.entry.takes_rows() {
            self.second.len()
        } else {
            self.first.len()
        }
    }

    /// The lengths that the buffers to be written should have.
    pub fn stated(&self) -> Vec<usize> {
        self.entry.written().iter().map(|shape| shape.size.of(self.nodes, self.links())).collect()
    }
}

impl Debug for Call {
    fn fmt(&self, out: &mut Formatter<'_>) -> Result {
        write!(out, "{}: n = {}", self.entry.name(), self.nodes)?;
        let [first, second, weights] = self.entry.given();
        write!(out, ", {} = {}", first.name, abridged(&self.first))?;
        write!(out, ", {} = {}", second.name, abridged(&self.second))?;
        write!(out, ", {} = {}", weights.name, abridged(&self.weights))?;
        if self.entry.task().is_some() {
            write!(out, ", {:?}", self.wish)?;
        }
        if self.entry.searches() {
            write!(out, ", from node {} to node {}", self.wish.source, self.wish.target)?;
        }
        for ((shape, &length), stated) in self.entry.written().iter().zip(&self.lengths).zip(self.stated()) {
            if length != stated {
                write!(out, ", {} {length} long", shape.name)?;
            }
        }
        Ok(())
    }
}

impl Debug for Wish {
    fn fmt(&self, out: &mut Formatter<'_>) -> Result {
        let Self { source, target, many, precision, settings, backward_settings } = self;
        let many = abridged(many);
        write!(out, "source {source}, target {target}, of many {many}, precision {precision:?}, {settings:?}")?;
        write!(out, ", of both ways also {backward_settings:?}")
    }
}

/// A list, of which only the beginning is printed where it is long.
pub fn abridged<T: Debug>(list: &[T]) -> String {
    const PRINTED: usize = 24;
    match list.len() {
        0..=PRINTED => format!("{list:?}"),
        length => format!("{:?} and {} more", &list[..PRINTED], length - PRINTED),
    }
}
