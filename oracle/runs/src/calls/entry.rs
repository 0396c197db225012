//! The entries that take a graph: which there are, what they are asked, and what each is called.
use super::shape::{self, Shape};

#[derive(Clone, Copy, PartialEq, Eq)]
pub enum Entry {
    FromEdges,
    FromMatrix,
    Transpose,
    RowSums,
    HasEdge,
    EdgeWeight,
    Solve(Question, Form),
}

/// Which way a solve pushes. One that pushes both ways has two settings records and two pairs of vectors.
#[derive(Clone, Copy, PartialEq, Eq, Debug)]
pub enum Solver {
    Forward,
    Backward,
    Bidirectional,
}

/// What a solver is asked.
#[derive(Clone, Copy, PartialEq, Eq)]
pub struct Question {
    pub solver: Solver,
    pub task: Task,
}

/// A solve from one node or from many, with a watched node, one score, or every score extrapolated; of both ways, the
/// two put together, or what the degrees decide.
#[derive(Clone, Copy, PartialEq, Eq)]
pub enum Task {
    Single,
    Multi,
    Watched,
    Query,
    Reachability,
    Together,
    Adaptive,
}

/// What a solve is given: a list of links, or rows.
#[derive(Clone, Copy, PartialEq, Eq)]
pub enum Form {
    Links,
    Rows,
}

pub const BUILDERS: [Entry; 4] = [Entry::FromEdges, Entry::FromMatrix, Entry::Transpose, Entry::RowSums];

/// Those that search rows for a link, and write nothing.
pub const SEARCHES: [Entry; 2] = [Entry::HasEdge, Entry::EdgeWeight];

/// All entries of the graph store.
pub fn store() -> impl Iterator<Item = Entry> {
    BUILDERS.into_iter().chain(SEARCHES)
}

impl Solver {
    pub fn name(self) -> &'static str {
        match self {
            Solver::Forward => "forward",
            Solver::Backward => "backward",
            Solver::Bidirectional => "bidirectional",
        }
    }

    pub fn questions(self) -> Vec<Question> {
        use Task::{Adaptive, Multi, Query, Reachability, Single, Together, Watched};
        let tasks: &[Task] = match self {
            Solver::Forward => &[Single, Multi, Watched, Query],
            Solver::Backward => &[Single, Multi, Watched, Query, Reachability],
            Solver::Bidirectional => &[Together, Adaptive],
        };
        tasks.iter().map(|&task| Question { solver: self, task }).collect()
    }

    /// The first of its questions: a call that is made into each of them begins as this.
    pub fn first_question(self) -> Question {
        self.questions()[0]
    }

    pub fn entries(self) -> Vec<Entry> {
        let of = |form: Form| self.questions().into_iter().map(move |question| Entry::Solve(question, form));
        of(Form::Links).chain(of(Form::Rows)).collect()
    }
}

impl Question {
    pub fn name(self) -> &'static str {
        match (self.task, self.solver) {
            (Task::Single, Solver::Forward) => "solve_single_source",
            (Task::Multi, Solver::Forward) => "solve_multi_source",
            (Task::Watched, Solver::Forward) => "solve_with_target",
            (Task::Query, Solver::Forward) => "query_single_entry",
            (Task::Single, _) => "solve_single_target",
            (Task::Multi, _) => "solve_multi_target",
            (Task::Watched, _) => "solve_with_source",
            (Task::Query, _) => "query_transition_probability",
            (Task::Reachability, _) => "reachability_probabilities",
            (Task::Together, _) => "solve_bidirectional",
            (Task::Adaptive, _) => "adaptive_solve",
        }
    }
}

impl Entry {
    pub fn name(self) -> String {
        match self {
            Entry::FromEdges => "from_edges".to_string(),
            Entry::FromMatrix => "from_matrix".to_string(),
            Entry::Transpose => "transpose".to_string(),
            Entry::RowSums => "row_sums".to_string(),
            Entry::HasEdge => "has_edge".to_string(),
            Entry::EdgeWeight => "edge_weight".to_string(),
            Entry::Solve(question, Form::Links) => format!("{}_links", question.name()),
            Entry::Solve(question, Form::Rows) => format!("{}_rows", question.name()),
        }
    }

    pub fn takes_rows(self) -> bool {
        !matches!(self, Entry::FromEdges | Entry::Solve(_, Form::Links))
    }

    /// Whether it asks for a link between two nodes.
    pub fn searches(self) -> bool {
        SEARCHES.contains(&self)
    }

    /// What it is asked, where it is a solve.
    pub fn task(self) -> Option<Task> {
        match self {
            Entry::Solve(question, _) => Some(question.task),
            _ => None,
        }
    }

    /// Whether it has a second settings record.
    pub fn pushes_both_ways(self) -> bool {
        matches!(self, Entry::Solve(Question { solver: Solver::Bidirectional, .. }, _))
    }

    /// Whether it pushes forward alone.
    pub fn pushes_forward(self) -> bool {
        matches!(self, Entry::Solve(Question { solver: Solver::Forward, .. }, _))
    }

    /// The three buffers of its graph, which it reads.
    pub fn given(self) -> &'static [Shape; 3] {
        if self.takes_rows() {
            &shape::ROWS
        } else {
            &shape::LIST
        }
    }

    /// The buffers that it writes, in the order of its parameters: those of its answer, and then workspace.
    pub fn written(self) -> Vec<Shape> {
        match self {
            Entry::FromEdges => [&shape::ROWS[..], &shape::POSITIONS].concat(),
            Entry::FromMatrix => {
                [&shape::REVERSE_ROWS[..], &shape::DEGREES, &shape::REVERSE_DEGREES, &shape::POSITIONS].concat()
            }
            Entry::Transpose => [&shape::REVERSE_ROWS[..], &shape::POSITIONS].concat(),
            Entry::RowSums => shape::DEGREES.to_vec(),
            Entry::HasEdge | Entry::EdgeWeight => Vec::new(),
            Entry::Solve(question, form) => solve_written(question, form),
        }
    }
}

fn solve_written(question: Question, form: Form) -> Vec<Shape> {
    let answer = match question {
        Question { task: Task::Reachability, .. } => [&shape::PAIR[..], &shape::SOLUTION].concat(),
        Question { solver: Solver::Bidirectional, .. } => shape::PAIRS.to_vec(),
        _ => shape::PAIR.to_vec(),
    };
    let rows = if form == Form::Links { &shape::ROWS[..] } else { &[] };
    let degrees = match question.solver {
        Solver::Forward => shape::DEGREES.to_vec(),
        _ => [&shape::REVERSE_ROWS[..], &shape::BOTH_DEGREES].concat(),
    };
    [&answer, rows, &degrees, &shape::QUEUE].concat()
}
