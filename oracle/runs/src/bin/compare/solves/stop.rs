//! The statement for the stop, R-2 of docs/RULES.md, held to the vectors that the Rust leaves, by the degrees of the Rust's own
//! graph. Counted are the solves that meet its premises, and for each premise those that fail it alone and leave a push due, which
//! shows that the statement needs it.
use repaired::graph::PushGraph;
use runs::calls::entry::{Question, Solver, Task};
use runs::calls::left::{nodes, Left};
use runs::calls::outcome::{Contents, Outcome, Returned};
use runs::entries::Settings;
use std::cell::Cell;

/// The statement for one graph: each node's out-degree if solves push forward, and its in-degree if they push backward.
pub struct Statement {
    degrees: Vec<f64>,
}

/// A solve at its end.
struct Ended<'a> {
    question: Question,
    settings: &'a Settings,
    push_count: u64,
    residual: &'a [f64],
    degrees: &'a [f64],
}

/// What a solve can be, and when it is.
type Kind = (&'static str, fn(&Ended) -> bool);

/// The premises, each under the name of what is counted where it alone is not met.
const PREMISES: [Kind; 4] = [
    ("due with epsilon zero", |ended| ended.settings.epsilon > 0.0),
    ("due with a threshold that adapts", |ended| !ended.settings.adaptive_threshold),
    ("due with every push made", |ended| ended.push_count < ended.settings.max_pushes),
    ("due with a watched node", |ended| covers(ended.question.task)),
];

/// What is counted where all of them are met. A residual that reaches one bar must stay below the other; a zero, which reaches a
/// threshold of zero, says nothing.
const MEETING: [Kind; 3] = [
    ("met the premises", |_| true),
    ("of these with a residual of at least epsilon × e", |ended| ended.nodes().any(|left| left.reaches_epsilon())),
    ("of these with a residual / e of at least the threshold", |ended| {
        ended.nodes().any(|left| left.residual > 0.0 && left.reaches_threshold())
    }),
];

const KINDS: usize = MEETING.len() + PREMISES.len();

thread_local! {
    /// How many solves were of each kind: those of `MEETING`, and then those of `PREMISES`.
    static COUNTED: Cell<[u64; KINDS]> = const { Cell::new([0; KINDS]) };
}

/// Begins to count anew.
pub fn forget() {
    COUNTED.take();
}

pub fn counts() -> Vec<(&'static str, u64)> {
    MEETING.iter().chain(&PREMISES).map(|kind| kind.0).zip(COUNTED.get()).collect()
}

/// Whether the statement is about solves that are asked this. Those that watch a node are excepted.
pub fn covers(task: Task) -> bool {
    matches!(task, Task::Single | Task::Multi)
}

impl Statement {
    pub fn new(solver: Solver, graph: &PushGraph) -> Self {
        let degrees = match solver {
            Solver::Forward => graph.degrees.clone(),
            Solver::Backward => graph.reverse_degrees.clone(),
            // A call that pushes both ways is no single solve and none from many.
            Solver::Bidirectional => Vec::new(),
        };
        Self { degrees }
    }

    /// Where a solve leaves a push due though it meets the premises. Each solve is counted.
    pub fn broken(&self, question: Question, settings: &Settings, outcome: &Outcome) -> Option<String> {
        let Outcome::Done { returned: Returned::Solved(solved), answer } = outcome else { return None };
        let (push_count, residual, degrees) = (solved.push_count, answer[1].reals(), &self.degrees[..]);
        assert_eq!(residual.len(), degrees.len(), "each node has a degree");
        let ended = Ended { question, settings, push_count, residual, degrees };
        let due = ended.nodes().enumerate().find(|(_, left)| left.is_due());
        ended.count(due.is_some());
        due.filter(|_| ended.unmet().next().is_none()).map(|(node, left)| ended.told(node, left))
    }

    /// Raises the first node's residual to the higher of its two bars, so that a push is due there.
    pub fn spoil(&self, settings: &Settings, outcome: &mut Outcome) {
        let Outcome::Done { answer, .. } = outcome else { return };
        if let (Contents::Real(residual), Some(&degree)) = (&mut answer[1], self.degrees.first()) {
            let left = Left { residual: residual[0], degree, settings };
            residual[0] = settings.epsilon.max(settings.queue_threshold) * left.e();
        }
    }
}

impl Ended<'_> {
    fn nodes(&self) -> impl Iterator<Item = Left<'_>> {
        nodes(self.residual, self.degrees, self.settings)
    }

    /// The places of the premises that it does not meet.
    fn unmet(&self) -> impl Iterator<Item = usize> + '_ {
        (0..PREMISES.len()).filter(|&place| !PREMISES[place].1(self))
    }

    fn count(&self, due: bool) {
        let mut counted = COUNTED.get();
        let mut unmet = self.unmet();
        match (unmet.next(), unmet.next()) {
            (None, _) => {
                for (count, (_, is_one)) in counted.iter_mut().zip(MEETING) {
                    *count += u64::from(is_one(self));
                }
            }
            (Some(only), None) => counted[MEETING.len() + only] += u64::from(due),
            _ => {}
        }
        COUNTED.set(counted);
    }

    fn told(&self, node: usize, left: Left) -> String {
        let Left { residual, degree, settings } = left;
        let (name, e) = (self.question.name(), left.e());
        let (epsilon, threshold, most) = (settings.epsilon, settings.queue_threshold, settings.max_pushes);
        format!(
            "the Rust's {name} ends after {} of {most} pushes, but a push is due at node {node} of degree {degree:?}: \
             its residual {residual:?} is not below epsilon × e = {:?}, nor residual / e = {:?} below the threshold {threshold:?}",
            self.push_count,
            epsilon * e,
            residual / e
        )
    }
}
