//! What a call of the graph store is to come to, one that builds rows or one that searches them: a refusal, or what the repaired
//! Rust gives.
use repaired::graph::{CompressedSparseRow, PushGraph};
use runs::calls::call::Call;
use runs::calls::entry::Entry;
use runs::calls::given::{graph_of_links, matrix, neighbours};
use runs::calls::outcome::{Contents, Outcome, Returned};
use runs::calls::refusal::refusal;
use runs::calls::searched::searched;
use runs::entries::Built;

/// The outcome of a call of any kind.
pub fn outcome(call: &Call) -> Outcome {
    match (refusal(call), call.entry) {
        (0, Entry::FromEdges) => built(&graph_of_links(call).adjacency, call.links()),
        (0, Entry::FromMatrix) => graph(&PushGraph::from_matrix(&matrix(call))),
        (0, Entry::Transpose) => transposed(&matrix(call).transpose()),
        (0, Entry::RowSums) => sums(matrix(call).row_sums()),
        (0, Entry::HasEdge | Entry::EdgeWeight) => {
            let returned = searched(&neighbours(call), call.entry, call.wish.source, call.wish.target);
            Outcome::Done { returned, answer: Vec::new() }
        }
        (0, Entry::Solve(..)) => unreachable!("a call of the graph store"),
        (number, _) => Outcome::Refused(number),
    }
}

/// `from_edges`, of so many listed links: the Rust's rows, with zeros past the kept count.
pub fn built(rows: &CompressedSparseRow, listed: usize) -> Outcome {
    let mut columns = narrow(&rows.col_indices);
    let mut weights = rows.values.clone();
    columns.resize(listed, 0);
    weights.resize(listed, 0.0);
    let built = Built { refusal: 0, kept: rows.nnz() as u32 };
    let answer = vec![whole(&rows.row_ptr), Contents::Whole(columns), Contents::Real(weights)];
    Outcome::Done { returned: Returned::Built(built), answer }
}

/// `from_matrix`: the Rust's reverse rows and both degrees.
pub fn graph(graph: &PushGraph) -> Outcome {
    let reverse = &graph.reverse_adjacency;
    done(vec![
        whole(&reverse.row_ptr),
        whole(&reverse.col_indices),
        Contents::Real(reverse.values.clone()),
        Contents::Real(graph.degrees.clone()),
        Contents::Real(graph.reverse_degrees.clone()),
    ])
}

/// `transpose`: the Rust's transposed rows.
pub fn transposed(reverse: &CompressedSparseRow) -> Outcome {
    let weights = Contents::Real(reverse.values.clone());
    done(vec![whole(&reverse.row_ptr), whole(&reverse.col_indices), weights])
}

/// `row_sums`: the Rust's.
pub fn sums(degrees: Vec<f64>) -> Outcome {
    done(vec![Contents::Real(degrees)])
}

/// What the three entries that build rows of rows come to where they are done.
fn done(answer: Vec<Contents>) -> Outcome {
    Outcome::Done { returned: Returned::Number(0), answer }
}

fn whole(wide: &[usize]) -> Contents {
    Contents::Whole(narrow(wide))
}

fn narrow(wide: &[usize]) -> Vec<u32> {
    wide.iter().map(|&word| word as u32).collect()
}
