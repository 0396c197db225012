//! The graph of a call, as the Rust takes it.
use super::call::Call;
use repaired::graph::{AdjacencyList, CompressedSparseRow, PushGraph};

/// The Rust's graph of a call on links or on rows.
pub fn graph(call: &Call) -> PushGraph {
    if call.entry.takes_rows() {
        PushGraph::from_matrix(&matrix(call))
    } else {
        graph_of_links(call)
    }
}

pub fn graph_of_links(call: &Call) -> PushGraph {
    PushGraph::from_edges(call.nodes as usize, &edges(call).collect::<Vec<_>>())
}

/// The Rust's lists of neighbours of a call on links, each of which is added in turn, or on rows.
pub fn neighbours(call: &Call) -> AdjacencyList {
    if call.entry.takes_rows() {
        return AdjacencyList::from_csr(&matrix(call));
    }
    let mut lists = AdjacencyList::new(call.nodes as usize);
    edges(call).for_each(|(from, to, weight)| lists.add_edge(from, to, weight));
    lists
}

/// The links of a call on links.
fn edges(call: &Call) -> impl Iterator<Item = (usize, usize, f64)> + '_ {
    let ends = call.first.iter().zip(&call.second);
    ends.zip(&call.weights).map(|((&from, &to), &weight)| (from as usize, to as usize, weight))
}

/// The rows of a call on rows.
pub fn matrix(call: &Call) -> CompressedSparseRow {
    let nodes = call.nodes as usize;
    let wide = |narrow: &[u32]| narrow.iter().map(|&word| word as usize).collect();
    let (row_ptr, col_indices) = (wide(&call.first), wide(&call.second));
    CompressedSparseRow { nrows: nodes, ncols: nodes, row_ptr, col_indices, values: call.weights.clone() }
}
