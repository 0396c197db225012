//! A graph, and the links that are asked for in it: those of every pair of nodes, or of some.
use crate::calls::smaller::smaller;
use runs::calls::call::{Call, Wish};
use runs::calls::refusal::refusal;
use runs::random::Random;

/// A call on links or on rows, and pairs of nodes, or of numbers that are none: where a link begins, and where it leads.
#[derive(Clone, Debug)]
pub struct Asking {
    pub graph: Call,
    pub pairs: Vec<(u32, u32)>,
}

impl Asking {
    /// Every pair of the nodes, of two numbers past them, and of the greatest.
    pub fn every_pair(graph: Call) -> Self {
        let ends = || (0..=graph.nodes + 1).chain([u32::MAX]);
        let pairs = ends().flat_map(|from| ends().map(move |to| (from, to))).collect();
        Self::sound(graph, pairs)
    }

    /// The ends of some links, some of the longest row, any nodes, and numbers that are none, also such as would be ends of a link
    /// if some of their bits were lost.
    pub fn some_pairs(random: &mut Random, graph: Call) -> Self {
        let links = kept(&graph);
        let mut pairs = Vec::new();
        if !links.is_empty() {
            pairs.extend((0..4).map(|_| random.one_of(&links)));
            pairs.extend(of_longest_row(&links, graph.nodes));
            let (from, to) = random.one_of(&links);
            pairs.extend([1 << 16, 1 << 31].into_iter().flat_map(|more| [(from + more, to), (from, to + more)]));
        }
        let mut any = || random.below(u64::from(graph.nodes.max(1))) as u32;
        pairs.extend((0..3).map(|_| (any(), any())));
        for none in [graph.nodes, u32::MAX] {
            pairs.extend([(none, any()), (any(), none), (none, none)]);
        }
        Self::sound(graph, pairs)
    }

    /// These pairs. What is smaller than a sound graph need not be sound, and is then passed over, so a graph must be.
    pub fn sound(graph: Call, pairs: Vec<(u32, u32)>) -> Self {
        assert_eq!(refusal(&graph), 0, "links are asked for in a sound graph");
        Self { graph, pairs }
    }

    /// Each pair by itself; then the one with a smaller graph, of which its nodes are the source and the target meanwhile.
    pub fn smaller(&self) -> Vec<Self> {
        if let [(source, target)] = self.pairs[..] {
            let wished = self.graph.clone().wishing(Wish { source, target, ..Wish::default() });
            let asking = |graph: Call| Self { pairs: vec![(graph.wish.source, graph.wish.target)], graph };
            return smaller(&wished).into_iter().map(asking).collect();
        }
        self.pairs.iter().map(|&pair| Self { graph: self.graph.clone(), pairs: vec![pair] }).collect()
    }
}

/// The ends of each kept link, row by row or in the order of the list.
fn kept(graph: &Call) -> Vec<(u32, u32)> {
    if graph.entry.takes_rows() {
        let row = |from: u32| {
            let [start, end] = [from, from + 1].map(|place| graph.first[place as usize] as usize);
            graph.second[start..end].iter().map(move |&to| (from, to))
        };
        return (0..graph.nodes).flat_map(row).collect();
    }
    let links = graph.first.iter().zip(&graph.second).map(|(&from, &to)| (from, to));
    links.filter(|&(from, to)| from < graph.nodes && to < graph.nodes).collect()
}

/// The first link of the longest row, its last one, and one to the lowest node that it does not lead to.
fn of_longest_row(links: &[(u32, u32)], nodes: u32) -> [(u32, u32); 3] {
    let mut lengths = vec![0; nodes as usize];
    links.iter().for_each(|link| lengths[link.0 as usize] += 1);
    let from = (0..nodes).max_by_key(|&node| lengths[node as usize]).expect("a node");
    let row: Vec<u32> = links.iter().filter(|link| link.0 == from).map(|link| link.1).collect();
    let mut reached = vec![false; nodes as usize];
    row.iter().for_each(|&to| reached[to as usize] = true);
    let absent = (0..nodes).find(|&node| !reached[node as usize]).unwrap_or(nodes);
    [row[0], row[row.len() - 1], absent].map(|to| (from, to))
}
