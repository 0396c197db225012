//! Both forms of a graph give the same answers, on graphs of more nodes than a word of marks has bits.
use talwighest::{Links, Settings};

/// So many nodes, and links from each to four others, by a sequence that needs no dependency.
fn drawn(nodes: u32) -> (Vec<u32>, Vec<u32>, Vec<f64>) {
    let mut state = 1u64;
    let mut next = |below: u64| {
        state = state.wrapping_mul(6_364_136_223_846_793_005).wrapping_add(1_442_695_040_888_963_407);
        (state >> 33) % below
    };
    let from: Vec<u32> = (0..4 * nodes).map(|link| link / 4).collect();
    let to = from.iter().map(|_| next(u64::from(nodes)) as u32).collect();
    let weight = from.iter().map(|_| next(1_000) as f64 / 100.0).collect();
    (from, to, weight)
}

#[test]
fn both_forms_agree() {
    for nodes in [1, 63, 64, 65, 500] {
        let (from, to, weight) = drawn(nodes);
        let links = Links { n: nodes, from: &from, to: &to, weight: &weight };
        let built = links.from_edges().unwrap();
        let rows = built.rows();
        let settings = Settings { epsilon: 1e-4, queue_threshold: 1e-5, max_pushes: 5_000, ..Settings::default() };
        let (source, target) = (0, nodes / 2);
        let (many, precision) = ([source, target, nodes], 1e-3);
        assert_eq!(links.edge_weight(source, to[0]), Ok(Some(weight[0])));
        for (from, to) in [(source, to[0]), (source, target), (target, source), (source, nodes), (nodes, source)] {
            assert_eq!(links.has_edge(from, to), rows.has_edge(from, to));
            assert_eq!(links.edge_weight(from, to), rows.edge_weight(from, to));
        }
        assert!(links.solve_single_source(source, settings).unwrap().push_count > 0);
        assert_eq!(links.solve_single_source(source, settings), rows.solve_single_source(source, settings));
        assert_eq!(links.solve_multi_source(&many, settings), rows.solve_multi_source(&many, settings));
        assert_eq!(
            links.solve_with_target(source, target, precision, settings),
            rows.solve_with_target(source, target, precision, settings)
        );
        assert_eq!(links.query_single_entry(source, target, settings), rows.query_single_entry(source, target, settings));
        assert_eq!(links.solve_single_target(target, settings), rows.solve_single_target(target, settings));
        assert_eq!(links.solve_multi_target(&many, settings), rows.solve_multi_target(&many, settings));
        assert_eq!(
            links.solve_with_source(source, target, precision, settings),
            rows.solve_with_source(source, target, precision, settings)
        );
        assert_eq!(
            links.query_transition_probability(source, target, settings),
            rows.query_transition_probability(source, target, settings)
        );
        assert_eq!(links.reachability_probabilities(target, settings), rows.reachability_probabilities(target, settings));
        assert_eq!(
            links.solve_bidirectional(source, target, settings, settings),
            rows.solve_bidirectional(source, target, settings, settings)
        );
        assert_eq!(
            links.adaptive_solve(source, target, settings, settings),
            rows.adaptive_solve(source, target, settings, settings)
        );
    }
}
