//! Each refusal, from each kind of call that can give it, and the first of two that apply.
use talwighest::{combine_with_forward, extrapolated_solution, Links, Refusal, Rows, Settings};

const LINKS: Links = Links { n: 2, from: &[0], to: &[1], weight: &[1.0] };
const ROWS: Rows = Rows { n: 2, starts: &[0, 1, 1], columns: &[1], weights: &[1.0] };

/// Holds every call of both forms of the graph store and the solvers to a refusal, where it is given what they share.
fn all_refuse(links: Links, rows: Rows, settings: Settings, refusal: Refusal) {
    if refusal != Refusal::UnsoundSettings {
        assert_eq!(links.from_edges().err(), Some(refusal));
        assert_eq!(rows.from_matrix().err(), Some(refusal));
        assert_eq!(rows.transpose().err(), Some(refusal));
        assert_eq!(rows.row_sums().err(), Some(refusal));
        assert_eq!((links.has_edge(0, 1), rows.has_edge(0, 1)), (Err(refusal), Err(refusal)));
        assert_eq!((links.edge_weight(0, 1), rows.edge_weight(0, 1)), (Err(refusal), Err(refusal)));
    }
    macro_rules! of {
        ($graph:ident) => {
            assert_eq!($graph.solve_single_source(0, settings).err(), Some(refusal));
            assert_eq!($graph.solve_multi_source(&[0], settings).err(), Some(refusal));
            assert_eq!($graph.solve_with_target(0, 1, 0.5, settings).err(), Some(refusal));
            assert_eq!($graph.query_single_entry(0, 1, settings).err(), Some(refusal));
            assert_eq!($graph.solve_single_target(1, settings).err(), Some(refusal));
            assert_eq!($graph.solve_multi_target(&[1], settings).err(), Some(refusal));
            assert_eq!($graph.solve_with_source(0, 1, 0.5, settings).err(), Some(refusal));
            assert_eq!($graph.query_transition_probability(0, 1, settings).err(), Some(refusal));
            assert_eq!($graph.reachability_probabilities(1, settings).err(), Some(refusal));
            assert_eq!($graph.solve_bidirectional(0, 1, settings, Settings::default()).err(), Some(refusal));
            assert_eq!($graph.solve_bidirectional(0, 1, Settings::default(), settings).err(), Some(refusal));
            assert_eq!($graph.adaptive_solve(0, 1, settings, Settings::default()).err(), Some(refusal));
            assert_eq!($graph.adaptive_solve(0, 1, Settings::default(), settings).err(), Some(refusal));
        };
    }
    of!(links);
    of!(rows);
}

#[test]
fn one_more_than_65_536_nodes() {
    for n in [65_537, u32::MAX] {
        all_refuse(Links { n, ..LINKS }, Rows { n, ..ROWS }, Settings::default(), Refusal::TooManyNodes);
    }
    let long = vec![0.0; 65_537];
    assert_eq!(extrapolated_solution(&long, &long, 0.5).err(), Some(Refusal::TooManyNodes));
    assert_eq!(combine_with_forward(&long, &long, &long, &long, 0.5).err(), Some(Refusal::TooManyNodes));
}

#[test]
fn two_more_than_1_048_576_links_or_65_536_ends() {
    let (ends, weights) = (vec![0; 1_048_577], vec![1.0; 1_048_577]);
    let links = Links { n: 2, from: &ends, to: &ends, weight: &weights };
    let rows = Rows { n: 2, starts: &[0, 0, 1_048_577], columns: &ends, weights: &weights };
    all_refuse(links, rows, Settings::default(), Refusal::TooManyLinks);
    let many = vec![0; 65_537];
    assert_eq!(LINKS.solve_multi_source(&many, Settings::default()).err(), Some(Refusal::TooManyLinks));
    assert_eq!(ROWS.solve_multi_target(&many, Settings::default()).err(), Some(Refusal::TooManyLinks));
}

#[test]
fn three_another_length() {
    all_refuse(Links { to: &[1, 1], ..LINKS }, Rows { starts: &[0, 1], ..ROWS }, Settings::default(), Refusal::WrongLength);
    all_refuse(Links { weight: &[], ..LINKS }, Rows { weights: &[], ..ROWS }, Settings::default(), Refusal::WrongLength);
    assert_eq!(extrapolated_solution(&[0.0], &[], 0.5).err(), Some(Refusal::WrongLength));
    assert_eq!(combine_with_forward(&[0.0], &[0.0], &[0.0], &[], 0.5).err(), Some(Refusal::WrongLength));
}

#[test]
fn four_unsound_rows() {
    for rows in [Rows { starts: &[0, 2, 1], ..ROWS }, Rows { columns: &[2], ..ROWS }, Rows { starts: &[1, 1, 1], ..ROWS }] {
        assert_eq!(rows.transpose().err(), Some(Refusal::UnsoundRows));
        assert_eq!((rows.has_edge(0, 1), rows.edge_weight(0, 1)), (Err(Refusal::UnsoundRows), Err(Refusal::UnsoundRows)));
        assert_eq!(rows.solve_single_source(0, Settings::default()).err(), Some(Refusal::UnsoundRows));
    }
}

#[test]
fn five_an_unsound_weight() {
    for weight in [-1.0, f64::NAN, f64::INFINITY, 1_048_577.0] {
        let (links, rows) = (Links { weight: &[weight], ..LINKS }, Rows { weights: &[weight], ..ROWS });
        all_refuse(links, rows, Settings::default(), Refusal::UnsoundWeight);
    }
}

#[test]
fn six_unsound_settings() {
    let sound = Settings::default();
    for settings in [
        Settings { alpha: 1.5, ..sound },
        Settings { epsilon: f64::NAN, ..sound },
        Settings { queue_threshold: -1.0, ..sound },
        Settings { max_pushes: 1_000_000_001, ..sound },
    ] {
        all_refuse(LINKS, ROWS, settings, Refusal::UnsoundSettings);
    }
    assert_eq!(extrapolated_solution(&[0.0], &[0.0], -0.5).err(), Some(Refusal::UnsoundSettings));
}

/// What puts a number into one place of a record.
type Put = fn(&mut Settings, f64);

/// The places of the two factors and of the floor.
const AMOUNTS: [Put; 3] = [
    |settings, number| settings.raising_factor = number,
    |settings, number| settings.lowering_factor = number,
    |settings, number| settings.threshold_floor = number,
];

/// The default settings, with a threshold that adapts or not, after a change.
fn changed(adaptive_threshold: bool, change: impl Fn(&mut Settings)) -> Settings {
    let mut settings = Settings { adaptive_threshold, ..Settings::default() };
    change(&mut settings);
    settings
}

#[test]
fn six_unsound_adaptive_numbers() {
    for adaptive in [true, false] {
        let refused = |change: &dyn Fn(&mut Settings)| {
            all_refuse(LINKS, ROWS, changed(adaptive, change), Refusal::UnsoundSettings);
        };
        refused(&|settings| settings.adaptive_step = 0);
        refused(&|settings| settings.upper_size = 99);
        refused(&|settings| settings.lower_size = 10_001);
        refused(&|settings| (settings.upper_size, settings.lower_size) = (0, u32::MAX));
        for put in AMOUNTS {
            for number in [-5e-324, -1.0, f64::INFINITY, f64::NEG_INFINITY, f64::NAN] {
                refused(&|settings| put(settings, number));
            }
        }
    }
}

#[test]
fn edges_of_the_adaptive_numbers() {
    for adaptive in [true, false] {
        let passes = |change: &dyn Fn(&mut Settings)| {
            let (settings, sound) = (changed(adaptive, change), Settings::default());
            assert!(LINKS.solve_single_source(0, settings).is_ok(), "{settings:?}");
            assert!(ROWS.solve_single_target(1, settings).is_ok(), "{settings:?}");
            assert!(LINKS.solve_bidirectional(0, 1, settings, sound).is_ok(), "{settings:?}");
            assert!(ROWS.adaptive_solve(0, 1, sound, settings).is_ok(), "{settings:?}");
        };
        passes(&|settings| settings.adaptive_step = 1);
        passes(&|settings| settings.adaptive_step = u64::MAX);
        for size in [0, 1, 100, u32::MAX] {
            passes(&|settings| (settings.upper_size, settings.lower_size) = (size, size));
        }
        for put in AMOUNTS {
            for number in [0.0, -0.0, 5e-324, f64::MAX] {
                passes(&|settings| put(settings, number));
            }
        }
    }
}

#[test]
fn seven_an_unsound_precision() {
    for precision in [-1.0, f64::NAN, f64::INFINITY] {
        let settings = Settings::default();
        assert_eq!(LINKS.solve_with_target(0, 1, precision, settings).err(), Some(Refusal::UnsoundPrecision));
        assert_eq!(ROWS.solve_with_source(0, 1, precision, settings).err(), Some(Refusal::UnsoundPrecision));
    }
}

#[test]
fn the_first_number_that_applies_in_words() {
    let both = Links { to: &[], weight: &[-1.0], ..LINKS };
    let refusal = both.from_edges().unwrap_err();
    assert_eq!((refusal, refusal.number()), (Refusal::WrongLength, 3));
    assert_eq!(refusal.to_string(), "refused with 3: a list has another length than stated");
}
