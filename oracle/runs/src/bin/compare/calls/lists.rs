//! Link lists and rows, all of them sound: every small one, random ones, graphs with a plan.
use super::sound::{MOST_LINKS, MOST_NODES};
use runs::calls::call::Call;
use runs::calls::entry::Entry;
use runs::random::Random;

/// The weights of every small list that is solved: none, below 1 and above it, where a degree counts as 1 or as itself.
pub const FEW_WEIGHTS: [f64; 4] = [0.0, 0.5, 1.0, 3.0];

/// Sizes of random graphs, in nodes and links, and how many of each are drawn in the gate and in a full run.
pub const SIZES: [(u32, usize, u64, u64); 6] = [
    (1, 8, 2_000, 50_000),
    (8, 40, 20_000, 500_000),
    (64, 400, 3_000, 60_000),
    (1_000, 10_000, 100, 3_000),
    (MOST_NODES, 100_000, 10, 300),
    (MOST_NODES, MOST_LINKS, 3, 60),
];

/// Every list of up to `nodes` nodes and exactly `links` links, with ends up to the number of nodes, so also out of
/// range, and with these weights.
pub fn every<const WEIGHTS: usize>(nodes: u32, links: u32, weights: [f64; WEIGHTS]) -> impl Iterator<Item = Call> {
    (0..=nodes).flat_map(move |n| {
        let ends = u64::from(n) + 1;
        let choices = ends * ends * weights.len() as u64;
        let link = move |choice: u64| {
            let (from, to) = (choice % ends, choice / ends % ends);
            (from as u32, to as u32, weights[(choice / ends / ends) as usize])
        };
        (0..choices.pow(links)).map(move |number| {
            let list: Vec<_> = (0..links).map(|place| link(number / choices.pow(place) % choices)).collect();
            Call::on_links(n, &list)
        })
    })
}

/// How the weights of one list are drawn.
#[derive(Clone, Copy)]
enum Weights {
    Ones,
    Units,
    Tenths,
    Specials,
    SpecialsAmongUnits,
    EverySize,
}

impl Weights {
    fn any(random: &mut Random) -> Self {
        use Weights::*;
        random.one_of(&[Ones, Units, Tenths, Specials, SpecialsAmongUnits, EverySize])
    }

    fn draw(self, random: &mut Random) -> f64 {
        let special = |random: &mut Random| {
            let subnormal = f64::from_bits(random.next() >> 12);
            random.one_of(&[0.0, -0.0, 5e-324, subnormal, f64::MIN_POSITIVE, 1.0, 1_048_575.9999999999, 1_048_576.0])
        };
        match self {
            Weights::Ones => 1.0,
            Weights::Tenths => (1 + random.below(10)) as f64 / 10.0,
            Weights::Specials => special(random),
            Weights::SpecialsAmongUnits if random.below(3) == 0 => special(random),
            Weights::Units | Weights::SpecialsAmongUnits => random.unit(),
            Weights::EverySize => 2f64.powi(random.below(1094) as i32 - 1074) * random.unit(),
        }
    }
}

/// How the ends of one list are drawn.
#[derive(Clone, Copy)]
struct Ends {
    nodes: u32,
    /// One in so many ends is out of range; with 0 none is.
    out_of_range: u64,
    /// Ends are drawn from this many nodes: few of them give repeated links and links from a node to itself.
    drawn: u32,
    /// One in so many ends is node 0, a hub; with 0 none is drawn so.
    hub: u64,
}

impl Ends {
    fn any(random: &mut Random, nodes: u32) -> Self {
        let few = 1 + random.below(u64::from(nodes.clamp(1, 20))) as u32;
        Self {
            nodes,
            out_of_range: random.one_of(&[0, 0, 2, 8, 100]),
            drawn: if random.below(3) == 0 { few } else { nodes },
            hub: random.one_of(&[0, 0, 0, 2]),
        }
    }

    fn draw(&self, random: &mut Random) -> u32 {
        if self.nodes == 0 || self.out_of_range > 0 && random.below(self.out_of_range) == 0 {
            let past = [0, 1, random.below(1000), u64::from(u32::MAX - self.nodes), random.below(1 << 31)];
            return self.nodes.saturating_add(random.one_of(&past) as u32);
        }
        if self.hub > 0 && random.below(self.hub) == 0 {
            return 0;
        }
        random.below(u64::from(self.drawn)) as u32
    }
}

/// A random list of up to so many nodes and links; with `whole`, of exactly so many.
pub fn random(random: &mut Random, nodes: u32, links: usize, whole: bool) -> Call {
    let n = if whole { nodes } else { random.below(u64::from(nodes) + 1) as u32 };
    let m = if whole { links } else { random.below(links as u64 + 1) as usize };
    let (ends, weights) = (Ends::any(random, n), Weights::any(random));
    let self_links = random.below(4) == 0;
    let link = |_| {
        let (from, to) = (ends.draw(random), ends.draw(random));
        let to = if self_links && random.below(3) == 0 { from } else { to };
        (from, to, weights.draw(random))
    };
    let list: Vec<_> = (0..m).map(link).collect();
    Call::on_links(n, &list)
}

/// Graphs with a plan, of `nodes` nodes (at least one): each plan in list order and backwards, with and without a link
/// out of range between any two.
pub fn planned(random: &mut Random, nodes: u32) -> Vec<Call> {
    let all = || 0..nodes;
    let hub = nodes / 2;
    let star_out = all().map(|node| (0, node)).collect();
    let star_in = all().map(|node| (node, 0)).collect();
    let chain = all().skip(1).map(|node| (node - 1, node)).collect();
    let chain_back = all().skip(1).map(|node| (node, node - 1)).collect();
    let ring = all().map(|node| (node, (node + 1) % nodes)).collect();
    let both_ways = all().flat_map(|node| [(node, hub), (hub, node)]).collect();
    let to_itself = all().map(|node| (node, node)).collect();
    let repeated = all().map(|_| (nodes - 1, 0)).collect();
    let each_to_each = all().take(50).flat_map(|node| all().take(50).map(move |other| (node, other))).collect();
    let plans: [Vec<(u32, u32)>; 9] =
        [star_out, star_in, chain, chain_back, ring, both_ways, to_itself, repeated, each_to_each];
    let mut found = Vec::new();
    for plan in plans {
        for (backwards, gaps) in [(false, false), (true, false), (false, true), (true, true)] {
            let weights = Weights::any(random);
            let mut list = Vec::new();
            for &(from, to) in &plan {
                list.push((from, to, weights.draw(random)));
                if gaps {
                    list.push((nodes, to, weights.draw(random)));
                }
            }
            if backwards {
                list.reverse();
            }
            found.push(Call::on_links(nodes, &list));
        }
    }
    found
}

/// Random rows of up to so many nodes and links, made without a link list: columns in any order, rows empty or long.
pub fn rows(random: &mut Random, nodes: u32, links: usize, whole: bool) -> Call {
    let n = if whole { nodes } else { random.below(u64::from(nodes) + 1) as u32 };
    let m = match n {
        0 => 0,
        _ if whole => links,
        _ => random.below(links as u64 + 1) as usize,
    };
    let ends = Ends { out_of_range: 0, ..Ends::any(random, n) };
    let weights = Weights::any(random);
    // Cuts drawn from few places leave many rows empty.
    let step = random.one_of(&[1, 1, 1 + m as u64 / 4]);
    let mut starts: Vec<u32> = (1..n).map(|_| (random.below(m as u64 + 1) / step * step) as u32).collect();
    starts.push(0);
    if n > 0 {
        starts.push(m as u32);
    }
    starts.sort_unstable();
    let columns = (0..m).map(|_| ends.draw(random)).collect();
    let weights = (0..m).map(|_| weights.draw(random)).collect();
    Call::on_rows(Entry::FromMatrix, n, starts, columns, weights)
}

/// Rows of so many nodes, at least three, one of which has so many links: to all nodes but two, in turn, over and over, and with
/// the last to one of these two. The others have up to three links each, where so many are allowed.
pub fn long_row(random: &mut Random, nodes: u32, links: usize) -> Call {
    let node = |random: &mut Random| random.below(u64::from(nodes)) as u32;
    let (long, absent) = (node(random), node(random));
    let few = if links + 3 * nodes as usize <= MOST_LINKS { 3 } else { 0 };
    let (mut starts, mut columns) = (vec![0], Vec::new());
    for row in 0..nodes {
        if row == long {
            columns.extend((1..links as u32).map(|place| (absent + 2 + place % (nodes - 2)) % nodes));
            columns.push((absent + 1) % nodes);
        } else {
            columns.extend((0..random.below(few + 1)).map(|_| node(random)));
        }
        starts.push(columns.len() as u32);
    }
    let weights = Weights::any(random);
    let weights = columns.iter().map(|_| weights.draw(random)).collect();
    Call::on_rows(Entry::FromMatrix, nodes, starts, columns, weights)
}
