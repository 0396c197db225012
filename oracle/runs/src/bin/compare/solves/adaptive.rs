//! Graphs and settings with which the threshold adapts: long queues, short ones, and those at the very size at which it
//! begins to. Each kind is held to what that does to the number of pushes, so that it is known to happen: by an assertion where
//! the plan makes it so, and where graphs are drawn by a count of those that show it.
use crate::calls::lists;
use runs::calls::call::{Call, Wish};
use runs::calls::entry::{Solver, Task};
use runs::calls::extended::Theirs;
use runs::calls::given::graph;
use runs::entries::Settings;
use runs::random::Random;

/// Solves whose graphs are laid out from node 0: along the links, or against them where the solver pushes backward.
#[derive(Clone, Copy)]
pub struct Layout(pub Solver);

impl Layout {
    /// The pushes of the Rust's solve as it is wished, and with a threshold that does not adapt.
    fn pushes(self, call: &Call, task: Task) -> (usize, usize) {
        let way = if self.0 == Solver::Backward { Solver::Backward } else { Solver::Forward };
        let count = |adaptive_threshold: bool| {
            let settings = Settings { adaptive_threshold, ..call.wish.settings };
            let wish = Wish { settings, ..call.wish.clone() };
            Theirs::new(way, graph(call), &wish).solved(&wish, task).push_count
        };
        (count(true), count(false))
    }

    /// So many solves that are drawn, and how many of them show what they are for by their pushes: with a threshold that
    /// adapts, and with one that does not.
    fn drawn(
        self,
        random: &mut Random,
        count: u64,
        draw: fn(Self, &mut Random) -> Call,
        shows: fn(usize, usize) -> bool,
    ) -> (Vec<Call>, u64) {
        let found: Vec<Call> = (0..count).map(|_| draw(self, random)).collect();
        let shown = found.iter().filter(|call| {
            let (adaptive, constant) = self.pushes(call, Task::Single);
            shows(adaptive, constant)
        });
        let shown = shown.count() as u64;
        (found, shown)
    }

    /// A solve from node 0; the other end of a query is `other`.
    pub(super) fn solve(self, nodes: u32, mut links: Vec<(u32, u32, f64)>, wish: Wish, other: u32) -> Call {
        let (mut source, mut target) = (0, other);
        if self.0 == Solver::Backward {
            links.iter_mut().for_each(|(from, to, _)| std::mem::swap(from, to));
            std::mem::swap(&mut source, &mut target);
        }
        let wish = Wish { source, target, ..wish };
        Call::on_links(nodes, &links).solving(self.0.first_question()).wishing(wish)
    }

    /// A first node with a link to each of many leaves, from each of those one to a collector, and from there into a
    /// ring of few nodes. The queue holds more than 10,000 nodes while the leaves are pushed, which raises the
    /// threshold, and fewer than 100 while the ring is, which lowers it. Counted are those of which that changes the pushes.
    pub fn waves(self, random: &mut Random, count: u64) -> (Vec<Call>, u64) {
        self.drawn(random, count, Self::wave, |adaptive, constant| adaptive > 20_000 && adaptive != constant)
    }

    fn wave(self, random: &mut Random) -> Call {
        let leaves = 20_000 + random.below(20_000) as u32;
        let ring = 1 + random.below(60) as u32;
        let collector = leaves + 1;
        let uneven = random.below(2) == 0;
        let mut links = Vec::new();
        for leaf in 1..=leaves {
            links.push((0, leaf, if uneven { 0.5 + random.unit() } else { 1.0 }));
            links.push((leaf, collector, 1.0));
        }
        for place in 0..ring {
            links.push((collector, collector + 1 + place, 1.0 / f64::from(ring)));
            links.push((collector + 1 + place, collector + 1 + (place + 1) % ring, 1.0));
        }
        let threshold = (0.1 + 0.2 * random.unit()) / f64::from(leaves);
        let alpha = random.one_of(&[0.01, 0.02]) * (1.0 + random.unit()) / f64::from(ring).sqrt();
        let other = random.one_of(&[1, leaves, collector, collector + ring]);
        self.solve(collector + ring + 1, links, wish(alpha, threshold, 500_000), other)
    }

    /// A first node with a link to each of many nodes that have none: the queue stays long, so that the threshold
    /// rises, and with it nodes are left out. Counted are those of which that leaves pushes out.
    pub fn stars(self, random: &mut Random, count: u64) -> (Vec<Call>, u64) {
        self.drawn(random, count, Self::star, |adaptive, constant| adaptive > 10_000 && adaptive < constant)
    }

    pub(super) fn star(self, random: &mut Random) -> Call {
        let leaves = 11_000 + random.below(20_000) as u32;
        // The weights add up to about 1, so that either way each leaf gets its share of what the first node holds.
        let weight = |random: &mut Random| (0.5 + random.unit()) / f64::from(leaves);
        let links = (1..=leaves).map(|leaf| (0, leaf, weight(random))).collect();
        let threshold = (0.1 + 0.3 * random.unit()) / f64::from(leaves);
        let other = 1 + random.below(u64::from(leaves)) as u32;
        let alpha = 0.1 + 0.2 * random.unit();
        let mut wish = wish(alpha, threshold, 500_000);
        // Below the threshold it leaves no push out, and above zero the statement for the stop fails for the rise alone.
        wish.settings.epsilon = threshold / 2.0;
        self.solve(leaves + 1, links, wish, other)
    }

    /// As many sources, or targets, as nodes, without links: the queue holds them all until nodes are left out. Sizes
    /// on both sides of each of the two at which the threshold begins to adapt.
    pub fn edges(self) -> Vec<Call> {
        let short = (98..=102).map(|size| (self.scattered(size, 0.01, 0.3), size < 100));
        let long = (9_998..=10_003).map(|size| (self.scattered(size, 0.1, 0.95), size > 10_000));
        let found: Vec<(Call, bool)> = short.chain(long).collect();
        for (call, adapts) in &found {
            let (adaptive, constant) = self.pushes(call, Task::Multi);
            assert_eq!(adaptive != constant, *adapts, "the threshold adapts past a size, and not at it");
        }
        found.into_iter().map(|(call, _)| call).collect()
    }

    /// The threshold is the given part of what a node holds after its first push.
    fn scattered(self, size: u32, alpha: f64, part: f64) -> Call {
        let threshold = part * (1.0 - alpha) / f64::from(size);
        let wish = Wish { many: (0..size).collect(), ..wish(alpha, threshold, 500_000) };
        self.solve(size, Vec::new(), wish, size / 2)
    }

    /// Few nodes, pushed up to each thousand and one more: the threshold falls at every one. The first is a node alone, whose
    /// last pushes are between two thousands, so that a lower threshold lets more of them in.
    pub fn thousands(self, random: &mut Random, count: u64) -> Vec<Call> {
        let alone = self.solve(1, Vec::new(), wish(0.001, 0.2, 10_000), 0);
        let (adaptive, constant) = self.pushes(&alone, Task::Single);
        assert!(adaptive > constant, "a threshold that falls lets pushes in");
        let drawn = (1..count).map(|_| self.pushed_long(random));
        std::iter::once(alone).chain(drawn).collect()
    }

    fn pushed_long(self, random: &mut Random) -> Call {
        let call = lists::random(random, 8, 24, false).solving(self.0.first_question());
        let wish = falling(random, &call);
        call.wishing(wish)
    }
}

fn wish(alpha: f64, queue_threshold: f64, max_pushes: u64) -> Wish {
    let settings =
        Settings { alpha, epsilon: 0.0, queue_threshold, max_pushes, adaptive_threshold: true, ..Settings::DEFAULT };
    Wish { many: vec![0], precision: 0.5, settings, backward_settings: settings, ..Wish::default() }
}

fn falling(random: &mut Random, call: &Call) -> Wish {
    let unit = random.unit();
    let alpha = random.one_of(&[0.0, 0.001 * unit, 0.003 * unit, 0.01 * unit]);
    let threshold = random.one_of(&[0.0, 1e-12, 1.2e-12, 1e-8, 0.001, 0.01, 0.1 * unit]);
    let pushes = random.one_of(&[999, 1_000, 1_001, 1_999, 2_000, 2_001, 3_000, 10_000]);
    let node = |random: &mut Random| random.below(u64::from(call.nodes) + 1) as u32;
    let (source, target) = (node(random), node(random));
    // Half of the nodes come twice as often.
    let ends = [source / 2, target];
    let [source, target] = if random.below(2) == 0 { ends } else { [ends[1], ends[0]] };
    let many = (0..random.below(6)).map(|_| node(random)).collect();
    Wish { source, target, many, ..wish(alpha, threshold, pushes) }
}
