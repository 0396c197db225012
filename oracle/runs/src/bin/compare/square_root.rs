//! `square_root` against Rust's `f64::sqrt`, which is IEEE 754's.
use crate::Asked;
use runs::comparison::{same, Comparison};
use runs::entries;
use runs::patterns::{self, Pattern};
use runs::random::Random;

pub fn compare(asked: &Asked, comparison: &mut Comparison, random: &mut Random) {
    let difference = |p: &Pattern| difference(entries::square_root, p);
    let mut kind = |name: &str, inputs: Vec<Pattern>| {
        comparison.kind(&format!("square_root, {name}"), inputs.into_iter(), difference, patterns::smaller);
    };
    kind("zeros, infinities and NaNs", patterns::specials(random));
    kind("every exponent, both signs", patterns::exponents().collect());
    kind("subnormals", patterns::subnormals(random, asked.size(20_000, 500_000)));
    kind("squares and their neighbours", patterns::squares(random, asked.size(20_000, 400_000)));
    kind("beside a halfway square", patterns::halfway(random, asked.size(20_000, 400_000)));
    let mut left = asked.size(300_000, 8_000_000);
    let next = std::iter::from_fn(|| {
        left = left.checked_sub(1)?;
        Some(Pattern(random.next()))
    });
    comparison.kind("square_root, random patterns", next, difference, patterns::smaller);
}

fn difference(ours: fn(f64) -> f64, p: &Pattern) -> Option<String> {
    let x = f64::from_bits(p.0);
    let (a, b) = (ours(x), x.sqrt());
    (!same(a, b)).then(|| format!("square_root gives {:016x}, the Rust {:016x}", a.to_bits(), b.to_bits()))
}

/// The proved root with its last digit turned where the third and fourth digits of x are ones.
pub fn planted(comparison: &mut Comparison, random: &mut Random) {
    let spoiled = |x: f64| {
        let root = entries::square_root(x);
        if x.to_bits() >> 48 & 3 == 3 {
            f64::from_bits(root.to_bits() ^ 1)
        } else {
            root
        }
    };
    let inputs = patterns::squares(random, 1_000).into_iter();
    comparison.kind("square_root, planted", inputs, |p| difference(spoiled, p), patterns::smaller);
}
