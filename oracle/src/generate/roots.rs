//! Calls of the operation Roots, accepted and refused.

use super::{Random, floats, power, touching};
use crate::float::P;
use crate::observe::LENT;
use crate::operations;

/// A call of Roots: coefficients, bounds and the lengths of the two lent slices.
#[derive(Clone, Debug)]
pub struct Call {
    pub coefficients: Vec<f64>,
    pub lower: f64,
    pub upper: f64,
    pub result: usize,
    pub kinds: usize,
}

/// Calls of all sorts.
pub fn calls(seed: u64, count: usize) -> Vec<Call> {
    (0..count as u64).map(|index| call(seed, index)).collect()
}

/// One call.
pub fn call(seed: u64, index: u64) -> Call {
    let random = &mut Random::new(seed, index);
    let [lower, upper] = bounds(random);
    let mut coefficients = match random.below(16) {
        0 => touching::nearly(random),
        1..=5 => {
            let degree = 1 + random.below(8);
            let roots = some_roots(random, degree, lower, upper);
            touching::repeated(random, &roots)
        }
        6..=8 => touching::lifted(random, lower, upper),
        9 => touching::symmetric(random),
        _ => curve(random, lower, upper),
    };
    lead(random, &mut coefficients);
    if random.once_in(12) {
        spoil(random, &mut coefficients);
    }
    let found = operations::root_values(&coefficients, lower, upper);
    let count = found.map_or(0, |roots| roots.len());
    Call {
        coefficients,
        lower,
        upper,
        result: places(random, count),
        kinds: places(random, count),
    }
}

/// The places of a slice for so many roots: mostly enough, now and then one
/// short or none.
fn places(random: &mut Random, count: usize) -> usize {
    match random.below(12) {
        0 => count.saturating_sub(1),
        1 => 0,
        2 | 3 => LENT,
        4 | 5 => count + 1,
        _ => count,
    }
}

/// Adds leading pairs: zeros of either sign, which are trimmed, or a pair with
/// one part zero or of two parts that cancel, which is not.
fn lead(random: &mut Random, coefficients: &mut Vec<f64>) {
    let part = random.within(1.0) * random.pick(&[1.0, 1.0, 1.0e-20]);
    if random.once_in(8) {
        coefficients.extend(random.pick(&[[part, -part], [0.0, part], [-0.0, part]]));
    }
    if random.once_in(4) {
        for _ in 0..random.below(4) {
            coefficients.extend([random.pick(&[0.0, -0.0]), random.pick(&[0.0, -0.0])]);
        }
    }
}

/// Two bounds, now and then refused.
fn bounds(random: &mut Random) -> [f64; 2] {
    let (one, other) = (random.within(4.0), random.within(4.0));
    match random.below(20) {
        0 => [
            random.pick(&[
                floats::not_finite(&mut random.clone()),
                -4.0f64.next_up(),
                5.0,
            ]),
            one,
        ],
        1 => [
            one,
            random.pick(&[floats::not_finite(&mut random.clone()), 4.0f64.next_up()]),
        ],
        2 => [one.max(other), one.min(other)],
        3 => [one, one],
        4 => random.pick(&[[0.0, -0.0], [-0.0, 0.0], [0.0, 0.0], [-0.0, -0.0]]),
        5 => [one, one.next_up()],
        6 | 7 => random.pick(&[
            [0.0, 1.0],
            [-1.0, 0.0],
            [-1.0, -0.0],
            [-0.0, 1.0],
            [0.0, 5.0e-324],
            [-0.0, one.abs()],
            [-one.abs(), 0.0],
        ]),
        8 => {
            let small = random.decimal(-300, -3);
            [-small, small * random.unit()]
        }
        9..=11 => [-1.0, 1.0],
        12..=14 => [-4.0, 4.0],
        _ => [one.min(other), one.max(other)],
    }
}

/// Pairs of high and low parts, of degree 0 to 8 or none at all.
fn curve(random: &mut Random, lower: f64, upper: f64) -> Vec<f64> {
    let degree = random.below(9);
    let high = match random.below(8) {
        0 => Vec::new(),
        1 | 2 => (0..=degree).map(|_| random.within(2.0)).collect(),
        3 => (0..=degree)
            .map(|_| random.pick(&[0.0, -0.0, 1.0, -1.0, 2.0, 7.0]))
            .collect(),
        _ => of_roots(random, degree, lower, upper),
    };
    let scale = match random.below(10) {
        0 => power(2.0, 390),
        1 => power(2.0, -1000),
        2 => random.decimal(-120, 100),
        _ => 1.0,
    };
    let style = random.below(5);
    let mut pairs = Vec::new();
    for value in high {
        let value = value * scale;
        let low = match style {
            0 => value * random.within(1.0) / 9007199254740992.0,
            1 => value * random.within(1.0),
            2 => random.pick(&[0.0, -0.0, -value, value]),
            _ => 0.0,
        };
        pairs.extend([value, low]);
    }
    pairs
}

/// The polynomial of such roots, each coefficient rounded to one float.
fn of_roots(random: &mut Random, degree: usize, lower: f64, upper: f64) -> Vec<f64> {
    let scale = random.pick(&[1.0, -1.0, 0.375, 3.0]);
    some_roots(random, degree, lower, upper)
        .into_iter()
        .fold(vec![scale], |coefficients, root| {
            with_root(&coefficients, root)
        })
}

/// So many roots: repeated, nearly so, at the bounds, between them or anywhere.
fn some_roots(random: &mut Random, degree: usize, lower: f64, upper: f64) -> Vec<f64> {
    let mut last = random.within(1.0);
    let whole = random.once_in(3);
    let mut roots = Vec::new();
    for _ in 0..degree {
        let root = match random.below(6) {
            0 => last,
            1 => last + random.decimal(-16, -4),
            2 => random.pick(&[lower, upper]),
            3 => random.pick(&[0.0, -0.0, 1.0, -1.0, 0.5, P / 4.0]),
            4 => lower + (upper - lower) * random.unit(),
            _ => random.within(2.0),
        };
        last = if !root.is_finite() {
            1.0
        } else if whole {
            (root * 4.0).round() / 4.0
        } else {
            root
        };
        roots.push(last);
    }
    roots
}

/// The polynomial times (x − root).
fn with_root(coefficients: &[f64], root: f64) -> Vec<f64> {
    let at = |index: usize| coefficients.get(index).copied().unwrap_or(0.0);
    (0..=coefficients.len())
        .map(|index| if index > 0 { at(index - 1) } else { 0.0 } - root * at(index))
        .collect()
}

/// Makes 21 or 23 likely.
fn spoil(random: &mut Random, coefficients: &mut Vec<f64>) {
    let most = power(2.0, 400);
    let part = match random.below(6) {
        0 => return coefficients.push(0.0),
        1 => return coefficients.resize(random.pick(&[17, 18, 19, 20, 40]), 1.0),
        2 => random.sign() * most,
        3 => random.sign() * most.next_up(),
        4 => floats::not_finite(random),
        _ => random.pick(&[f64::MAX, f64::MIN, most.next_down()]),
    };
    if !coefficients.is_empty() {
        let at = random.below(coefficients.len());
        coefficients[at] = part;
    }
}
