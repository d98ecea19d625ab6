//! Coefficients of curves that touch zero: between the bounds, at a bound, at 0,
//! and where a bisection ends at the same number.

use super::{Random, power};
use crate::singularity::j1j2free::{Compensated, Polynomial, multiply};

/// A square plus a constant about as large as what still counts as zero there.
pub fn nearly(random: &mut Random) -> Vec<f64> {
    let root = random.pick(&[1.0, -1.0, 0.5, 2.0, 0.75]);
    let bound = 128.0 * f64::EPSILON * f64::EPSILON * (4.0 * root * root);
    let rest = random.sign() * random.near(bound);
    let slope = random.pick(&[[-2.0 * root, 0.0], [-root, -root], [-3.0 * root, root]]);
    let mut pairs = vec![root * root, rest, slope[0], slope[1], 1.0, 0.0];
    if random.once_in(2) {
        // Times x.
        pairs.splice(0..0, [0.0, 0.0]);
    }
    pairs
}

/// The curve of these roots, its coefficients to twice the digits: where they
/// repeat or stand at a bound it comes so close to zero that it touches. Rounded
/// to one float each, the coefficients would keep it away.
pub fn repeated(random: &mut Random, roots: &[f64]) -> Vec<f64> {
    let scale = power(2.0, random.pick(&[0, 0, 0, 300, -300, -1000]));
    let leading = random.pick(&[1.0, -1.0, 0.375, 3.0]);
    pairs(&of_roots(leading * scale, roots))
}

/// A curve that is zero at a bound or has a repeated root, lifted by so little
/// that it still touches there. If that takes it across zero, a bisection beside
/// the point ends at the same number. A point at 0 does not touch once the curve
/// is lifted, and what ends there is a crossing.
pub fn lifted(random: &mut Random, lower: f64, upper: f64) -> Vec<f64> {
    let quarter = (random.within(4.0) * 4.0).round() / 4.0;
    let point = random.pick(&[lower, upper, quarter, 1.0, -1.0, 0.5, 0.0, -0.0]);
    let point = if point.is_finite() { point } else { 1.0 };
    let mut roots = vec![point; 1 + random.below(3)];
    for _ in 0..random.below(4) {
        roots.push((random.within(4.0) * 2.0).round() / 2.0);
    }
    let mut polynomial = of_roots(random.pick(&[1.0, -1.0, 3.0]), &roots);
    let lift = match random.below(4) {
        0 => 5.0e-324,
        1 => 1.0e-323,
        _ => random.decimal(-323, -29),
    };
    polynomial[0] = polynomial[0].plus((random.sign() * lift).into());
    pairs(&polynomial)
}

/// An even or odd curve, which at 0 touches, crosses or neither; zero parts are
/// of either sign.
pub fn symmetric(random: &mut Random) -> Vec<f64> {
    let mut roots = vec![0.0; random.below(4)];
    let whole = random.once_in(2);
    for _ in 0..random.below(3) {
        let root = random.within(2.0);
        let root = if whole { root.round() } else { root };
        roots.extend([root, -root]);
    }
    let mut parts = pairs(&of_roots(random.sign(), &roots));
    for part in parts.iter_mut().filter(|part| **part == 0.0) {
        *part = random.pick(&[0.0, -0.0]);
    }
    parts
}

/// The polynomial of these roots, to twice the digits.
fn of_roots(scale: f64, roots: &[f64]) -> Polynomial {
    roots.iter().fold(vec![scale.into()], |polynomial, &root| {
        multiply(&polynomial, &[(-root).into(), 1.0.into()])
    })
}

/// High and low parts in turn.
fn pairs(polynomial: &[Compensated]) -> Vec<f64> {
    polynomial
        .iter()
        .flat_map(|value| [value.high, value.low])
        .collect()
}
