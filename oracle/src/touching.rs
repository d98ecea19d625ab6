//! Change request 1, touching or crossing: each root says how it arose.

use crate::singularity::j1j2free::{self, Compensated};

/// A root by how it arose, with its value.
#[derive(Clone, Copy, Debug, PartialEq)]
pub enum Root {
    /// A partition point near zero.
    Touch(f64),
    /// The end of a bisection, or the quotient of degree 1.
    Crossing(f64),
}

impl Root {
    pub fn value(self) -> f64 {
        match self {
            Root::Touch(value) | Root::Crossing(value) => value,
        }
    }

    /// The number that stands for it in a slice of kinds.
    pub fn kind(self) -> u8 {
        match self {
            Root::Touch(_) => 1,
            Root::Crossing(_) => 2,
        }
    }
}

/// The list of `roots`, each marked: a touch exactly if some partition point
/// near zero equals it as a number, else a crossing. So a number that arises
/// both ways is a touch, and zeros of either sign are one number.
pub fn marked_roots(polynomial: &[Compensated], lower: f64, upper: f64) -> Vec<Root> {
    let touches = touches(trimmed(polynomial), lower, upper);
    let marked = |root: f64| {
        if touches.contains(&root) {
            Root::Touch(root)
        } else {
            Root::Crossing(root)
        }
    };
    let roots = j1j2free::roots(polynomial.to_vec(), lower, upper);
    roots.into_iter().map(marked).collect()
}

/// The polynomial without leading coefficients that are zero.
fn trimmed(polynomial: &[Compensated]) -> &[Compensated] {
    let last = polynomial.iter().rposition(|value| !value.is_zero());
    &polynomial[..last.map_or(0, |last| last + 1)]
}

/// The partition points near zero.
fn touches(polynomial: &[Compensated], lower: f64, upper: f64) -> Vec<f64> {
    let mut points = partition_points(polynomial, lower, upper);
    points.retain(|&point| j1j2free::near_zero(polynomial, point));
    points
}

/// The partition points of a trimmed polynomial: the bounds and the derivative's
/// roots between them. Degree 1 is solved by division and has none.
fn partition_points(polynomial: &[Compensated], lower: f64, upper: f64) -> Vec<f64> {
    if polynomial.len() <= 2 {
        return Vec::new();
    }
    let powers = (1..polynomial.len()).map(|power| power as f64);
    let derivative = std::iter::zip(powers, &polynomial[1..])
        .map(|(power, value)| value.times(power.into()))
        .collect();
    let mut points = j1j2free::roots(derivative, lower, upper);
    points.extend([lower, upper]);
    points
}
