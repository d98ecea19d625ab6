//! Limits of one joint, as bits of `from` and `to`.

use super::Random;
use super::floats::NAN_PATTERNS;
use crate::float::P;

/// How a joint turns into its model angle: angle·sign − offset.
#[derive(Clone, Copy, Debug)]
pub struct Joint {
    pub sign: f64,
    pub offset: f64,
}

impl Joint {
    /// The joint's own angle for a model angle, but for rounding.
    pub fn own(self, model: f64) -> f64 {
        self.sign * (model + self.offset)
    }
}

/// Limits of any sort; half of them ordinary.
pub fn limits(random: &mut Random, joint: Joint) -> [u64; 2] {
    let [from, to] = match random.below(25) {
        0 => equal(random),
        1 | 2 => reversed(random),
        3 => whole_turn(random),
        4 => reversed_whole_turn(random),
        5 | 6 => narrow(random),
        7..=9 => near_pole(random, joint),
        10 => huge(random),
        11 => tiny(random),
        12 => return odd_bits(random),
        13 => about_half_turn(random, joint),
        _ => ordinary(random),
    };
    [from.to_bits(), to.to_bits()]
}

/// A range about an angle, less than a turn wide.
pub fn ordinary(random: &mut Random) -> [f64; 2] {
    let (center, tolerance) = (random.within(P), 0.05 + random.unit() * 3.0);
    let turns = random.pick(&[0.0, 0.0, 0.0, 2.0 * P, -2.0 * P, 4.0 * P]);
    [center - tolerance + turns, center + tolerance + turns]
}

/// The same angle twice: no limit.
fn equal(random: &mut Random) -> [f64; 2] {
    let angle = random.pick(&[0.0, 1.0, P, -2.0 * P, 1.0e308]);
    random.pick(&[[angle, angle], [0.0, -0.0], [-0.0, 0.0]])
}

/// The lower limit above the upper: the range goes through a whole turn.
fn reversed(random: &mut Random) -> [f64; 2] {
    let (from, width) = (random.within(2.0 * P), random.unit() * 2.0 * P);
    let width = random.pick(&[width, 2.0 * P, P, 4.0 * P]);
    [from, from - width]
}

/// Tolerance P and its neighbours.
fn whole_turn(random: &mut Random) -> [f64; 2] {
    let center = random.pick(&[0.0, P, -P, 1.0, random.clone().within(P)]);
    let [from, to] = [center - P, center + P];
    if random.once_in(2) {
        [from, random.near(to)]
    } else {
        [random.near(from), to]
    }
}

/// A lower limit just above the upper: the span comes out at 2P or just below.
fn reversed_whole_turn(random: &mut Random) -> [f64; 2] {
    let to = random.pick(&[0.0, 1.0, -1.0, P, 2.0 * P, -2.0 * P]);
    let step = random.pick(&[5.0e-324, 1.0e-300, 1.0e-20, 4.4e-16, 8.9e-16, 1.8e-15]);
    let from: f64 = to + step;
    [if from > to { from } else { to.next_up() }, to]
}

/// A range of 1e-12 to 1e-4 to each side.
fn narrow(random: &mut Random) -> [f64; 2] {
    let (center, tolerance) = (random.within(P), random.decimal(-12, -5));
    [center - tolerance, center + tolerance]
}

/// A range that ends 1e-12 to 1e-4 beside a pole of the wrist, on one side or both.
pub fn near_pole(random: &mut Random, joint: Joint) -> [f64; 2] {
    let pole = joint.own(random.pick(&[0.0, P, -P]));
    let reach = random.decimal(-12, -5);
    let wide = random.unit() * 2.0;
    match random.below(4) {
        0 => [pole - reach, pole + wide],
        1 => [pole + reach, pole + wide + 1.0e-3],
        2 => [pole - wide - 1.0e-3, pole - reach],
        _ => [pole - reach, pole + reach],
    }
}

/// A range about a half turn or beside: its wrapped center may be P or -P.
fn about_half_turn(random: &mut Random, joint: Joint) -> [f64; 2] {
    let sign = random.sign();
    let center = joint.own(sign * random.near(P));
    let tolerance = random.pick(&[0.5, 0.25, 1.0, 0.0078125]);
    [center - tolerance, center + tolerance]
}

/// Limits so large that sums overflow or turns are lost.
fn huge(random: &mut Random) -> [f64; 2] {
    let mut one = || match random.below(4) {
        0 => random.sign() * f64::MAX,
        1 => random.sign() * 1.0e308,
        2 => random.within(1.0e17),
        _ => random.sign() * random.decimal(3, 300),
    };
    [one(), one()]
}

/// Limits at or just beside zero.
fn tiny(random: &mut Random) -> [f64; 2] {
    let mut one = || match random.below(5) {
        0 => random.pick(&[0.0, -0.0]),
        1 => random.sign() * 5.0e-324,
        2 => random.sign() * f64::from_bits(random.bits() >> 12),
        3 => random.sign() * f64::MIN_POSITIVE,
        _ => random.sign() * random.decimal(-300, -13),
    };
    [one(), one()]
}

/// Infinities, NaN of several patterns, any bits.
fn odd_bits(random: &mut Random) -> [u64; 2] {
    let mut limits = ordinary(random).map(f64::to_bits);
    let side = random.below(2);
    limits[side] = match random.below(3) {
        0 => random.pick(&[f64::INFINITY, f64::NEG_INFINITY]).to_bits(),
        1 => random.pick(&NAN_PATTERNS),
        _ => random.bits(),
    };
    limits
}
