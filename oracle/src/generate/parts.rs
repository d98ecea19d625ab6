//! Operands of module 4's functions, by bits.

use super::limits::{self, Joint};
use super::{Random, floats};
use crate::constraints::Constraints;
use crate::float::P;
use crate::functions::operands::edge;
use crate::parts::Operands;

/// Once in so many times, an edge value in one of the first places.
fn edged(random: &mut Random, once_in: usize, places: usize, mut operands: Operands) -> Operands {
    if random.once_in(once_in) {
        let place = random.below(places);
        operands[place] = edge(random);
    }
    operands
}

/// Limits whose ends are some half turns apart, or beside that.
fn half_turns(random: &mut Random) -> [u64; 2] {
    let small = random.within(2.0 * P);
    let tiny = random.sign() * random.decimal(-20, -5);
    let from = random.pick(&[0.0, -0.0, P, -P, 2.0 * P, 1.0, -1.0, small, tiny]);
    let turns = random.pick(&[1.0, 2.0, 3.0, 4.0]);
    let to = from + random.sign() * turns * P;
    [from, random.near(to)].map(f64::to_bits)
}

/// Limits of any sort.
fn ends(random: &mut Random, joint: Joint) -> [u64; 2] {
    match random.below(8) {
        0 => half_turns(random),
        1 => [edge(random), edge(random)],
        2 => [floats::float(random), floats::float(random)],
        3 => {
            let end = floats::float(random);
            let other = random.pick(&[end, end ^ 1, end ^ 1 << 63]);
            [end, other]
        }
        _ => limits::limits(random, joint),
    }
}

/// A joint: its offset within two half turns, often at an end.
fn joint(random: &mut Random) -> Joint {
    let within = random.within(2.0 * P);
    let end = random.sign() * random.near(2.0 * P);
    Joint {
        sign: random.sign(),
        offset: random.pick(&[2.0 * P, -2.0 * P, end, P, -P, 0.0, -0.0, within, within]),
    }
}

/// A reference: ordinary, at a half turn, or huge.
fn reference(random: &mut Random) -> u64 {
    match random.below(8) {
        0 => edge(random),
        1 => (random.sign() * random.decimal(0, 307)).to_bits(),
        2 => (random.sign() * 1.0e308).to_bits(),
        3 => {
            let turns = random.below(9) as f64 - 4.0;
            random.near(turns * P).to_bits()
        }
        _ => random.within(2.0 * P).to_bits(),
    }
}

/// Limits of a joint.
pub fn center(random: &mut Random) -> Operands {
    let joint = joint(random);
    let [from, to] = ends(random, joint);
    edged(random, 16, 2, [from, to, 0, 0, 0, 0])
}

/// Whether limits are present, a joint's sign, offset and reference, its limits.
pub fn limits(random: &mut Random) -> Operands {
    let joint = joint(random);
    let any = random.bits();
    let limited = random.pick(&[0, 1, 1, 1, 1, 2, u64::MAX, any]);
    let reference = reference(random);
    let [from, to] = ends(random, joint);
    let mut offset = joint.offset.to_bits();
    if random.once_in(16) {
        offset = edge(random);
    }
    [limited, joint.sign.to_bits(), offset, reference, from, to]
}

/// A centre and a tolerance: of limits, or such that a range ends at a half turn.
fn range(random: &mut Random) -> [u64; 2] {
    let joint = joint(random);
    match random.below(6) {
        0 => [floats::float(random), floats::float(random)],
        1 => {
            let center = random.within(P);
            [center, random.near(P - center.abs())].map(f64::to_bits)
        }
        2 => {
            let unit = random.unit();
            let small = random.decimal(-320, -10);
            let tolerance = random.pick(&[P, P, 0.0, -0.0, small, -small, unit, f64::INFINITY]);
            let place = reference(random);
            [place, random.near(tolerance).to_bits()]
        }
        _ => {
            let ends = ends(random, joint).map(f64::from_bits);
            let (centers, tolerances) = Constraints::compute_centers([ends[0]; 6], [ends[1]; 6]);
            [centers[0], tolerances[0]].map(f64::to_bits)
        }
    }
}

/// A centre, a tolerance, a reference and a sign.
pub fn interval(random: &mut Random) -> Operands {
    let [center, tolerance] = range(random);
    let given = reference(random);
    let reference = random.pick(&[0, 1 << 63, given, given]);
    let sign = random.sign().to_bits();
    edged(random, 8, 4, [center, tolerance, reference, sign, 0, 0])
}

/// Two to a whole power, subnormal ones among them.
fn power(exponent: i64) -> f64 {
    match exponent {
        ..-1074 => 0.0,
        -1074..-1022 => f64::from_bits(1 << (exponent + 1074)),
        _ => f64::from_bits(((exponent.min(1023) + 1023) as u64) << 52),
    }
}

/// Four floats of one scale: ordinary, at the edge of overflow, or so small that
/// the squares are subnormal or zero.
fn scaled(random: &mut Random) -> [f64; 4] {
    let (middle, radius) = random.pick(&[
        (0, 3),
        (0, 300),
        (511, 3),
        (1020, 4),
        (-512, 4),
        (-537, 4),
        (-1060, 20),
    ]);
    let exponent = middle - radius + random.below(2 * radius as usize + 1) as i64;
    [(); 4].map(|()| random.within(2.0) * power(exponent))
}

/// Four floats of which each is a power of two, zero, or beside.
fn powers(random: &mut Random) -> [f64; 4] {
    let middle = random.pick(&[0, 511, -511, -537]);
    let zero = random.pick(&[0.0, -0.0]);
    [(); 4].map(|()| {
        let exponent = middle + random.below(4) as i64 - 2;
        let (exact, near) = (power(exponent), random.near(power(exponent)));
        random.sign() * random.pick(&[near, near, exact, zero])
    })
}

/// A quaternion's parts.
pub fn pose(random: &mut Random) -> Operands {
    let [x, y, z, w] = match random.below(8) {
        0 => [(); 4].map(|()| floats::float(random)),
        1 => [(); 4].map(|()| edge(random)),
        2 => {
            let mut axis = [0.0, -0.0, 0.0, -0.0].map(f64::to_bits);
            let place = random.below(4);
            axis[place] = floats::float(random);
            axis
        }
        3 | 4 => powers(random).map(f64::to_bits),
        _ => scaled(random).map(f64::to_bits),
    };
    edged(random, 16, 4, [x, y, z, w, 0, 0])
}
