//! Operands of the trigonometry, by bits: any, and those at which a result
//! changes its branch, its quadrant or its sign, with their neighbours.

use super::operands::{ONE, Operands, SIGN, any, beside, sign, sized, within};
use crate::float::P;
use crate::generate::Random;
use crate::trig;

const THIRTY_TWO: u64 = 1028 << 52;
const INFINITY: u64 = 2047 << 52;

/// A float of either sign, subnormal or zero.
fn subnormal(random: &mut Random) -> u64 {
    sign(random) | random.bits() >> (12 + random.below(52))
}

/// A multiple of P/4 of either sign, up to 32 and the next, or beside one.
fn multiple(random: &mut Random) -> u64 {
    let multiple = (within(random, 41) as f64 * (P / 4.0)).to_bits();
    let next = beside(random, multiple);
    random.pick(&[multiple, next])
}

/// The operand of sine, cosine and tangent.
pub fn angle(random: &mut Random) -> Operands {
    let x = match random.below(16) {
        0 => any(random),
        1 => {
            let end = random.pick(&[ONE, THIRTY_TWO]);
            beside(random, end) ^ sign(random)
        }
        2 | 3 => multiple(random),
        4 => subnormal(random),
        // Tiny, or of any size up to 32 and beyond.
        5 | 6 => sized(random, -60, 60),
        7..=9 => sized(random, 2, 5),
        _ => random.within(33.0).to_bits(),
    };
    [x, 0, 0]
}

/// The operands of hypot.
pub fn sides(random: &mut Random) -> Operands {
    let (x, y) = match random.below(10) {
        0 => (any(random), any(random)),
        1 => (sign(random), any(random)),
        2 => {
            let x = any(random);
            (x, beside(random, x) ^ sign(random))
        }
        // The squares or their sum overflow, or just not.
        3 => (sized(random, 511, 2), sized(random, 511, 2)),
        4 => (sized(random, 511, 2), any(random)),
        // The squares are subnormal or zero, or just not.
        5 => (sized(random, -520, 20), sized(random, -520, 20)),
        6 => (subnormal(random), subnormal(random)),
        7 => {
            // Whole sides, often with a whole result.
            let scale = 1 + random.below(1 << 20);
            let (x, y) = random.pick(&[(3, 4), (5, 12), (8, 15), (7, 24), (1, 1)]);
            let side = |n: usize| ((n * scale) as f64).to_bits();
            (
                beside(random, side(x)) ^ sign(random),
                side(y) ^ sign(random),
            )
        }
        8 => {
            // One side is far shorter.
            let short = -within(random, 60).abs();
            (sized(random, 0, 0), sized(random, short, 1))
        }
        _ => (sized(random, 0, 8), sized(random, 0, 8)),
    };
    random.pick(&[[x, y, 0], [y, x, 0]])
}

/// The operand of the arctangent.
pub fn tangent(random: &mut Random) -> Operands {
    let x = match random.below(16) {
        0 => any(random),
        1 => beside(random, ONE) ^ sign(random),
        2 => {
            let tangent = trig::tan(f64::from_bits(multiple(random)) / 4.0);
            beside(random, tangent.to_bits())
        }
        3 => multiple(random),
        4 => subnormal(random),
        5 | 6 => sized(random, -60, 60),
        7 | 8 => sized(random, 60, 60),
        // The quotient 1/|x| is subnormal, or just not.
        9 => sized(random, 1022, 1),
        _ => sized(random, 0, 4),
    };
    [x, 0, 0]
}

/// The operands of atan2, y first: in every quadrant and on every axis.
pub fn point(random: &mut Random) -> Operands {
    match random.below(16) {
        0 => [any(random), any(random), 0],
        1 => axis(random),
        2 => {
            let end = random.pick(&[0, INFINITY]);
            [end | sign(random), end | sign(random), 0]
        }
        3 | 4 => {
            // Equal magnitudes, or nearly.
            let x = match random.below(3) {
                0 => any(random),
                _ => sized(random, 0, 8),
            };
            let next = beside(random, x);
            let y = random.pick(&[x, next]);
            [y ^ sign(random), x ^ sign(random), 0]
        }
        // The quotient overflows, or just not.
        5 => [sized(random, 512, 20), sized(random, -512, 20), 0],
        6 => [sized(random, 0, 60), subnormal(random), 0],
        // The quotient is subnormal or zero, or just not.
        7 => [sized(random, -530, 30), sized(random, 520, 30), 0],
        8 => {
            // At a multiple of P/4, or beside.
            let turn = f64::from_bits(multiple(random));
            let length = f64::from_bits(sized(random, 0, 60) & !SIGN);
            let y = (length * trig::sin(turn)).to_bits();
            [beside(random, y), (length * trig::cos(turn)).to_bits(), 0]
        }
        _ => [sized(random, 0, 4), sized(random, 0, 4), 0],
    }
}

/// One of the operands of atan2 is a zero.
fn axis(random: &mut Random) -> Operands {
    let (zero, other) = (sign(random), any(random));
    random.pick(&[[zero, other, 0], [other, zero, 0]])
}

/// The operand of arccosine and arcsine.
pub fn cosine(random: &mut Random) -> Operands {
    let x = match random.below(16) {
        0 => any(random),
        1 => beside(random, ONE) ^ sign(random),
        2 => {
            // 1 less a power of two.
            let power = f64::from_bits((1022 - random.bits() % 54) << 52);
            beside(random, (1.0 - power).to_bits()) ^ sign(random)
        }
        3 => {
            let turn = f64::from_bits(multiple(random)) / 3.0;
            beside(random, trig::cos(turn).to_bits())
        }
        4 => subnormal(random),
        5 => sized(random, -60, 60),
        // Within 1, or beyond it.
        6..=9 => sized(random, -1, 3),
        _ => random.within(1.0).to_bits(),
    };
    [x, 0, 0]
}
