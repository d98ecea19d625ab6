//! Operands of the float floor's functions, by bits: random ones, a share of
//! edge values in every position, and for each function those at which its
//! result changes.

use crate::generate::Random;

/// Up to three operands; the unused ones are 0.
pub type Operands = [u64; 3];

pub(super) const SIGN: u64 = 1 << 63;
const DIGITS: u64 = (1 << 52) - 1;
pub(super) const ONE: u64 = 1023 << 52;

/// Magnitudes at which something changes.
const EDGES: [u64; 24] = [
    0x0000000000000000, // 0
    0x0000000000000001, // the least subnormal
    0x0008000000000000,
    0x000FFFFFFFFFFFFF, // the greatest subnormal
    0x0010000000000000, // the least normal
    0x0370000000000000, // 2^-968, below which an error of a product is not exact
    0x26F0000000000000, // 2^-400
    0x3CA0000000000000, // 2^-53
    0x3CB0000000000000, // 2^-52
    0x3FE0000000000000, // 1/2
    0x3FF0000000000000, // 1
    0x4000000000000000, // 2
    0x400921FB54442D18, // P
    0x401921FB54442D18, // 2P
    0x41A0000002000000, // 2^27 + 1
    0x4330000000000000, // 2^52
    0x4340000000000000, // 2^53
    0x43E0000000000000, // 2^63
    0x43F0000000000000, // 2^64
    0x58F0000000000000, // 2^400
    0x5FE0000000000000, // 2^511
    0x7FD0000000000000, // 2^1022
    0x7FEFFFFFFFFFFFFF, // the greatest
    0x7FF0000000000000, // infinity
];

/// Patterns of NaN: quiet and signalling, of either sign, with payloads.
const NANS: [u64; 6] = [
    0x7FF8000000000000,
    0xFFF8000000000000,
    0x7FF0000000000001,
    0xFFF0000000000001,
    0x7FFFFFFFFFFFFFFF,
    0xFFF4DEADBEEF0123,
];

pub(super) fn sign(random: &mut Random) -> u64 {
    random.bits() & SIGN
}

/// A whole number from minus to plus the radius.
pub(super) fn within(random: &mut Random, radius: i64) -> i64 {
    (random.bits() % (2 * radius as u64 + 1)) as i64 - radius
}

/// The float of these bits, or one a few places beside it.
pub(super) fn beside(random: &mut Random, bits: u64) -> u64 {
    bits.wrapping_add_signed(within(random, 3))
}

/// 52 digits: any, few or nearly all of them set.
fn digits(random: &mut Random) -> u64 {
    let any = random.bits() & DIGITS;
    match random.below(8) {
        0 => 0,
        1 => DIGITS,
        2 => any & random.bits() & random.bits(),
        3 => (any | random.bits() | random.bits()) & DIGITS,
        4 => 1 << random.below(52),
        5 => DIGITS - (1 << random.below(52)),
        _ => any,
    }
}

/// A float of either sign, its exponent within a radius of the middle.
pub(super) fn sized(random: &mut Random, middle: i64, radius: i64) -> u64 {
    let exponent = (middle + within(random, radius) + 1023).clamp(0, 2046) as u64;
    sign(random) | exponent << 52 | digits(random)
}

/// An edge value, or one a few places beside it.
pub fn edge(random: &mut Random) -> u64 {
    let edge = random.pick(&EDGES);
    match random.below(8) {
        0 => random.pick(&NANS),
        1 => 0x7FF0000000000000 | sign(random),
        2 => sign(random),
        3 | 4 => beside(random, edge) ^ sign(random),
        _ => edge | sign(random),
    }
}

/// Any float.
pub(super) fn any(random: &mut Random) -> u64 {
    match random.below(10) {
        0 | 1 => random.bits(),
        2 | 3 => edge(random),
        4 => {
            // A power of two, or a few places beside.
            let power = (random.bits() % 2047) << 52;
            beside(random, power) ^ sign(random)
        }
        5 => sign(random) | random.bits() >> (12 + random.below(52)),
        6 => {
            let middle = random.pick(&[-400, 400]);
            sized(random, middle, 1)
        }
        _ => sized(random, 0, 60),
    }
}

/// An operand of a function of one.
pub fn one(random: &mut Random) -> Operands {
    [any(random), 0, 0]
}

/// Two operands, often close, equal or opposite.
pub fn two(random: &mut Random) -> Operands {
    let x = any(random);
    let y = match random.below(4) {
        0 => x ^ sign(random),
        1 => beside(random, x) ^ sign(random),
        _ => any(random),
    };
    [x, y, 0]
}

/// A dividend, often near a whole multiple, and a divisor.
pub fn rem_euclid(random: &mut Random) -> Operands {
    let m = match random.below(4) {
        0 => random.pick(&[0x400921FB54442D18, 0x401921FB54442D18, ONE]) ^ sign(random),
        1 => sized(random, 0, 8),
        _ => any(random),
    };
    let x = match random.below(4) {
        0 => {
            let multiple = f64::from_bits(m) * within(random, 1000) as f64;
            beside(random, multiple.to_bits())
        }
        1 => sized(random, 4, 8),
        _ => any(random),
    };
    [x, m, 0]
}

/// An operand of the clamp to -1 and 1.
pub fn clamp(random: &mut Random) -> Operands {
    let x = match random.below(4) {
        0 => beside(random, ONE) ^ sign(random),
        1 => sized(random, 0, 3),
        _ => any(random),
    };
    [x, 0, 0]
}

/// An operand of the floor: often a whole number or beside one.
pub fn floor(random: &mut Random) -> Operands {
    let x = match random.below(6) {
        0 => {
            let whole = (random.bits() >> random.below(64)) as f64;
            beside(random, whole.to_bits()) ^ sign(random)
        }
        1 => (within(random, 1000) as f64 * 0.5).to_bits(),
        2 => sized(random, 30, 33),
        3 => sized(random, 63, 1),
        _ => any(random),
    };
    [x, 0, 0]
}

/// Operands of the fused product.
pub fn mul_add(random: &mut Random) -> Operands {
    match random.below(10) {
        0 => [any(random), any(random), any(random)],
        1 => cancelling(random),
        2 => overlapping(random),
        3 | 4 => halfway(random),
        5 => {
            // The result is subnormal, or just not.
            let (a, b) = (sized(random, -520, 20), sized(random, -530, 20));
            let c = match random.below(3) {
                0 => sign(random),
                1 => sign(random) | random.bits() >> (12 + random.below(52)),
                _ => sized(random, -1030, 30),
            };
            [a, b, c]
        }
        6 => {
            // The result overflows, or just not.
            let (a, b) = (sized(random, 511, 2), sized(random, 512, 2));
            [a, b, sized(random, 1000, 60)]
        }
        7 => zeros(random),
        _ => [
            sized(random, 0, 40),
            sized(random, 0, 40),
            sized(random, 0, 80),
        ],
    }
}

/// The product nearly takes the addend away, or wholly.
fn cancelling(random: &mut Random) -> Operands {
    let (a, b) = match random.below(3) {
        0 => (any(random), any(random)),
        1 => (sized(random, -510, 30), sized(random, -500, 30)),
        _ => (sized(random, 0, 60), sized(random, 0, 60)),
    };
    let product = -(f64::from_bits(a) * f64::from_bits(b));
    [a, b, beside(random, product.to_bits())]
}

/// The addend's digits begin within 120 places of the product's.
fn overlapping(random: &mut Random) -> Operands {
    let (a, b) = (any(random), any(random));
    let product = (f64::from_bits(a) * f64::from_bits(b)).to_bits();
    let exponent = (product >> 52 & 0x7FF) as i64 - 1023;
    [a, b, sized(random, exponent, 120)]
}

/// The exact value lies midway between two floats, or hardly beside.
fn halfway(random: &mut Random) -> Operands {
    let scale = within(random, 400);
    let near = |random: &mut Random, below: i64| match random.below(4) {
        0 => 0,
        1 => SIGN,
        2 => sized(random, scale + below - 300, 300),
        _ => sized(random, scale + below, 2),
    };
    if random.once_in(2) {
        // A product of 54 digits, the last of them 1.
        let a = (random.bits() >> 37 | 0x6000000 | 1) as f64;
        let b = (random.bits() >> 37 | 0x6000000 | 1) as f64;
        let scaled = f64::from_bits(((1023 + scale) as u64) << 52);
        let c = near(random, -2);
        [
            (a * scaled).to_bits() ^ sign(random),
            b.to_bits() ^ sign(random),
            c,
        ]
    } else {
        // A float times a power of two, and half of its last place.
        let a = sized(random, scale, 0);
        let power = within(random, 200);
        let half = ((1023 + scale + power - 53).clamp(1, 2046) as u64) << 52;
        let c = beside(random, half) ^ sign(random);
        [
            a,
            ((1023 + power) as u64) << 52,
            random.pick(&[half | SIGN, half, c]),
        ]
    }
}

/// A factor is zero.
fn zeros(random: &mut Random) -> Operands {
    let (zero, other) = (sign(random), any(random));
    let c = match random.below(3) {
        0 => sign(random),
        _ => any(random),
    };
    random.pick(&[[zero, other, c], [other, zero, c]])
}

/// An operand of the square root: mostly no negative one, often a square.
pub fn sqrt(random: &mut Random) -> Operands {
    let x = match random.below(8) {
        0 => any(random),
        1 => any(random) & !SIGN,
        2 | 3 => {
            // The square of a whole number times a power of 4, or beside.
            let root = (random.bits() >> (38 + random.below(24))) as f64;
            let scale = f64::from_bits(((1023 + 2 * within(random, 480)) as u64) << 52);
            let square = (root * root * scale).to_bits();
            let next = beside(random, square);
            random.pick(&[square, next])
        }
        4 | 5 => {
            // The square of a float, or of a point midway, rounded, or beside.
            let root = f64::from_bits(sized(random, 0, 500) & !SIGN);
            let midway = root * root + root * (root.next_up() - root);
            let square = random.pick(&[root * root, midway]);
            beside(random, square.to_bits())
        }
        6 => random.bits() >> (12 + random.below(52)),
        _ => sized(random, 0, 1022) & !SIGN,
    };
    [x, 0, 0]
}

/// Operands of the error of a product.
pub fn product_error(random: &mut Random) -> Operands {
    let (a, b) = match random.below(8) {
        0 => (any(random), any(random)),
        1 => (sized(random, -400, 1), any(random)),
        2 => (sized(random, 400, 1), any(random)),
        3 => (sized(random, 400, 1), sized(random, -400, 1)),
        // The product or its error is subnormal, or just not.
        4 => (sized(random, -500, 30), sized(random, -500, 30)),
        5 => (sized(random, -400, 60), sized(random, -560, 60)),
        6 => (sized(random, 511, 3), sized(random, 511, 3)),
        _ => (sized(random, 0, 60), sized(random, 0, 60)),
    };
    random.pick(&[[a, b, 0], [b, a, 0]])
}
