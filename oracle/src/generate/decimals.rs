//! Calls for the decimals of an angle: ties at the ninth decimal and floats beside
//! them, the ends of the columns, what rounds to zero, and what is not finite.

use super::{Random, floats, power};
use crate::page::COLUMNS;

/// A call: the float's bits and the bytes of the text.
#[derive(Clone, Debug)]
pub struct Call {
    pub x: u64,
    pub text: usize,
}

/// One call, mostly with room enough.
pub fn call(seed: u64, index: u64) -> Call {
    let random = &mut Random::new(seed, index);
    let x = float(random);
    let text = match random.below(12) {
        0 => COLUMNS - 1,
        1 => random.below(COLUMNS),
        2..6 => COLUMNS + random.below(16),
        _ => COLUMNS,
    };
    Call { x, text }
}

/// A float of any sort, by its bits.
pub fn float(random: &mut Random) -> u64 {
    let x = match random.below(12) {
        0 => return random.bits(),
        1 => return floats::float(random),
        2 => return not_finite(random),
        3 | 4 => random.within(7.0),
        5 => (1.0 + random.unit()) * power(2.0, random.below(110) as i32 - 60),
        6 => tie(random),
        7 => beside_tie(random),
        8 => beside_step(random),
        9 | 10 => end_of_columns(random),
        _ => tiny(random),
    };
    (random.sign() * x).to_bits()
}

/// An infinity, or a NaN of any payload, of either sign.
fn not_finite(random: &mut Random) -> u64 {
    let payload = random.bits() >> (12 + random.below(52));
    let payload = random.pick(&[0, 1, 1 << 51, payload]);
    random.bits() & 1 << 63 | 0x7FF << 52 | payload
}

/// A tie, or one step beside: x·10^9 lies midway between two whole numbers for odd
/// multiples of 2^-10 and no other float.
fn tie(random: &mut Random) -> f64 {
    let most = random.pick(&[30, 30, 30, 53]);
    let bits = 1 + random.below(most);
    let odd = random.bits() >> (64 - bits) | 1;
    let tie = odd as f64 / 1024.0;
    random.pick(&[tie, tie, tie.next_up(), tie.next_down()])
}

/// 5^9, by which odd numbers are divided modulo a power of 2.
const FIVES: u64 = 1953125;

/// The number whose product with 5^9 is 1 modulo 2^64. Each step doubles the
/// right low bits, of which 5^9 itself has three.
const INVERSE: u64 = {
    let (mut inverse, mut step) = (FIVES, 0);
    while step < 5 {
        let error = 2u64.wrapping_sub(inverse.wrapping_mul(FIVES));
        inverse = inverse.wrapping_mul(error);
        step += 1;
    }
    inverse
};

/// m·2^-(k + 9), so that x·10^9 is m·5^9 / 2^k, whose fraction is chosen: as close
/// to a half as k bits allow, or to a whole number.
fn beside_tie(random: &mut Random) -> f64 {
    let k = 3 + random.below(51);
    let half = random.pick(&[1 << (k - 1), 1 << (k - 1), 0]);
    let fraction = (half + 3 - random.below(7) as i64) as u64;
    let low = fraction.wrapping_mul(INVERSE) & ((1 << k) - 1);
    let high = random.below(1 << (53 - k).min(29)) as u64;
    (high << k | low) as f64 * power(2.0, -9 - k as i32)
}

/// A float beside a half or a whole number of steps of the ninth decimal.
fn beside_step(random: &mut Random) -> f64 {
    let steps = (random.bits() >> (14 + random.below(50))) as f64;
    let x = (steps + random.pick(&[0.0, 0.5])) / 1.0e9;
    random.near(x)
}

/// A float about which rounding makes the number one digit longer: 999999.9999999995
/// and, below 0, 99999.9999999995 are then too long.
fn end_of_columns(random: &mut Random) -> f64 {
    let digits = match random.below(4) {
        0 => random.below(8),
        1 => 5,
        _ => 6,
    };
    let below = random.pick(&[5.0e-10, 5.0e-10, 1.5e-9, 0.0]);
    let end = random.near(power(10.0, digits as i32) - below);
    random.near(end)
}

/// A zero, a subnormal, or what rounds to zero or to the first step.
fn tiny(random: &mut Random) -> f64 {
    match random.below(4) {
        0 => random.pick(&[0.0, 5.0e-324, f64::MIN_POSITIVE]),
        1 => f64::from_bits(random.bits() >> (12 + random.below(52))),
        2 => random.near(5.0e-10),
        _ => random.decimal(-320, -9),
    }
}
