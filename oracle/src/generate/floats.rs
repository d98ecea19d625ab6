//! Single floats, triples for the fused product, arguments of the square root.

use super::Random;
use crate::float::P;

/// Patterns of NaN: quiet, signalling, of either sign, with payloads.
pub const NAN_PATTERNS: [u64; 6] = [
    0x7FF8000000000000,
    0xFFF8000000000000,
    0x7FF0000000000001,
    0xFFF0000000000001,
    0x7FFFFFFFFFFFFFFF,
    0x7FF4DEADBEEF0123,
];

/// Values at which something changes.
const EDGES: [f64; 15] = [
    0.0,
    1.0,
    0.5,
    2.0,
    4.0,
    8.0,
    32.0,
    P,
    2.0 * P,
    f64::INFINITY,
    f64::MAX,
    f64::MIN_POSITIVE,
    5.0e-324,
    1.0e-4,
    f64::EPSILON,
];

/// Floats of any sort, by their bits.
pub fn floats(seed: u64, count: usize) -> Vec<u64> {
    (0..count)
        .map(|index| float(&mut Random::new(seed, index as u64)))
        .collect()
}

/// A float of any sort.
pub fn float(random: &mut Random) -> u64 {
    let sign = random.sign();
    match random.below(10) {
        0 => random.bits(),
        1 => random.pick(&NAN_PATTERNS),
        2 | 3 => {
            let edge = random.pick(&EDGES);
            (sign * random.near(edge)).to_bits()
        }
        4 => {
            let eighth = random.below(44) as f64 * (P / 4.0);
            (sign * random.near(eighth)).to_bits()
        }
        5 => {
            let power = f64::from_bits((1 + random.below(2046) as u64) << 52);
            (sign * random.near(power)).to_bits()
        }
        6 => (sign * f64::from_bits(random.bits() >> 12)).to_bits(),
        7 => random.within(1.0).to_bits(),
        _ => random.within(34.0).to_bits(),
    }
}

/// An infinity or a NaN.
pub fn not_finite(random: &mut Random) -> f64 {
    let infinity = random.pick(&[f64::INFINITY, f64::NEG_INFINITY]);
    let nan = f64::from_bits(random.pick(&NAN_PATTERNS));
    random.pick(&[infinity, nan])
}

/// Operands of the fused product, by their bits.
pub fn fma_triples(seed: u64, count: usize) -> Vec<[u64; 3]> {
    (0..count)
        .map(|index| fma_triple(&mut Random::new(seed, index as u64)))
        .collect()
}

/// A float of random significand, exponent within a radius of the middle.
fn of_exponent(random: &mut Random, middle: i64, radius: u64) -> f64 {
    let exponent = middle - radius as i64 + (random.bits() % (2 * radius + 1)) as i64;
    let exponent = (exponent + 1023).clamp(0, 2046) as u64;
    f64::from_bits((random.bits() & 0x800FFFFFFFFFFFFF) | exponent << 52)
}

/// Operands of a fused product of any sort.
pub fn fma_triple(random: &mut Random) -> [u64; 3] {
    let floats = match random.below(10) {
        0 => return [random.bits(), random.bits(), random.bits()],
        1 => return [float(random), float(random), float(random)],
        2 => halfway(random),
        3 => {
            // The result is subnormal or just above.
            let (a, b) = (of_exponent(random, -500, 40), of_exponent(random, -550, 40));
            [a, b, of_exponent(random, -1040, 30)]
        }
        4 => {
            // The result overflows, or just not.
            let (a, b) = (of_exponent(random, 512, 2), of_exponent(random, 511, 2));
            [a, b, of_exponent(random, 1021, 3)]
        }
        5 => cancelling(random, 0, 60),
        6 => cancelling(random, -530, 20),
        7 => {
            let zero = random.pick(&[0.0, -0.0]);
            let other = of_exponent(random, 0, 900);
            let sum = random.pick(&[0.0, -0.0, other]);
            random.pick(&[[zero, other, sum], [other, zero, sum]])
        }
        _ => [
            of_exponent(random, 0, 40),
            of_exponent(random, 0, 40),
            of_exponent(random, 0, 80),
        ],
    };
    floats.map(f64::to_bits)
}

/// a·b nearly takes c away.
fn cancelling(random: &mut Random, middle: i64, radius: u64) -> [f64; 3] {
    let (a, b) = (
        of_exponent(random, middle, radius),
        of_exponent(random, middle, radius),
    );
    let product = -(a * b);
    let c = random.pick(&[
        product,
        product.next_up(),
        product.next_down(),
        product / 2.0,
    ]);
    [a, b, c]
}

/// a·b lies midway between two floats, or a step beside, and c is small.
fn halfway(random: &mut Random) -> [f64; 3] {
    let a = 1.0 + (random.bits() >> 38) as f64 / 67108864.0;
    let b = 1.0 + ((random.bits() >> 37) | 1) as f64 / 134217728.0;
    let tiny = of_exponent(random, -200, 180);
    let c = random.pick(&[0.0, -0.0, tiny, -tiny, 1.0, -1.0, a, b]);
    let scale = f64::from_bits(((1023 + random.below(400) as u64) - 200) << 52);
    [random.sign() * a * scale, b, c * scale]
}

/// Arguments of the square root, by their bits.
pub fn sqrt_arguments(seed: u64, count: usize) -> Vec<u64> {
    (0..count)
        .map(|index| sqrt_argument(&mut Random::new(seed, index as u64)))
        .collect()
}

/// An argument of the square root of any sort.
pub fn sqrt_argument(random: &mut Random) -> u64 {
    let argument = match random.below(6) {
        0 => return random.bits(),
        1 => return float(random),
        2 => {
            // A perfect square, or a step beside.
            let root = (random.bits() >> 38) as f64;
            let scale = f64::from_bits((1023 - 400 + 2 * (random.bits() % 400)) << 52);
            random.near(root * root * scale)
        }
        3 => {
            // The square of a float or of a point midway, rounded, or a step beside.
            let root = of_exponent(random, 0, 500);
            let square = root * root + root * (root.next_up() - root);
            random.near(random.clone().pick(&[root * root, square]))
        }
        4 => f64::from_bits(random.bits() >> (12 + random.below(50))),
        _ => of_exponent(random, 0, 1000).abs(),
    };
    argument.to_bits()
}
