//! Document 01, module 2: trigonometry. Each operation rounds once, in the
//! order 01 gives; no product is fused with a sum.

use crate::float::{self, NAN, P, canonical};

/// 2/P.
const I: f64 = f64::from_bits(0x3FE45F306DC9C883);
/// P/2, the upper part: k·H is exact.
const H: f64 = f64::from_bits(0x3FF921FB54400000);
/// P/2, the lower part.
const L: f64 = f64::from_bits(0x3DD0B4611A626331);

/// 1/17!, -1/15! and so on, alternating, to -1/3!.
const SINE: [f64; 8] = [
    1.0 / 355687428096000.0,
    -1.0 / 1307674368000.0,
    1.0 / 6227020800.0,
    -1.0 / 39916800.0,
    1.0 / 362880.0,
    -1.0 / 5040.0,
    1.0 / 120.0,
    -1.0 / 6.0,
];

/// 1/16!, -1/14! and so on, alternating, to -1/2!.
const COSINE: [f64; 8] = [
    1.0 / 20922789888000.0,
    -1.0 / 87178291200.0,
    1.0 / 479001600.0,
    -1.0 / 3628800.0,
    1.0 / 40320.0,
    -1.0 / 720.0,
    1.0 / 24.0,
    -1.0 / 2.0,
];

/// -1/23, 1/21 and so on, alternating, to -1/3.
const ARCTANGENT: [f64; 11] = [
    -1.0 / 23.0,
    1.0 / 21.0,
    -1.0 / 19.0,
    1.0 / 17.0,
    -1.0 / 15.0,
    1.0 / 13.0,
    -1.0 / 11.0,
    1.0 / 9.0,
    -1.0 / 7.0,
    1.0 / 5.0,
    -1.0 / 3.0,
];

/// Starts at the first coefficient; then p becomes p·z + c for each other.
fn series(coefficients: &[f64], z: f64) -> f64 {
    let mut p = coefficients[0];
    for &c in &coefficients[1..] {
        p = p * z + c;
    }
    p
}

/// Sine and cosine of x for |x| ≤ 32; other x give NaN twice.
pub fn sin_cos(x: f64) -> (f64, f64) {
    if !(-32.0..=32.0).contains(&x) {
        return (NAN, NAN);
    }
    let k = (x * I + 0.5).floor();
    let r = (x - k * H) - k * L;
    let z = r * r;
    let s = r + (r * z) * series(&SINE, z);
    let w = 1.0 + z * series(&COSINE, z);
    match (k as i64).rem_euclid(4) {
        0 => (s, w),
        1 => (w, -s),
        2 => (-s, -w),
        _ => (-w, s),
    }
}

/// The first part of `sin_cos`.
pub fn sin(x: f64) -> f64 {
    sin_cos(x).0
}

/// The second part of `sin_cos`.
pub fn cos(x: f64) -> f64 {
    sin_cos(x).1
}

/// Sine over cosine.
pub fn tan(x: f64) -> f64 {
    let (s, w) = sin_cos(x);
    canonical(s / w)
}

/// sqrt(x·x + y·y).
pub fn hypot(x: f64, y: f64) -> f64 {
    float::sqrt(x * x + y * y)
}

/// The arctangent, by two halvings of the angle and a series.
pub fn atan(x: f64) -> f64 {
    if x.is_nan() {
        return NAN;
    }
    let large = x.abs() > 1.0;
    let mut a = if large { 1.0 / x.abs() } else { x.abs() };
    for _ in 0..2 {
        a = a / (1.0 + (1.0 + a * a).sqrt());
    }
    let z = a * a;
    let v = 4.0 * (a + (a * z) * series(&ARCTANGENT, z));
    let v = if large { P / 2.0 - v } else { v };
    float::copysign(v, x)
}

/// The angle of the point (x, y).
pub fn atan2(y: f64, x: f64) -> f64 {
    if y.is_nan() || x.is_nan() {
        NAN
    } else if x > 0.0 {
        atan(y / x)
    } else if x < 0.0 {
        let angle = atan(y / x);
        canonical(if y >= 0.0 { angle + P } else { angle - P })
    } else if y > 0.0 {
        P / 2.0
    } else if y < 0.0 {
        -P / 2.0
    } else {
        0.0
    }
}

/// atan2(sqrt((1 − x)·(1 + x)), x).
pub fn acos(x: f64) -> f64 {
    atan2(float::sqrt((1.0 - x) * (1.0 + x)), x)
}

/// `acos` with the arguments swapped.
pub fn asin(x: f64) -> f64 {
    atan2(x, float::sqrt((1.0 - x) * (1.0 + x)))
}
