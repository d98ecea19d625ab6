//! Document 01, module 1: the float floor.
//!
//! There is one NaN, 7FF8000000000000: every pattern counts as it, and every
//! NaN result is it.

use std::cmp::Ordering;

/// The one NaN.
pub const NAN: f64 = f64::from_bits(0x7FF8000000000000);

/// P, Rust's PI.
pub const P: f64 = f64::from_bits(0x400921FB54442D18);

/// The bits of x.
pub fn bits(x: f64) -> u64 {
    if x.is_nan() {
        0x7FF8000000000000
    } else {
        x.to_bits()
    }
}

/// The float of these bits.
pub fn of_bits(bits: u64) -> f64 {
    canonical(f64::from_bits(bits))
}

/// x, or the one NaN for any NaN.
pub fn canonical(x: f64) -> f64 {
    if x.is_nan() { NAN } else { x }
}

/// |x|.
pub fn magnitude(x: f64) -> f64 {
    canonical(x.abs())
}

/// Whether the sign bit is clear; that of the one NaN is.
pub fn is_sign_positive(x: f64) -> bool {
    canonical(x).is_sign_positive()
}

/// Whether x is neither infinite nor NaN.
pub fn is_finite(x: f64) -> bool {
    x.is_finite()
}

/// The magnitude of the first with the sign of the second.
pub fn copysign(x: f64, sign: f64) -> f64 {
    canonical(x.copysign(canonical(sign)))
}

/// Whether `total_cmp` puts a before b: all -0.0 before +0.0, NaN last.
pub fn total_lt(a: f64, b: f64) -> bool {
    canonical(a).total_cmp(&canonical(b)) == Ordering::Less
}

/// The greatest whole number not above x.
pub fn floor(x: f64) -> f64 {
    canonical(x.floor())
}

/// The remainder x % m, plus |m| if it is below zero.
pub fn rem_euclid(x: f64, m: f64) -> f64 {
    let remainder = x % m;
    canonical(if remainder < 0.0 {
        remainder + m.abs()
    } else {
        remainder
    })
}

/// The lesser; beside a NaN the other operand, of equals the first.
pub fn minimum(a: f64, b: f64) -> f64 {
    if a.is_nan() {
        canonical(b)
    } else if b < a {
        b
    } else {
        a
    }
}

/// The greater; beside a NaN the other operand, of equals the first.
pub fn maximum(a: f64, b: f64) -> f64 {
    if a.is_nan() {
        canonical(b)
    } else if b > a {
        b
    } else {
        a
    }
}

/// Below -1 gives -1, above 1 gives 1, else the operand itself.
pub fn clamp(x: f64) -> f64 {
    if x < -1.0 {
        -1.0
    } else if x > 1.0 {
        1.0
    } else {
        canonical(x)
    }
}

/// a·b + c, rounded once.
pub fn mul_add(a: f64, b: f64, c: f64) -> f64 {
    canonical(a.mul_add(b, c))
}

/// The square root, rounded once.
pub fn sqrt(x: f64) -> f64 {
    canonical(x.sqrt())
}

/// What rounding took from a·b.
pub fn product_error(a: f64, b: f64) -> f64 {
    mul_add(a, b, -(a * b))
}
