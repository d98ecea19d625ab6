//! Joint limit support

// Ported from rs-opw-kinematics at commit 76f4fe64ba, src/constraints.rs
// (BSD-3-Clause, see ../NOTICE). Bodies are word for word, except: trigonometric
// calls go to `trig`, `min`, `max`, `clamp` and `rem_euclid` of floats to `float`,
// glam's types to `glam`. Visibility is widened. Lines marked `added` are ours.

use crate::float;
use crate::kinematic_traits::{JOINTS_AT_ZERO, Joints};
use std::f64::consts::PI;

/// Joint limits with inclusive comparisons and no floating-point tolerance.
///
/// Exact boundary values cannot be checked reliably after floating-point
/// calculations: degree/radian conversions or forward/inverse kinematics can
/// round an angle just outside its limit, causing an otherwise compliant pose
/// to be rejected. Allow a small margin when reliable acceptance is required.
#[derive(Clone, Debug, Copy)]
pub struct Constraints {
    /// Normalized lower limit. If more than upper limit, the range wraps-around through 0
    pub from: [f64; 6],

    /// Normalized upper limit. If less than lower limit, the range wraps-around through 0
    pub to: [f64; 6],

    // Constraint centers. Used in distance from constraints based sorting.
    pub centers: [f64; 6],

    // How far from the center the value could be
    pub tolerances: [f64; 6],

    /// Used when sorting the solutions by both middle values of the constraints and the previous
    /// values of the joints. 1.0 gives the absolute priority to constraints, 0.0. gives
    /// absolute priority for joints.
    pub sorting_weight: f64,
}

const TWO_PI: f64 = 2.0 * PI;

impl Constraints {
    /// Create constraints that restrict the joint rotations between 'from' to 'to' values.
    /// Wrapping arround is supported so order is important. For instance,
    /// from = 0.1 and to = 0.2 (radians) means the joint
    /// is allowed to rotate to 0.11, 0.12 ... 1.99, 0.2.
    /// from = 0.2 ant to = 0.1 is also valid but means the joint is allowed to rotate
    /// to 0.21, 0.22, 0.99, 2 * PI or 0.0 (wrapping around), then to 0.09 and finally 0.1,
    /// so the other side of the circle. The sorting_weight parameter influences sorting of the
    /// results: 0.0 (or BY_PREV) gives absolute priority to the previous values of the joints,
    /// 1.0 (or BY_CONSTRAINTS) gives absolute priority to the middle values of constraints.
    /// Intermediate values like 0.5 provide the weighted compromise.
    pub fn new(from: Joints, to: Joints, sorting_weight: f64) -> Self {
        let (centers, tolerances) = Self::compute_centers(from, to);

        Constraints {
            from,
            to,
            centers,
            tolerances,
            sorting_weight,
        }
    }

    pub fn compute_centers(from: Joints, to: Joints) -> (Joints, Joints) {
        let mut centers: Joints = JOINTS_AT_ZERO;
        let mut tolerances: Joints = JOINTS_AT_ZERO;

        for j_idx in 0..6 {
            let a = from[j_idx];
            let b = to[j_idx];
            if !a.is_finite() || !b.is_finite() {
                // `Constraints::new` predates fallible construction. Keep invalid direct input
                // from hanging and make it reject every angle instead.
                centers[j_idx] = f64::NAN;
                tolerances[j_idx] = f64::NAN;
            } else if a == b {
                tolerances[j_idx] = f64::INFINITY; // No constraint, not checked
            } else if a < b {
                // Values do not wrap arround
                centers[j_idx] = (a + b) / 2.0;
                tolerances[j_idx] = (b - a) / 2.0;
            } else {
                // Values wrap around. Compute the forward arc in constant time: repeatedly
                // adding TWO_PI can never finish for infinities or sufficiently large values.
                let span = float::rem_euclid(
                    float::rem_euclid(b, TWO_PI) - float::rem_euclid(a, TWO_PI),
                    TWO_PI,
                );
                centers[j_idx] = a + span / 2.0;
                tolerances[j_idx] = span / 2.0;
            }
        }
        (centers, tolerances)
    }
}
