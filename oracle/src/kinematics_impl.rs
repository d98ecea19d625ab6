//! The parts of the kinematics that the sampling needs.

// Ported from rs-opw-kinematics at commit 76f4fe64ba, src/kinematics_impl.rs
// (BSD-3-Clause, see ../NOTICE). Bodies are word for word, except: trigonometric
// calls go to `trig`, `min`, `max`, `clamp` and `rem_euclid` of floats to `float`,
// glam's types to `glam`. Visibility is widened. Lines marked `added` are ours.

use crate::constraints::Constraints;
use crate::float;
use crate::kinematic_traits::Kinematics;
use crate::parameters::opw_kinematics::Parameters;
use std::f64::consts::PI;

#[derive(Debug, Copy, Clone)]
pub struct OPWKinematics {
    /// The parameters that were used to construct this solver.
    pub parameters: Parameters,
    constraints: Option<Constraints>,
}

impl OPWKinematics {
    // added: a robot of these parameters; refusal 8 asks for its offsets.
    pub fn of(parameters: Parameters, constraints: Option<Constraints>) -> Self {
        Self {
            parameters,
            constraints,
        }
    }
}

impl Kinematics for OPWKinematics {
    fn constraints(&self) -> &Option<Constraints> {
        &self.constraints
    }
}

#[derive(Clone, Copy, Debug)]
pub struct ArmBranch {
    pub q1: f64,
    pub q2: f64,
    pub q3: f64,
}

pub fn wrapped_angle(angle: f64) -> f64 {
    float::rem_euclid(angle + PI, 2.0 * PI) - PI
}

/// Allowed displacements from a reference, bounded to the nearest full turn.
/// A circular range may cross the +/-pi cut, so include its neighboring copies.
pub fn wrist_limit_intervals(
    center: f64,
    tolerance: f64,
    reference: f64,
    sign: f64,
) -> impl Iterator<Item = (f64, f64)> + Clone {
    let (center, tolerance) = if tolerance >= PI {
        // Includes the infinite tolerance used for an unconstrained joint.
        (0.0, PI)
    } else {
        (
            wrapped_angle(sign * (wrapped_angle(center) - reference)),
            tolerance,
        )
    };
    [-2.0 * PI, 0.0, 2.0 * PI]
        .into_iter()
        .filter_map(move |shift| {
            let lower = float::maximum(center + shift - tolerance, -PI);
            let upper = float::minimum(center + shift + tolerance, PI);
            (center.is_finite() && tolerance >= 0.0 && lower <= upper).then_some((lower, upper))
        })
}
