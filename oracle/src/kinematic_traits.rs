//! Defines traits for direct and inverse kinematics.

// Ported from rs-opw-kinematics at commit 76f4fe64ba, src/kinematic_traits.rs
// (BSD-3-Clause, see ../NOTICE). Bodies are word for word, except: trigonometric
// calls go to `trig`, `min`, `max`, `clamp` and `rem_euclid` of floats to `float`,
// glam's types to `glam`. Visibility is widened. Lines marked `added` are ours.

use crate::constraints::Constraints;

/// Pose of the robot TCP. It contains a Cartesian position and a unit rotation quaternion.
pub use crate::pose::Pose;

/// Six rotary joints of the robot with angles in radians.
pub type Joints = [f64; 6];

/// For providing singularity - proof solution when the previous value is not known.
pub const JOINTS_AT_ZERO: Joints = [0.0, 0.0, 0.0, 0.0, 0.0, 0.0];

/// Defines agreed functionality of direct and inverse kinematics.
pub trait Kinematics: Send + Sync {
    /// Returns constraints under what the solver is operating.
    fn constraints(&self) -> &Option<Constraints>;
}
