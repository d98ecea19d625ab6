//! Defines the OPW parameter data structure, here its signs and offsets alone

// Ported from rs-opw-kinematics at commit 76f4fe64ba, src/parameters.rs
// (BSD-3-Clause, see ../NOTICE). Bodies are word for word, except: trigonometric
// calls go to `trig`, `min`, `max`, `clamp` and `rem_euclid` of floats to `float`,
// glam's types to `glam`. Visibility is widened. Lines marked `added` are ours.

pub mod opw_kinematics {
    #[derive(Debug, Clone, Copy)]
    /// Parameters for the kinematic model of the robot.
    pub struct Parameters {
        /// Offsets applied to each joint angle to adjust the reference zero position.
        /// There are 6 values corresponding to each joint in a 6-DOF robot.
        /// Each offset must be finite and within [-2π, 2π] radians (±360°), inclusive.
        pub offsets: [f64; 6],

        /// Specifies the direction of positive rotation from the zero angle for each joint.
        /// A value of `-1` reverses the default rotation direction for that joint.
        pub sign_corrections: [i8; 6],
    }
}
