//! Glam-backed rigid pose.

// Ported from rs-opw-kinematics at commit 76f4fe64ba, src/pose.rs
// (BSD-3-Clause, see ../NOTICE). Bodies are word for word, except: trigonometric
// calls go to `trig`, `min`, `max`, `clamp` and `rem_euclid` of floats to `float`,
// glam's types to `glam`. Visibility is widened. Lines marked `added` are ours.

use crate::glam::{DQuat, DVec3};

/// Error returned by fallible pose constructors.
#[derive(Clone, Copy, Debug, Eq, PartialEq)]
pub enum PoseError {
    /// Translation contains at least one non-finite component.
    NonFiniteTranslation,
    /// Rotation contains at least one non-finite component, or normalization overflowed.
    NonFiniteRotation,
    /// Rotation quaternion has zero length.
    ZeroRotation,
}

/// Rigid f64 pose used by kinematics.
///
/// Constructors normalize `rotation`, and all pose operations assume the rotation remains a
/// finite unit quaternion. The fields are public for ergonomic access; if you mutate `rotation`
/// directly, you must keep it normalized.
#[derive(Clone, Copy, Debug, PartialEq)]
pub struct Pose {
    /// Translation component in meters.
    pub translation: DVec3,
    /// Unit quaternion rotation component.
    ///
    /// Direct mutation must preserve a finite, normalized quaternion. Use `Pose::from_parts` to
    /// construct or re-normalize a pose from raw rotation data.
    pub rotation: DQuat,
}

impl Pose {
    /// Tries to create a pose from translation and rotation.
    ///
    /// The rotation is normalized on success. Non-finite translation components and non-finite or
    /// zero-length rotations are returned as [`PoseError`] instead of panicking.
    pub fn try_from_parts(translation: DVec3, rotation: DQuat) -> Result<Self, PoseError> {
        validate_finite_dvec3(translation)?;
        Ok(Pose {
            translation,
            rotation: try_normalize_dquat(rotation)?,
        })
    }
}

pub fn try_normalize_dquat(rotation: DQuat) -> Result<DQuat, PoseError> {
    if !(rotation.x.is_finite()
        && rotation.y.is_finite()
        && rotation.z.is_finite()
        && rotation.w.is_finite())
    {
        return Err(PoseError::NonFiniteRotation);
    }

    let length = (rotation.x * rotation.x
        + rotation.y * rotation.y
        + rotation.z * rotation.z
        + rotation.w * rotation.w)
        .sqrt();

    if !length.is_finite() {
        return Err(PoseError::NonFiniteRotation);
    }
    if length <= 0.0 {
        return Err(PoseError::ZeroRotation);
    }

    Ok(DQuat::from_xyzw(
        rotation.x / length,
        rotation.y / length,
        rotation.z / length,
        rotation.w / length,
    ))
}

fn validate_finite_dvec3(vector: DVec3) -> Result<(), PoseError> {
    if vector.x.is_finite() && vector.y.is_finite() && vector.z.is_finite() {
        Ok(())
    } else {
        Err(PoseError::NonFiniteTranslation)
    }
}
