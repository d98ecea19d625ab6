//! The few types of glam that the sampling uses, by document 01's formulas
//! (module 4). Vector steps go part by part.

use std::ops::{Add, Mul, Neg, Sub};

/// A vector of three floats.
#[derive(Clone, Copy, Debug, PartialEq)]
pub struct DVec3 {
    pub x: f64,
    pub y: f64,
    pub z: f64,
}

impl DVec3 {
    pub const ZERO: Self = Self::new(0.0, 0.0, 0.0);
    pub const X: Self = Self::new(1.0, 0.0, 0.0);
    pub const Y: Self = Self::new(0.0, 1.0, 0.0);
    pub const Z: Self = Self::new(0.0, 0.0, 1.0);

    pub const fn new(x: f64, y: f64, z: f64) -> Self {
        Self { x, y, z }
    }

    /// (ax·bx + ay·by) + az·bz.
    pub fn dot(self, other: Self) -> f64 {
        (self.x * other.x + self.y * other.y) + self.z * other.z
    }

    /// The square root of the dot product with itself.
    pub fn length(self) -> f64 {
        self.dot(self).sqrt()
    }
}

impl Add for DVec3 {
    type Output = Self;

    fn add(self, other: Self) -> Self {
        Self::new(self.x + other.x, self.y + other.y, self.z + other.z)
    }
}

impl Sub for DVec3 {
    type Output = Self;

    fn sub(self, other: Self) -> Self {
        Self::new(self.x - other.x, self.y - other.y, self.z - other.z)
    }
}

impl Mul<f64> for DVec3 {
    type Output = Self;

    fn mul(self, factor: f64) -> Self {
        Self::new(self.x * factor, self.y * factor, self.z * factor)
    }
}

impl Neg for DVec3 {
    type Output = Self;

    fn neg(self) -> Self {
        Self::new(-self.x, -self.y, -self.z)
    }
}

/// A quaternion.
#[derive(Clone, Copy, Debug, PartialEq)]
pub struct DQuat {
    pub x: f64,
    pub y: f64,
    pub z: f64,
    pub w: f64,
}

impl DQuat {
    pub const fn from_xyzw(x: f64, y: f64, z: f64, w: f64) -> Self {
        Self { x, y, z, w }
    }
}

/// A matrix by its columns.
#[derive(Clone, Copy, Debug, PartialEq)]
pub struct DMat3 {
    pub x_axis: DVec3,
    pub y_axis: DVec3,
    pub z_axis: DVec3,
}

impl DMat3 {
    /// The rotation of a normalized quaternion, with X = x + x and so on.
    pub fn from_quat(rotation: DQuat) -> Self {
        let DQuat { x, y, z, w } = rotation;
        let (x2, y2, z2) = (x + x, y + y, z + z);
        let (xx, xy, xz) = (x * x2, x * y2, x * z2);
        let (yy, yz, zz) = (y * y2, y * z2, z * z2);
        let (wx, wy, wz) = (w * x2, w * y2, w * z2);
        Self {
            x_axis: DVec3::new(1.0 - (yy + zz), xy + wz, xz - wy),
            y_axis: DVec3::new(xy - wz, 1.0 - (xx + zz), yz + wx),
            z_axis: DVec3::new(xz + wy, yz - wx, 1.0 - (xx + yy)),
        }
    }
}
