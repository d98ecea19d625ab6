//! Module 4's functions by name: on words, a float by its bits, with every
//! number of the answer in its place.

use crate::constraints::Constraints;
use crate::float;
use crate::generate::{Random, parts};
use crate::glam::{DMat3, DQuat};
use crate::kinematic_traits::{JOINTS_AT_ZERO, Joints};
use crate::kinematics_impl::{OPWKinematics, wrist_limit_intervals};
use crate::parameters::opw_kinematics::Parameters;
use crate::pose::{PoseError, try_normalize_dquat};
use crate::singularity::j1j2free;

/// Up to six operands; the unused ones are 0.
pub type Operands = [u64; 6];

/// A function of module 4, as samples and differential runs see it.
pub struct Part {
    pub name: &'static str,
    /// What a stored sample begins with.
    pub letter: char,
    /// How many operands it has.
    pub count: usize,
    pub operands: fn(&mut Random) -> Operands,
    /// Every number of the answer, by its place.
    pub answer: fn(Operands) -> Vec<u64>,
}

/// All of them, in the order in which they are reported.
pub const PARTS: [Part; 4] = [
    Part {
        name: "center",
        letter: 'C',
        count: 2,
        operands: parts::center,
        answer: center,
    },
    Part {
        name: "limits",
        letter: 'L',
        count: 6,
        operands: parts::limits,
        answer: limits,
    },
    Part {
        name: "interval",
        letter: 'I',
        count: 4,
        operands: parts::interval,
        answer: interval,
    },
    Part {
        name: "pose",
        letter: 'P',
        count: 4,
        operands: parts::pose,
        answer: pose,
    },
];

/// Six joints of which the first has this angle.
fn first(angle: u64) -> Joints {
    let mut joints = JOINTS_AT_ZERO;
    joints[0] = float::of_bits(angle);
    joints
}

/// Whether there is an interval, and its ends.
fn ends(range: Option<[f64; 2]>) -> [u64; 3] {
    match range {
        Some([lower, upper]) => [1, float::bits(lower), float::bits(upper)],
        None => [0; 3],
    }
}

/// The centre and the tolerance of the limits.
fn center([from, to, ..]: Operands) -> Vec<u64> {
    let (centers, tolerances) = Constraints::compute_centers(first(from), first(to));
    vec![float::bits(centers[0]), float::bits(tolerances[0])]
}

/// The interval of a joint's model angle; its sign is 1 or -1.
fn limits([limited, sign, offset, reference, from, to]: Operands) -> Vec<u64> {
    let sign = if f64::from_bits(sign) < 0.0 { -1 } else { 1 };
    let parameters = Parameters {
        offsets: first(offset),
        sign_corrections: [sign; 6],
    };
    let constraints = (limited != 0).then(|| Constraints::new(first(from), first(to), 0.0));
    let robot = OPWKinematics::of(parameters, constraints);
    ends(j1j2free::limits(&robot, 0, &first(reference))).to_vec()
}

/// The three intervals of allowed displacements. The iterator leaves those out
/// that are none; how many it may still give tells which one it gave.
fn interval([center, tolerance, reference, sign, ..]: Operands) -> Vec<u64> {
    let of = float::of_bits;
    let mut three = [None; 3];
    let mut given = wrist_limit_intervals(of(center), of(tolerance), of(reference), of(sign));
    while let Some((lower, upper)) = given.next() {
        let left = given.size_hint().1.expect("three at most");
        three[2 - left] = Some([lower, upper]);
    }
    three.into_iter().flat_map(ends).collect()
}

/// Whether a quaternion can be normalized, its normalized parts, and its matrix
/// by columns.
fn pose([x, y, z, w, ..]: Operands) -> Vec<u64> {
    let [x, y, z, w] = [x, y, z, w].map(float::of_bits);
    let mut numbers = vec![0; 14];
    match try_normalize_dquat(DQuat::from_xyzw(x, y, z, w)) {
        Err(PoseError::ZeroRotation) => numbers[0] = 1,
        Err(_) => {}
        Ok(unit) => {
            let DMat3 {
                x_axis: a,
                y_axis: b,
                z_axis: c,
            } = DMat3::from_quat(unit);
            let floats = [
                unit.x, unit.y, unit.z, unit.w, a.x, a.y, a.z, b.x, b.y, b.z, c.x, c.y, c.z,
            ];
            numbers[0] = 2;
            numbers[1..].copy_from_slice(&floats.map(float::bits));
        }
    }
    numbers
}
