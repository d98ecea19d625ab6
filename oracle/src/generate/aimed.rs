//! Requests aimed at rounding: limits that stand where a root just appears, or
//! just falls beyond an end.

use super::Random;
use super::requests::Draft;
use crate::edition::Edition;
use crate::float::{self, P};
use crate::glam::{DMat3, DQuat, DVec3};
use crate::pose::Pose;
use crate::request::{self, ARM, FROM, OFFSETS, REFERENCES, ROTATION, SIGNS, TO};
use crate::{operations, trig};

/// Moves joint 1's limits so that an end or the middle of its range stands at
/// angles of the sheet as it was: cuts then fall beside the ends of a half, and
/// by rounding beyond them.
pub fn stand_at_earlier_angles(draft: &mut Draft, random: &mut Random) {
    if random.below(4) > 0 {
        draft.put(OFFSETS, 0.0);
        draft.bytes[SIGNS] = 1;
    }
    let Ok(sampled) = operations::sampled(Edition::NEWEST, &draft.bytes) else {
        return;
    };
    if sampled.angles.len() < 3 {
        return;
    }
    let joint = draft.joint(0);
    let (one, other) = (random.pick(&sampled.angles), random.pick(&sampled.angles));
    let width = random.unit() * 3.0;
    let range = match random.below(4) {
        0 => [one.min(other), one.max(other)],
        1 => [one, one + width],
        2 => [one - width, one],
        _ => [one - width, one + width],
    };
    let [mut from, mut to] = range.map(|angle| joint.own(angle));
    if joint.sign < 0.0 {
        (from, to) = (to, from);
    }
    draft.put(FROM, from);
    draft.put(TO, to);
}

/// Moves joint 5's reference and an end of its limits to the bend that the
/// wrist just reaches: the boundary is touched there, or by rounding missed.
pub fn touch_bend(draft: &mut Draft, random: &mut Random) {
    let Some(bend) = extreme_bend(draft, random) else {
        return;
    };
    let joint = draft.joint(4);
    let bend = random.pick(&[bend, -bend, P - bend]);
    draft.put(REFERENCES + 8 * 4, joint.own(random.near(bend)));
    let end = joint.own(random.near(bend));
    let width = random.pick(&[0.5, 1.0, 0.1]);
    let [from, to] = random.pick(&[[end, end + width], [end - width, end]]);
    draft.put(FROM + 8 * 4, from);
    draft.put(TO + 8 * 4, to);
}

/// Gives the free joint a model center of P itself, not -P: wrapping it once
/// more changes it.
pub fn center_half_turn(draft: &mut Draft, random: &mut Random) {
    let joint = if draft.bytes[0] == 2 { 1 } else { 0 };
    let tolerance = random.pick(&[0.5, 0.25, 0.0078125]);
    draft.bytes[SIGNS + joint] = 1;
    draft.put(OFFSETS + 8 * joint, 2.0 * f64::EPSILON);
    draft.put(FROM + 8 * joint, P - tolerance);
    draft.put(TO + 8 * joint, P + tolerance);
}

/// The least or greatest bend of the wrist over the free angles.
fn extreme_bend(draft: &Draft, random: &mut Random) -> Option<f64> {
    let float = |position: usize| request::float_at(&draft.bytes, position);
    let [x, y, z, w] = [0, 8, 16, 24].map(|step| float(ROTATION + step));
    let pose = Pose::try_from_parts(DVec3::ZERO, DQuat::from_xyzw(x, y, z, w)).ok()?;
    let axis = DMat3::from_quat(pose.rotation).z_axis;
    let [q1, q2, q3] = [0, 8, 16].map(|step| float(ARM + step));
    let tilt = trig::atan2(trig::hypot(axis.x, axis.y), axis.z);
    Some(match draft.bytes[0] {
        1 => q2 + q3 + random.sign() * tilt,
        2 => {
            let (sine, cosine) = trig::sin_cos(q1);
            let radial = cosine * axis.x + sine * axis.y;
            trig::acos(float::clamp(trig::hypot(radial, axis.z)))
        }
        _ => tilt,
    })
}
