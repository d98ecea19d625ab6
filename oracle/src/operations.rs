//! Document 01, operations and their refusals, with the editions of change
//! request 2. An answer is the count, or minus the refusal's number.

use crate::constraints::Constraints;
use crate::edition::{Edition, TRAILER};
use crate::float::{self, P};
use crate::glam::{DQuat, DVec3};
use crate::kinematics_impl::{ArmBranch, OPWKinematics};
use crate::observe::{self, Notes};
use crate::parameters::opw_kinematics::Parameters;
use crate::pose::{Pose, PoseError};
use crate::request::{self, Reads, Request};
use crate::singularity::j1j2free::{self, Compensated, Polynomial};
use crate::singularity::{j1free, j2free};
use crate::touching::{Root, marked_roots};

/// The work places that a program lends.
pub const PROGRAM_WORK: usize = 4096;
/// The longest sheet that a program takes or makes.
pub const PROGRAM_INPUT: usize = 65536;

/// Angles of a request, and what was noted while they were found.
#[derive(Clone, Debug)]
pub struct Sampled {
    pub angles: Vec<f64>,
    pub notes: Notes,
}

/// Refusals 2 to 8 and 41, or the fields with the normalized pose.
fn accepted(bytes: &[u8]) -> Result<(Request, Pose), i64> {
    if !request::head_is_right(bytes) {
        return Err(2);
    }
    let fields = request::fields(bytes);
    let reads = Reads::of(bytes[0], bytes[1], bytes[2]);
    // Whether a float that is read fails the test.
    let fails = |reads: &[bool], floats: &[f64], test: fn(f64) -> bool| {
        std::iter::zip(reads, floats).any(|(&read, &float)| read && !test(float))
    };
    let sign_fails = std::iter::zip(reads.signs, fields.signs)
        .any(|(read, sign)| read && sign != 1 && sign != 255);
    if !request::name_is_right(bytes) {
        return Err(41);
    }
    if sign_fails {
        return Err(3);
    }
    let [x, y, z, w] = fields.rotation;
    let pose = match Pose::try_from_parts(DVec3::ZERO, DQuat::from_xyzw(x, y, z, w)) {
        Ok(pose) => pose,
        Err(PoseError::ZeroRotation) => return Err(5),
        Err(_) => return Err(4),
    };
    if fails(&reads.arm, &fields.arm, |angle| {
        (-8.0..=8.0).contains(&angle)
    }) {
        return Err(6);
    }
    if fails(&reads.references, &fields.references, f64::is_finite) {
        return Err(7);
    }
    if fails(&reads.signs, &fields.offsets, |offset| {
        (-2.0 * P..=2.0 * P).contains(&offset)
    }) {
        return Err(8);
    }
    Ok((fields, pose))
}

/// The angles of accepted fields, every field as given, and the notes.
fn angles(fields: &Request, pose: &Pose) -> Sampled {
    let parameters = Parameters {
        offsets: fields.offsets,
        sign_corrections: fields.signs.map(|sign| sign as i8),
    };
    let constraints = fields
        .limits
        .then(|| Constraints::new(fields.from, fields.to, 0.0));
    let robot = OPWKinematics::of(parameters, constraints);
    let [q1, q2, q3] = fields.arm;
    let arm = ArmBranch { q1, q2, q3 };
    let reference = &fields.references;
    let fixed = fields.fixed.then_some(0.0);
    observe::reset();
    let angles = match fields.kind {
        1 => j1free::search(&robot, pose, arm, reference, fixed)
            .iter()
            .map(|arm| arm.q1)
            .collect(),
        2 => j2free::search(&robot, pose, arm, reference, fixed)
            .iter()
            .map(|arm| arm.q2)
            .collect(),
        _ => j1j2free::search(&robot, pose, q3, reference, fixed),
    };
    Sampled {
        angles,
        notes: observe::notes(),
    }
}

/// Refusals 1 to 8 and 41 of an edition, or the angles, for which no inner call of
/// the root finder would be refused (change request 5).
pub fn sampled(edition: Edition, bytes: &[u8]) -> Result<Sampled, i64> {
    if bytes.len() != edition.request_size() {
        return Err(1);
    }
    let (fields, pose) = accepted(bytes)?;
    let sampled = angles(&fields, &pose);
    debug_assert_eq!(sampled.notes.inner.refused, 0);
    Ok(sampled)
}

/// The sheet that an edition lays out for a request and its angles.
pub fn laid_out(edition: Edition, bytes: &[u8], angles: &[f64]) -> Vec<u8> {
    let count = angles.len() as u32;
    let mut sheet = Vec::new();
    for &angle in angles {
        sheet.extend(float::bits(angle).to_le_bytes());
    }
    sheet.extend(request::blanked(bytes));
    sheet.extend(count.to_le_bytes());
    sheet.extend((8 * count).to_le_bytes());
    sheet.extend(edition.number().to_le_bytes());
    sheet.extend([0; 6]);
    sheet
}

/// Sampling: writes the sheet of a request, of the newest edition, and returns
/// the number of its angles.
pub fn sample(request: &[u8], work: &mut [f64], output: &mut [u8]) -> i64 {
    work.fill(0.0);
    let sampled = match sampled(Edition::NEWEST, request) {
        Err(refusal) => return -refusal,
        Ok(sampled) => sampled,
    };
    if work.len() < sampled.notes.cuts {
        return -10;
    }
    let sheet = laid_out(Edition::NEWEST, request, &sampled.angles);
    if output.len() < sheet.len() {
        return -11;
    }
    output[..sheet.len()].copy_from_slice(&sheet);
    sampled.angles.len() as i64
}

/// The most coefficients that Roots takes.
pub const MOST_COEFFICIENTS: usize = 9;

/// Whether bounds pass 22.
pub fn bounds_hold(lower: f64, upper: f64) -> bool {
    let within = |bound: f64| (-4.0..=4.0).contains(&bound);
    within(lower) && within(upper) && lower <= upper
}

/// Whether a coefficient's part passes 23.
pub fn part_holds(part: f64) -> bool {
    let most = f64::from_bits((1023 + 400) << 52);
    (-most..=most).contains(&part)
}

/// Which of 21 to 23 refuses these coefficients and bounds.
fn roots_refusal(coefficients: &[f64], lower: f64, upper: f64) -> Option<i64> {
    let length = coefficients.len();
    if !length.is_multiple_of(2) || length > 2 * MOST_COEFFICIENTS {
        Some(21)
    } else if !bounds_hold(lower, upper) {
        Some(22)
    } else if !coefficients.iter().all(|&part| part_holds(part)) {
        Some(23)
    } else {
        None
    }
}

/// Refusals 21 to 23, or the polynomial.
fn polynomial(coefficients: &[f64], lower: f64, upper: f64) -> Result<Polynomial, i64> {
    if let Some(refusal) = roots_refusal(coefficients, lower, upper) {
        return Err(refusal);
    }
    let pair = |pair: &[f64]| Compensated {
        high: pair[0],
        low: pair[1],
    };
    Ok(coefficients.chunks_exact(2).map(pair).collect())
}

/// Refusals 21 to 23, or the roots by value alone, as the ported body gives them.
pub fn root_values(coefficients: &[f64], lower: f64, upper: f64) -> Result<Vec<f64>, i64> {
    let polynomial = polynomial(coefficients, lower, upper)?;
    Ok(j1j2free::roots(polynomial, lower, upper))
}

/// Refusals 21 to 23, or the roots.
pub fn found_roots(coefficients: &[f64], lower: f64, upper: f64) -> Result<Vec<Root>, i64> {
    let polynomial = polynomial(coefficients, lower, upper)?;
    Ok(marked_roots(&polynomial, lower, upper))
}

/// Roots: writes the roots of a polynomial and their kinds, and returns their
/// number.
pub fn roots_op(
    coefficients: &[f64],
    lower: f64,
    upper: f64,
    result: &mut [f64],
    kinds: &mut [u8],
) -> i64 {
    let roots = match found_roots(coefficients, lower, upper) {
        Err(refusal) => return -refusal,
        Ok(roots) => roots,
    };
    if result.len() < roots.len() || kinds.len() < roots.len() {
        return -24;
    }
    for (place, root) in roots.iter().enumerate() {
        result[place] = root.value();
        kinds[place] = root.kind();
    }
    roots.len() as i64
}

/// Refusals 31 and 32 where this edition is the newest known, or a sheet's own
/// edition and n.
pub fn formed(newest: Edition, sheet: &[u8]) -> Result<(Edition, usize), i64> {
    if sheet.len() < Edition::One.frame() {
        return Err(31);
    }
    let trailer = &sheet[sheet.len() - TRAILER..];
    let word = |at: usize| u32::from_le_bytes(std::array::from_fn(|index| trailer[at + index]));
    let (count, position) = (u64::from(word(0)), u64::from(word(4)));
    let edition = Edition::numbered(u16::from_le_bytes([trailer[8], trailer[9]])).ok_or(32)?;
    let right = edition <= newest
        && sheet.len() as u64 == 8 * count + edition.frame() as u64
        && position == 8 * count
        && trailer[10..] == [0; 6];
    if right {
        Ok((edition, count as usize))
    } else {
        Err(32)
    }
}

/// Check: whether a sheet is the one that its own edition lays out for the
/// request inside it.
pub fn check(sheet: &[u8], work: &mut [f64]) -> i64 {
    check_as(Edition::NEWEST, sheet, work)
}

/// Check as built when this edition was the newest: a later one is unknown to it.
pub fn check_as(newest: Edition, sheet: &[u8], work: &mut [f64]) -> i64 {
    work.fill(0.0);
    let (edition, count) = match formed(newest, sheet) {
        Err(refusal) => return -refusal,
        Ok(formed) => formed,
    };
    let inside = &sheet[8 * count..][..edition.request_size()];
    let Ok(sampled) = sampled(edition, inside) else {
        return -33;
    };
    if request::blanked(inside) != inside {
        return -34;
    }
    if work.len() < sampled.notes.cuts {
        return -35;
    }
    let same = sampled.angles.len() == count
        && (0..count)
            .all(|index| float::bits(sampled.angles[index]) == request::word_at(sheet, 8 * index));
    if same { count as i64 } else { -36 }
}

/// What `make_sheet` writes to standard output and to standard error for this
/// standard input.
pub fn maker_output(input: &[u8]) -> (Vec<u8>, String) {
    let mut sheet = vec![0; PROGRAM_INPUT];
    let answer = sample(input, &mut vec![0.0; PROGRAM_WORK], &mut sheet);
    if answer < 0 {
        return (Vec::new(), format!("refused {}\n", -answer));
    }
    sheet.truncate(8 * answer as usize + Edition::NEWEST.frame());
    (sheet, String::new())
}

/// The number of angles of a sheet that a program takes, or what it prints of
/// another.
pub fn program_check(input: &[u8]) -> Result<usize, String> {
    if input.len() > PROGRAM_INPUT {
        return Err("too long\n".to_string());
    }
    let answer = check(input, &mut vec![0.0; PROGRAM_WORK]);
    usize::try_from(answer).map_err(|_| format!("refused {}\n", -answer))
}

/// What `check_sheet` prints for this standard input.
pub fn program_output(input: &[u8]) -> String {
    let count = match program_check(input) {
        Err(said) => return said,
        Ok(count) => count,
    };
    let mut printed = format!("accepted {count}\n");
    for index in 0..count {
        printed += &format!("{:016X}\n", request::word_at(input, 8 * index));
    }
    printed
}
