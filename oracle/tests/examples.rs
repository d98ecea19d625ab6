//! Document 01, 'Poses and curves to try', and change requests 1, 2 and 5.

use lemongully_oracle::constraints::Constraints;
use lemongully_oracle::edition::{CORE, Edition};
use lemongully_oracle::float::{self, P};
use lemongully_oracle::generate::names::name;
use lemongully_oracle::generate::requests::Draft;
use lemongully_oracle::generate::sheets::{one_angle, one_angle_named, put_trailer};
use lemongully_oracle::glam::{DQuat, DVec3};
use lemongully_oracle::kinematics_impl::{OPWKinematics, wrapped_angle, wrist_limit_intervals};
use lemongully_oracle::observe;
use lemongully_oracle::operations::{check, check_as, program_output, roots_op, sample};
use lemongully_oracle::page::pages_output;
use lemongully_oracle::parameters::opw_kinematics::Parameters;
use lemongully_oracle::pose::Pose;
use lemongully_oracle::request::{FROM, SIGNS, SIZE, TO};
use lemongully_oracle::singularity::j1j2free;
use lemongully_oracle::touching::Root::{self, Crossing, Touch};
use lemongully_oracle::trig;

/// The roots by bits and kind, or the refusal's number.
type Found = Result<Vec<(u64, u8)>, i64>;

/// Calls Roots with these high parts and zero low parts.
fn roots(high: &[f64], lower: f64, upper: f64) -> Found {
    let pairs: Vec<f64> = high.iter().flat_map(|&high| [high, 0.0]).collect();
    let (mut result, mut kinds) = ([0.0; 509], [0; 509]);
    let answer = roots_op(&pairs, lower, upper, &mut result, &mut kinds);
    if answer < 0 {
        return Err(-answer);
    }
    let found = std::iter::zip(result, kinds).take(answer as usize);
    Ok(found
        .map(|(root, kind)| (float::bits(root), kind))
        .collect())
}

/// The bits and kinds of these roots.
fn marked(roots: &[Root]) -> Found {
    let marked = |root: &Root| (float::bits(root.value()), root.kind());
    Ok(roots.iter().map(marked).collect())
}

#[test]
fn roots_of_simple_curves() {
    let (square, line) = ([-1.0, 0.0, 1.0], [-4.0, 1.0]);
    let crossed = [Crossing(-1.0), Crossing(1.0)];
    assert_eq!(roots(&square, -4.0, 4.0), marked(&crossed));
    let touched = marked(&[Touch(-0.0)]);
    assert_eq!(roots(&[0.0, 0.0, 1.0], -1.0, 1.0), touched);
    assert_eq!(roots(&line, -4.0, 4.0), marked(&[Crossing(4.0)]));
    assert_eq!(roots(&[-5.0, 1.0], -4.0, 4.0), marked(&[]));
    assert_eq!(roots(&square, 1.0, 1.0), marked(&[Touch(1.0)]));
    let trimmed = [-1.0, 1.0, 0.0, 0.0];
    assert_eq!(roots(&trimmed, -4.0, 4.0), marked(&[Crossing(1.0)]));
    assert_eq!(roots(&[7.0], -4.0, 4.0), marked(&[]));
    assert_eq!(roots(&[], -4.0, 4.0), marked(&[]));
}

#[test]
fn bounds_of_roots() {
    let beyond = 4.0f64.next_up();
    let four = marked(&[Crossing(4.0)]);
    assert_eq!(roots(&[-4.0, 1.0], -4.0, 4.0), four);
    assert_eq!(roots(&[-4.0, 1.0], 4.0, 4.0), four);
    assert_eq!(roots(&[-4.0, 1.0], -4.0, beyond), Err(22));
    assert_eq!(roots(&[-4.0, 1.0], -beyond, 4.0), Err(22));
    assert_eq!(roots(&[0.0, 1.0], 0.0, -0.0), marked(&[Crossing(-0.0)]));
    assert_eq!(roots(&[0.0, 1.0], 1.0, -1.0), Err(22));
    assert_eq!(roots(&[0.0, 1.0], f64::NAN, 1.0), Err(22));
}

#[test]
fn kinds_at_zero() {
    // x + x^2 touches at a bound, whose sign the root has, and crosses between
    // bounds.
    let curve = [0.0, 1.0, 1.0];
    assert_eq!(roots(&curve, 0.0, 1.0), marked(&[Touch(0.0)]));
    assert_eq!(roots(&curve, -0.0, 1.0), marked(&[Touch(-0.0)]));
    assert_eq!(roots(&curve, -0.5, 1.0), marked(&[Crossing(0.0)]));
    // The bisection ends at the bound, where the curve is not near zero.
    let lifted = [5.0e-324, -2.0, 1.0];
    assert_eq!(roots(&lifted, -0.0, 1.0), marked(&[Crossing(0.0)]));
}

#[test]
fn a_number_that_arises_both_ways_is_a_touch() {
    // 1 is near zero as a bound, and the bisection below it ends there.
    let lifted = [1.0e-323, 0.0, -1.0, 1.0];
    let beside = Crossing(f64::from_bits(0x1E65555555555556));
    assert_eq!(roots(&lifted, 0.0, 1.0), marked(&[beside, Touch(1.0)]));
    // With more room the bisection from 2/3 to 2 ends there alone.
    assert_eq!(roots(&lifted, 0.0, 2.0), marked(&[beside, Crossing(1.0)]));
}

#[test]
fn refusals_of_roots_in_order() {
    let most = f64::from_bits(0x58F0000000000000);
    let (room, kinds) = (&mut [0.0; 2], &mut [0; 2]);
    let mut refused = |pairs: &[f64], lower, upper| roots_op(pairs, lower, upper, room, kinds);
    assert_eq!(refused(&[1.0], 5.0, f64::NAN), -21);
    assert_eq!(refused(&[f64::NAN; 20], 0.0, 1.0), -21);
    assert_eq!(refused(&[f64::NAN; 2], 5.0, 5.0), -22);
    assert_eq!(refused(&[f64::NAN; 2], 0.0, 1.0), -23);
    assert_eq!(refused(&[most, 0.0], -1.0, 1.0), 0);
    assert_eq!(refused(&[most.next_up(), 0.0], -1.0, 1.0), -23);
    assert_eq!(refused(&[0.0, -most.next_up()], -1.0, 1.0), -23);
    let square = [-1.0, 0.0, 0.0, 0.0, 1.0, 0.0];
    for [places, bytes] in [[1, 2], [2, 1], [1, 1], [0, 2], [2, 0]] {
        let (room, kinds) = (&mut room[..places], &mut kinds[..bytes]);
        assert_eq!(roots_op(&square, -4.0, 4.0, room, kinds), -24);
    }
    assert_eq!((&*room, &*kinds), (&[0.0; 2], &[0; 2]));
}

#[test]
fn an_inner_call_that_would_be_refused_is_seen() {
    let refused = |high: &[f64], lower, upper| {
        observe::reset();
        let polynomial = high.iter().map(|&high| high.into()).collect();
        observe::roots(polynomial, lower, upper);
        observe::notes().inner.refused
    };
    let most = f64::from_bits(0x58F0000000000000);
    let square = [-1.0, 0.0, 1.0];
    assert_eq!(refused(&square, -4.0, 4.0), 0);
    assert_eq!(refused(&[1.0; 9], -1.0, 1.0), 0);
    assert_eq!(refused(&[1.0, -most.next_down()], -1.0, 1.0), 0);
    for bound in [4.0f64.next_up(), -5.0, f64::INFINITY, f64::NAN] {
        assert_eq!(refused(&square, -4.0, bound), 1);
        assert_eq!(refused(&square, bound, 4.0), 1);
    }
    assert_eq!(refused(&[1.0; 10], -1.0, 1.0), 1);
    for part in [most, -most, f64::INFINITY, f64::NAN] {
        assert_eq!(refused(&[1.0, part], -1.0, 1.0), 1);
    }
}

#[test]
fn arm_angles_far_beyond_8_would_be_refused_inside() {
    // Beyond 32 there is no sine, so a coefficient is a NaN.
    let parameters = Parameters {
        offsets: [0.0; 6],
        sign_corrections: [1; 6],
    };
    let robot = OPWKinematics::of(parameters, None);
    let rotation = DQuat::from_xyzw(0.1, 0.2, 0.3, 0.9);
    let pose = Pose::try_from_parts(DVec3::ZERO, rotation).expect("a rotation");
    let refused = |q3| {
        observe::reset();
        j1j2free::search(&robot, &pose, q3, &[0.0; 6], None);
        observe::notes().inner.refused
    };
    assert_eq!(refused(8.0), 0);
    assert!(refused(40.0) > 0);
}

#[test]
fn a_pair_that_cancels_is_not_trimmed() {
    // By division, and by halving beneath a leading pair (1, -1).
    let room = &mut [0.0; 1];
    let mut root = |pairs: &[f64], lower| {
        assert_eq!(roots_op(pairs, lower, 1.0, room, &mut [0]), 1);
        float::bits(room[0])
    };
    let third = 1.0f64 / 3.0;
    let pairs = [-1.0, 0.0, 3.0, 0.0, 1.0, -1.0];
    assert_eq!(root(&pairs[..4], 0.0), float::bits(third));
    assert_eq!(root(&pairs, 0.0), float::bits(third.next_up()));
    assert_eq!(root(&[-0.0, -0.0, 1.0, 0.0], -1.0), 0);
    let touched = marked(&[Touch(-0.0)]);
    assert_eq!(roots(&[0.0, 0.0, 1.0], 0.0, 1.0), touched);
}

#[test]
fn wrapping() {
    assert_eq!(float::bits(wrapped_angle(P)), float::bits(-P));
    let beyond = f64::from_bits(0x400921FB54442D19);
    assert_eq!(float::bits(wrapped_angle(-beyond)), float::bits(P));
}

#[test]
fn limits() {
    let (centers, tolerances) = Constraints::compute_centers([1.0; 6], [1.0; 6]);
    assert_eq!(centers, [0.0; 6]);
    assert_eq!(tolerances, [f64::INFINITY; 6]);
    for tolerance in [P, P.next_up(), 4.0, f64::INFINITY] {
        let intervals: Vec<_> = wrist_limit_intervals(1.0, tolerance, 0.5, 1.0).collect();
        assert_eq!(intervals, [(-P, -P), (-P, P), (P, P)]);
    }
}

/// 01's whole sheet, as edition 1 was written.
const WHOLE: &[u8; 288] = include_bytes!("../../examples/edition_1.sheet");

#[test]
fn whole_sheet() {
    assert_eq!(check(WHOLE, &mut []), -35);
    assert_eq!(check(WHOLE, &mut [7.5]), 1);
    assert_eq!(WHOLE[..8], [0; 8]);
    // Signs of joints 1, 3 and 6 are unread, so zero.
    assert_eq!(
        WHOLE[8..24],
        [2, 1, 1, 0, 0, 1, 0, 1, 1, 0, 0, 0, 0, 0, 0, 0]
    );
    assert_eq!(
        WHOLE[272..],
        [1, 0, 0, 0, 8, 0, 0, 0, 1, 0, 0, 0, 0, 0, 0, 0]
    );
    assert_eq!(program_output(WHOLE), "accepted 1\n0000000000000000\n");
}

#[test]
fn whole_sheet_with_a_name() {
    let request = one_angle_named("Gully Antiqua Book");
    let mut output = [0xA5; 330];
    assert_eq!(sample(&request, &mut [], &mut output), -10);
    assert_eq!(sample(&request, &mut [7.5], &mut output[..319]), -11);
    assert_eq!(output, [0xA5; 330]);
    let mut work = [7.5];
    assert_eq!(sample(&request, &mut work, &mut output), 1);
    assert_eq!(work[0].to_bits(), 0);
    assert_eq!(output[320..], [0xA5; 10]);
    let sheet = &output[..320];
    assert_eq!(check(sheet, &mut []), -35);
    assert_eq!(check(sheet, &mut work), 1);
    assert_eq!(check_as(Edition::One, sheet, &mut work), -32);
    // Angle and request are edition 1's, then the name and a trailer.
    assert_eq!(sheet[..272], WHOLE[..272]);
    assert_eq!(sheet[272..304], name("Gully Antiqua Book"));
    assert_eq!(
        sheet[304..],
        [1, 0, 0, 0, 8, 0, 0, 0, 2, 0, 0, 0, 0, 0, 0, 0]
    );
    assert_eq!(program_output(sheet), "accepted 1\n0000000000000000\n");
}

/// Sampling's answer for 01's job with this name, and Check's for its sheet.
fn named(name: &[u8; 32]) -> [i64; 2] {
    let mut request = one_angle();
    request[CORE..].copy_from_slice(name);
    let mut output = [0; 320];
    let answer = sample(&request, &mut [0.0], &mut output);
    let mut sheet = [&WHOLE[..272], name, &WHOLE[272..]].concat();
    sheet[312] = 2;
    if answer >= 0 {
        assert_eq!(output[..], sheet);
    }
    [answer, check(&sheet, &mut [0.0])]
}

#[test]
fn names() {
    let right = [
        name(""),
        name("G"),
        name(" "),
        name("~"),
        name("Gully Antiqua Book  "),
        name("Gully Grotesk Semibold Condensed"),
        [32; 32],
        [126; 32],
    ];
    for name in right {
        assert_eq!(named(&name), [1, 1]);
    }
    let full = name("Gully Grotesk Semibold Condensed");
    for at in 0..32 {
        for byte in (1..=31).chain(127..=255) {
            for mut name in [name(""), full] {
                name[at] = byte;
                assert_eq!(named(&name), [-41, -33]);
            }
        }
        // A zero is right at the end alone, a character everywhere but behind a zero.
        let mut holed = full;
        holed[at] = 0;
        assert_eq!(named(&holed), if at == 31 { [1, 1] } else { [-41, -33] });
        let mut lone = name("");
        lone[at] = b'G';
        assert_eq!(named(&lone), if at == 0 { [1, 1] } else { [-41, -33] });
    }
}

#[test]
fn the_name_is_tested_after_the_head_and_before_the_signs() {
    let answer = |spoil: fn(&mut [u8; SIZE])| {
        let mut request = one_angle();
        request[SIZE - 1] = b'G';
        spoil(&mut request);
        sample(&request, &mut [0.0], &mut [0; 320])
    };
    assert_eq!(answer(|request| request[0] = 4), -2);
    assert_eq!(answer(|request| request[15] = 1), -2);
    assert_eq!(answer(|request| request[SIGNS + 1] = 2), -41);
    assert_eq!(answer(|request| request[16..48].fill(255)), -41);
    assert_eq!(sample(&one_angle()[..CORE], &mut [0.0], &mut [0; 320]), -1);
}

#[test]
fn each_edition_has_its_size() {
    let mut sheet = WHOLE.to_vec();
    for number in [0, 2, 3, 256, 257, 258, 65535] {
        sheet[280..282].copy_from_slice(&u16::to_le_bytes(number));
        assert_eq!(check(&sheet, &mut [0.0]), -32);
    }
    // From 280 bytes on the edition counts, and edition 2 starts at 312.
    for length in 270..=330 {
        for edition in Edition::ALL {
            let mut sheet = vec![0; length];
            put_trailer(&mut sheet, edition, 0);
            let expected = match length {
                ..280 => -31,
                _ if length == edition.frame() => -33,
                _ => -32,
            };
            assert_eq!(check(&sheet, &mut []), expected);
        }
    }
}

#[test]
fn limits_without_a_center() {
    // Kind, limits of joint 1, number of angles. An infinite center leaves
    // kind 1 a whole turn and kind 3 no angle.
    let cases = [
        (1, 1.0e308, 1.7e308, 11),
        (3, 1.0e308, 1.7e308, 0),
        (1, f64::NAN, 0.0, 0),
        (3, 0.0, f64::INFINITY, 0),
        (1, 2.0 * P, 0.0, 1),
        (3, 2.0 * P, 0.0, 1),
    ];
    for (kind, from, to, count) in cases {
        let mut draft = Draft { bytes: one_angle() };
        draft.bytes[0] = kind;
        draft.put(FROM + 8, 0.0);
        draft.put(FROM, from);
        draft.put(TO, to);
        let mut output = [0; 400];
        assert_eq!(sample(&draft.bytes, &mut [0.0; 8], &mut output), count);
        let sheet = &output[..312 + 8 * count as usize];
        assert_eq!(check(sheet, &mut [0.0; 8]), count);
    }
}

#[test]
fn program() {
    assert_eq!(program_output(&[]), "refused 31\n");
    assert_eq!(program_output(&[0; 280]), "refused 32\n");
    assert_eq!(program_output(&[0; 65536]), "refused 32\n");
    assert_eq!(program_output(&[0; 65537]), "too long\n");
    for input in [&[][..], &[0; 280], &[0; 65536], &[0; 65537]] {
        assert_eq!(pages_output(input), program_output(input).as_bytes());
    }
}

#[test]
fn signs_of_zero_in_trigonometry() {
    assert_eq!(float::bits(trig::sin(-0.0)), 0);
    assert_eq!(float::bits(trig::atan(-0.0)), float::bits(-0.0));
    assert_eq!(float::bits(trig::atan2(-0.0, -1.0)), float::bits(P));
    assert_eq!(float::bits(trig::atan2(-0.0, -0.0)), 0);
    assert_eq!(float::bits(float::clamp(-0.0)), float::bits(-0.0));
    assert_eq!(float::bits(float::minimum(0.0, -0.0)), 0);
    assert_eq!(float::bits(float::maximum(-0.0, 0.0)), float::bits(-0.0));
    assert!(float::total_lt(-0.0, 0.0));
    let beyond = 32.0f64.next_up();
    assert!(trig::sin(32.0).is_finite() && trig::cos(-32.0).is_finite());
    for x in [beyond, -beyond, f64::INFINITY, -f64::NAN] {
        assert_eq!(float::bits(trig::sin(x)), 0x7FF8000000000000);
        assert_eq!(float::bits(trig::cos(x)), 0x7FF8000000000000);
    }
}

#[test]
fn fused_product_rounds_once_and_nothing_else_is_fused() {
    let step = f64::EPSILON;
    let [a, b, c] = std::hint::black_box([1.0 + step, 1.0 - step, -1.0]);
    assert_eq!(float::mul_add(a, b, c), -step * step);
    assert_eq!(a * b + c, 0.0);
    assert_eq!(float::product_error(a, b), -step * step);
    assert_eq!(
        float::bits(float::mul_add(0.0, f64::INFINITY, 1.0)),
        0x7FF8000000000000
    );
    assert_eq!(float::bits(float::sqrt(-1.0)), 0x7FF8000000000000);
    assert_eq!(float::bits(float::sqrt(-0.0)), float::bits(-0.0));
}

#[test]
fn close_to_the_usual_trigonometry() {
    for step in -3200..=3200 {
        let x = f64::from(step) / 100.0;
        let (sine, cosine) = trig::sin_cos(x);
        assert!((sine - x.sin()).abs() < 1.0e-14 && (cosine - x.cos()).abs() < 1.0e-14);
        assert!((trig::atan(x) - x.atan()).abs() < 1.0e-15);
        assert!((trig::atan2(x, 1.5 - x) - x.atan2(1.5 - x)).abs() < 1.0e-15);
        let y = x / 32.0;
        assert!((trig::acos(y) - y.acos()).abs() < 1.0e-15);
        assert!((trig::asin(y) - y.asin()).abs() < 1.0e-15);
    }
}
