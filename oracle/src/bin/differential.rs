//! Differential runs: the proved library, linked, against the oracle, on the
//! same inputs. `differential SECTION COUNT [SEED]` prints, for each function
//! of the section, its name, the inputs and how many answers differ, with the
//! first such input; its exit status is 1 if any do. Of the inner calls of the root
//! finder it prints how many would be refused, and an input with such a call counts
//! as one that differs.

use lemongully_oracle::functions::operands::Operands;
use lemongully_oracle::functions::{FUNCTIONS, Function};
use lemongully_oracle::generate::{Random, decimals, pages, requests, roots, sheets};
use lemongully_oracle::linked;
use lemongully_oracle::observe::{self, Inner};
use lemongully_oracle::operations::{check, roots_op, sample};
use lemongully_oracle::page::{decimal_text, page_text};
use lemongully_oracle::parts::{self, PARTS, Part};
use std::process::ExitCode;

/// What a run of one function found.
struct Run {
    name: &'static str,
    inputs: u64,
    differences: u64,
    /// The first input that differs, with both answers.
    first: Option<String>,
    /// The oracle's inner calls of the root finder.
    inner: Inner,
}

/// The linked function of a name, on words.
fn float(name: &str) -> fn(Operands) -> u64 {
    match name {
        "bits" => |[x, _, _]| linked::float::bits(x),
        "is_finite" => |[x, _, _]| linked::float::is_finite(x),
        "is_sign_positive" => |[x, _, _]| linked::float::is_sign_positive(x),
        "abs" => |[x, _, _]| linked::float::abs(x),
        "total_le" => |[x, y, _]| linked::float::total_le(x, y),
        "rem_euclid" => |[x, m, _]| linked::float::rem_euclid(x, m),
        "minimum" => |[x, y, _]| linked::float::minimum(x, y),
        "maximum" => |[x, y, _]| linked::float::maximum(x, y),
        "clamp" => |[x, _, _]| linked::float::clamp(x),
        "floor" => |[x, _, _]| linked::float::floor(x) as u64,
        "mul_add" => |[a, b, c]| linked::float::mul_add(a, b, c),
        "sqrt" => |[x, _, _]| linked::float::sqrt(x),
        "product_error" => |[a, b, _]| linked::float::product_error(a, b),
        "sin" => |[x, _, _]| linked::float::sin(x),
        "cos" => |[x, _, _]| linked::float::cos(x),
        "tan" => |[x, _, _]| linked::float::tan(x),
        "hypot" => |[x, y, _]| linked::float::hypot(x, y),
        "atan" => |[x, _, _]| linked::float::atan(x),
        "atan2" => |[y, x, _]| linked::float::atan2(y, x),
        "acos" => |[x, _, _]| linked::float::acos(x),
        "asin" => |[x, _, _]| linked::float::asin(x),
        _ => unreachable!("{name} is not linked"),
    }
}

/// The section `float`: every function of the float floor and the trigonometry.
fn float_runs(count: u64, seed: u64) -> Vec<Run> {
    let run = |function: &Function| {
        let library = float(function.name);
        let mut random = Random::new(seed, u64::from(function.letter));
        let (mut differences, mut first) = (0, None);
        for _ in 0..count {
            let operands = function.draw(&mut random);
            let (expected, found) = ((function.answer)(operands), library(operands));
            if expected != found {
                differences += 1;
                first.get_or_insert_with(|| {
                    let words = &operands[..function.count];
                    format!("{words:016X?}: {expected:016X}, linked {found:016X}")
                });
            }
        }
        Run {
            name: function.name,
            inputs: count,
            differences,
            first,
            inner: Inner::default(),
        }
    };
    FUNCTIONS.iter().map(run).collect()
}

/// A pair for the remainder: exponents that lie far apart or close together, subnormals, multiples of
/// the modulus and their neighbours, the modulus 2P; both signs everywhere.
fn remainder_pair(random: &mut Random) -> [u64; 2] {
    const SIGN: u64 = 1 << 63;
    const DIGITS: u64 = (1 << 52) - 1;
    const TWO_P: u64 = 0x401921FB54442D18;
    let number = |random: &mut Random, exponent: u64| {
        (random.bits() & (SIGN | DIGITS)) | (exponent.min(2046) << 52)
    };
    let near = |random: &mut Random, m: u64| {
        let times = (1 + random.below(1 << 20)) as f64;
        let x = f64::from_bits(m & !SIGN) * times;
        (x.to_bits() + random.below(3) as u64).wrapping_sub(1) ^ (random.bits() & SIGN)
    };
    let m = match random.below(4) {
        0 => TWO_P | (random.bits() & SIGN),
        1 => number(random, 0),
        _ => {
            let exponent = random.below(2047) as u64;
            number(random, exponent)
        }
    };
    let place = (m >> 52) & 2047;
    let x = match random.below(4) {
        0 => near(random, m),
        1 => {
            let exponent = place + random.below(60) as u64;
            number(random, exponent)
        }
        2 => number(random, 0),
        _ => {
            let exponent = random.below(2047) as u64;
            number(random, exponent)
        }
    };
    [x, m]
}

/// The section `remainder`: `rem_euclid` alone, on pairs that are hard for a remainder.
fn remainder_runs(count: u64, seed: u64) -> Vec<Run> {
    let mut random = Random::new(seed, 0);
    let (mut differences, mut first) = (0, None);
    for _ in 0..count {
        let [x, m] = remainder_pair(&mut random);
        let expected = lemongully_oracle::float::rem_euclid(f64::from_bits(x), f64::from_bits(m));
        let (expected, found) = (expected.to_bits(), linked::float::rem_euclid(x, m));
        if expected != found {
            differences += 1;
            first.get_or_insert_with(|| {
                format!("{x:016X} {m:016X}: {expected:016X}, linked {found:016X}")
            });
        }
    }
    vec![Run {
        name: "remainder",
        inputs: count,
        differences,
        first,
        inner: Inner::default(),
    }]
}

/// The section `polynomial`: the operation Roots, its answer, every place of the
/// result and every byte of the kinds, all of which hold rubbish beforehand.
fn polynomial_runs(count: u64, seed: u64) -> Vec<Run> {
    let (places, bytes) = (rubbish_places(seed, 512), rubbish_bytes(seed, 512));
    let (mut differences, mut first) = (0, None);
    for index in 0..count {
        let call = roots::call(seed, index);
        let (coefficients, lower, upper) = (&call.coefficients, call.lower, call.upper);
        let [mut expected, mut found] = [(); 2].map(|()| places[..call.result].to_vec());
        let [mut marks, mut kinds] = [(); 2].map(|()| bytes[..call.kinds].to_vec());
        let answer = roots_op(coefficients, lower, upper, &mut expected, &mut marks);
        let linked = linked::polynomial::roots(coefficients, lower, upper, &mut found, &mut kinds);
        if answer != linked || marks != kinds || !same_places(&expected, &found) {
            differences += 1;
            first.get_or_insert_with(|| format!("{call:?}: {answer}, linked {linked}"));
        }
    }
    vec![Run {
        name: "roots",
        inputs: count,
        differences,
        first,
        inner: Inner::default(),
    }]
}

/// The linked numbers of a function of module 4. A place past the last one gives
/// the last one again, or 0 of a pose.
fn part(name: &str) -> fn(parts::Operands) -> Vec<u64> {
    use linked::sampling_parts as linked;
    match name {
        "center" => |[from, to, ..]| {
            let number = |part| linked::center([from, to], part);
            assert_eq!(number(1), number(u64::MAX), "the last part");
            (0..2).map(number).collect()
        },
        "limits" => |joint| {
            let number = |part| linked::limits(joint, part);
            assert_eq!(number(2), number(u64::MAX), "the last part");
            (0..3).map(number).collect()
        },
        "interval" => |[center, tolerance, reference, sign, ..]| {
            let range = [center, tolerance, reference, sign];
            let number = |place: u64| linked::interval(range, place / 3, place % 3);
            assert_eq!(
                number(8),
                linked::interval(range, u64::MAX, 3),
                "the last part"
            );
            (0..9).map(number).collect()
        },
        "pose" => |[x, y, z, w, ..]| {
            let number = |part| linked::pose([x, y, z, w], part);
            assert_eq!([number(14), number(u64::MAX)], [0, 0], "no part");
            (0..14).map(number).collect()
        },
        _ => unreachable!("{name} is not linked"),
    }
}

/// The section `sampling`: every number of module 4's functions.
fn sampling_runs(count: u64, seed: u64) -> Vec<Run> {
    let run = |function: &Part| {
        let library = part(function.name);
        let mut random = Random::new(seed, u64::from(function.letter));
        let (mut differences, mut first) = (0, None);
        for _ in 0..count {
            let operands = (function.operands)(&mut random);
            let (expected, found) = ((function.answer)(operands), library(operands));
            if expected != found {
                differences += 1;
                first.get_or_insert_with(|| {
                    let words = &operands[..function.count];
                    format!("{words:016X?}: {expected:016X?}, linked {found:016X?}")
                });
            }
        }
        Run {
            name: function.name,
            inputs: count,
            differences,
            first,
            inner: Inner::default(),
        }
    };
    PARTS.iter().map(run).collect()
}

/// Places that hold rubbish, the same for the same seed.
fn rubbish_places(seed: u64, count: usize) -> Vec<f64> {
    let mut random = Random::new(seed, 0xF00D);
    (0..count).map(|_| f64::from_bits(random.bits())).collect()
}

/// Bytes that hold rubbish.
fn rubbish_bytes(seed: u64, count: usize) -> Vec<u8> {
    let mut random = Random::new(seed, 0xBEEF);
    (0..count).map(|_| random.bits() as u8).collect()
}

/// Whether every place holds the same bits.
fn same_places(a: &[f64], b: &[f64]) -> bool {
    std::iter::zip(a, b).all(|(a, b)| a.to_bits() == b.to_bits())
}

/// The oracle's answer, and its inner calls.
fn observed(oracle: impl FnOnce() -> i64) -> (i64, Inner) {
    observe::reset();
    (oracle(), observe::notes().inner)
}

/// The operation Sampling, for requests of these kinds: its answer, every work
/// place and every byte of the output, all of which hold rubbish beforehand.
fn sample_run(name: &'static str, kinds: &[u8], count: u64, seed: u64) -> Run {
    let (places, bytes) = (rubbish_places(seed, 4096), rubbish_bytes(seed, 32768));
    let (mut differences, mut first, mut inner) = (0, None, Inner::default());
    for index in 0..count {
        let call = requests::call(seed, index, kinds);
        let mut work = [places[..call.work].to_vec(), places[..call.work].to_vec()];
        let mut output = [bytes[..call.output].to_vec(), bytes[..call.output].to_vec()];
        let (answer, calls) = observed(|| sample(&call.request, &mut work[0], &mut output[0]));
        inner = inner.and(calls);
        let linked = linked::sheet::sample(&call.request, &mut work[1], &mut output[1]);
        let same = answer == linked && output[0] == output[1] && same_places(&work[0], &work[1]);
        if !same || calls.refused > 0 {
            differences += 1;
            first.get_or_insert_with(|| format!("{call:?}: {answer}, linked {linked}"));
        }
    }
    Run {
        name,
        inputs: count,
        differences,
        first,
        inner,
    }
}

/// The operation Check, for sheets of requests of these kinds, most of them
/// damaged: its answer and every work place.
fn check_run(name: &'static str, kinds: &[u8], count: u64, seed: u64) -> Run {
    let places = rubbish_places(seed, 4096);
    let (mut differences, mut first, mut inner) = (0, None, Inner::default());
    for index in 0..count {
        let call = sheets::call(seed, index, kinds);
        let mut work = [places[..call.work].to_vec(), places[..call.work].to_vec()];
        let (answer, calls) = observed(|| check(&call.sheet, &mut work[0]));
        inner = inner.and(calls);
        let linked = linked::sheet::check(&call.sheet, &mut work[1]);
        if answer != linked || !same_places(&work[0], &work[1]) || calls.refused > 0 {
            differences += 1;
            first.get_or_insert_with(|| format!("{call:02X?}: {answer}, linked {linked}"));
        }
    }
    Run {
        name,
        inputs: count,
        differences,
        first,
        inner,
    }
}

/// A page of sheets of requests of these kinds: its answer, every work place and
/// every byte of the text, all of which hold rubbish beforehand.
fn page_run(name: &'static str, kinds: &[u8], count: u64, seed: u64) -> Run {
    let (places, bytes) = (rubbish_places(seed, 4096), rubbish_bytes(seed, 4096));
    let (mut differences, mut first, mut inner) = (0, None, Inner::default());
    for index in 0..count {
        let call = pages::call(seed, index, kinds);
        let mut work = [places[..call.work].to_vec(), places[..call.work].to_vec()];
        let mut text = [bytes[..call.text].to_vec(), bytes[..call.text].to_vec()];
        let (answer, calls) =
            observed(|| page_text(&call.sheet, call.page, &mut work[0], &mut text[0]));
        inner = inner.and(calls);
        let linked = linked::page::text(&call.sheet, call.page, &mut work[1], &mut text[1]);
        let same = answer == linked && text[0] == text[1] && same_places(&work[0], &work[1]);
        if !same || calls.refused > 0 {
            differences += 1;
            first.get_or_insert_with(|| format!("{call:02X?}: {answer}, linked {linked}"));
        }
    }
    Run {
        name,
        inputs: count,
        differences,
        first,
        inner,
    }
}

/// The section `decimal`: its answer and every byte of the text, which holds rubbish
/// beforehand.
fn decimal_runs(count: u64, seed: u64) -> Vec<Run> {
    let bytes = rubbish_bytes(seed, 32);
    let (mut differences, mut first) = (0, None);
    for index in 0..count {
        let call = decimals::call(seed, index);
        let [mut expected, mut found] = [(); 2].map(|()| bytes[..call.text].to_vec());
        let answer = decimal_text(call.x, &mut expected);
        let linked = linked::page::decimal(call.x, &mut found);
        if answer != linked || expected != found {
            differences += 1;
            first.get_or_insert_with(|| {
                let [expected, found] = [&expected, &found].map(|text| text.escape_ascii());
                let (x, room) = (call.x, call.text);
                format!("{x:016X} {room}: {answer} {expected}, linked {linked} {found}")
            });
        }
    }
    vec![Run {
        name: "decimal",
        inputs: count,
        differences,
        first,
        inner: Inner::default(),
    }]
}

fn section(arguments: &[String]) -> Option<Vec<Run>> {
    let [section, count, rest @ ..] = arguments else {
        return None;
    };
    let count = count.parse().ok()?;
    let seed = match rest {
        [] => 1,
        [seed] => seed.parse().ok()?,
        _ => return None,
    };
    match section.as_str() {
        "float" => Some(float_runs(count, seed)),
        "remainder" => Some(remainder_runs(count, seed)),
        "polynomial" => Some(polynomial_runs(count, seed)),
        "sampling" => Some(sampling_runs(count, seed)),
        "one" => Some(vec![
            sample_run("sample, kind 1", &[1], count, seed),
            sample_run("sample, kind 2", &[2], count, seed),
            check_run("check, kinds 1 and 2", &[1, 2], count, seed),
        ]),
        "two" => Some(vec![
            sample_run("sample, kind 3", &[3], count, seed),
            check_run("check, kind 3", &[3], count / 10, seed),
        ]),
        "page" => Some(vec![
            page_run("page, kinds 1 and 2", &[1, 2], count, seed),
            page_run("page, kind 3", &[3], count / 100, seed),
        ]),
        "decimal" => Some(decimal_runs(count, seed)),
        _ => None,
    }
}

fn main() -> ExitCode {
    let arguments: Vec<String> = std::env::args().skip(1).collect();
    let Some(runs) = section(&arguments) else {
        let sections = "float|remainder|polynomial|sampling|one|two|page|decimal";
        eprintln!("differential {sections} COUNT [SEED]");
        return ExitCode::FAILURE;
    };
    for run in &runs {
        println!("{} {} {}", run.name, run.inputs, run.differences);
        if let Some(first) = &run.first {
            println!("    first {first}");
        }
        if run.inner.calls > 0 {
            println!("    {}", run.inner);
        }
    }
    ExitCode::from(u8::from(runs.iter().any(|run| run.differences > 0)))
}
