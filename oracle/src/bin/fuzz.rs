//! Hostile calls of the linked library for a time: `fuzz SECONDS [SEED]`. Each
//! call is compared with what 01 and 02 promise and with the oracle's: the answer,
//! every byte of every lent slice, what stands beside the slice, and the input.
//! Half of the slices are alone in their allocation, so that memcheck sees what
//! is read beyond them. Prints the calls and answers by number, and the oracle's
//! inner calls of the root finder, of which one that would be refused is a fault; at
//! the first fault, the case as `corpus` reads it, with exit status 1. If a call dies
//! or does not end, its case is the first line of `target/fuzz-SEED.case`.

use lemongully_oracle::corpus::Case;
use lemongully_oracle::edition::{CORE, Edition, NAME};
use lemongully_oracle::generate::{Random, decimals, hostile, pages, requests, roots, sheets};
use lemongully_oracle::linked;
use lemongully_oracle::observe::{self, Inner};
use lemongully_oracle::operations::{check, roots_op, sample};
use lemongully_oracle::page::{decimal_text, page_text};
use lemongully_oracle::request::SIZE;
use std::collections::BTreeMap;
use std::fs::File;
use std::io::{Seek, Write};
use std::panic::{AssertUnwindSafe, catch_unwind};
use std::process::ExitCode;
use std::time::{Duration, Instant};

/// The places before and after a slice that is not alone; odd, so that bytes
/// are not aligned.
const MARGIN: usize = 37;

/// What lent slices are made of.
trait Place: Copy {
    fn of(bits: u64) -> Self;
    fn bits(self) -> u64;
}

impl Place for u8 {
    fn of(bits: u64) -> Self {
        bits as u8
    }

    fn bits(self) -> u64 {
        u64::from(self)
    }
}

impl Place for f64 {
    fn of(bits: u64) -> Self {
        f64::from_bits(bits)
    }

    fn bits(self) -> u64 {
        self.to_bits()
    }
}

/// A slice to lend, with a margin of rubbish before and after it, or none.
#[derive(Clone)]
struct Lent<T> {
    places: Vec<T>,
    margin: usize,
}

impl<T: Place> Lent<T> {
    /// A slice of rubbish.
    fn rubbish(random: &mut Random, length: usize) -> Self {
        let margin = random.pick(&[0, MARGIN]);
        let place = |_| T::of(random.bits());
        Self {
            places: (0..length + 2 * margin).map(place).collect(),
            margin,
        }
    }

    /// A slice that holds these.
    fn holding(random: &mut Random, places: &[T]) -> Self {
        let mut lent = Self::rubbish(random, places.len());
        lent.slice().copy_from_slice(places);
        lent
    }

    fn slice(&mut self) -> &mut [T] {
        let end = self.places.len() - self.margin;
        &mut self.places[self.margin..end]
    }

    /// Whether margins and slice hold the same bits.
    fn same(&self, other: &Self) -> bool {
        let bits = |lent: &Self| -> Vec<u64> { lent.places.iter().map(|p| p.bits()).collect() };
        bits(self) == bits(other)
    }
}

/// The answer, or what is wrong.
type Found = Result<i64, String>;

/// A fault, unless the condition holds.
fn demand(holds: bool, otherwise: &str) -> Result<(), String> {
    holds.then_some(()).ok_or(otherwise.to_string())
}

/// The refusals of each operation.
const SAMPLING: [i64; 11] = [1, 2, 3, 4, 5, 6, 7, 8, 10, 11, 41];
const CHECK: [i64; 6] = [31, 32, 33, 34, 35, 36];
const ROOTS: [i64; 4] = [21, 22, 23, 24];
const PAGE: [i64; 8] = [31, 32, 33, 34, 35, 36, 42, 43];
const DECIMAL: [i64; 1] = [42];

/// Both answers are the same, and promised: a count up to the most, or one of the
/// refusals.
fn answers(linked: i64, oracle: i64, most: usize, refusals: &[i64]) -> Found {
    let promised = (0..=most as i64).contains(&linked) || refusals.contains(&-linked);
    demand(promised, &format!("answer {linked} is not promised"))?;
    let differs = format!("answer {linked}, of the oracle {oracle}");
    demand(linked == oracle, &differs)?;
    Ok(linked)
}

/// What was written is what the oracle writes, and stands in the first places.
fn written<T: Place>(
    found: &mut Lent<T>,
    oracle: &Lent<T>,
    mut before: Lent<T>,
    size: usize,
) -> Result<(), String> {
    let differs = "the output or its margin is not as the oracle's";
    demand(found.same(oracle), differs)?;
    before.slice()[..size].copy_from_slice(&found.slice()[..size]);
    demand(found.same(&before), "the rest of the output was written to")
}

/// Every work place is +0.0, and the margin as before.
fn cleared(work: &Lent<f64>, mut before: Lent<f64>) -> Result<(), String> {
    before.slice().fill(0.0);
    demand(work.same(&before), "a work place or its margin")
}

/// Sampling; a sheet that it writes must be accepted by Check.
fn sampling(random: &mut Random, call: &requests::Call) -> Found {
    let mut request = Lent::holding(random, &call.request);
    let mut work = Lent::rubbish(random, call.work);
    let mut output = Lent::rubbish(random, call.output);
    let before = (request.clone(), work.clone(), output.clone());
    let number = linked::sheet::sample(request.slice(), work.slice(), output.slice());
    demand(request.same(&before.0), "the request was written to")?;
    cleared(&work, before.1)?;
    let mut oracle = before.2.clone();
    let expected = sample(&call.request, &mut vec![0.5; call.work], oracle.slice());
    let frame = Edition::NEWEST.frame();
    let most = call.output.saturating_sub(frame) / 8;
    answers(number, expected, most, &SAMPLING)?;
    let size = usize::try_from(number).map_or(0, |count| 8 * count + frame);
    written(&mut output, &oracle, before.2, size)?;
    if number >= 0 {
        let sheet = &output.slice()[..size];
        let checked = linked::sheet::check(sheet, work.slice());
        demand(checked == number, "Check refuses what Sampling wrote")?;
    }
    Ok(number)
}

/// The sheet with an empty name, in the newest edition, of a sheet of edition 1;
/// any other as it is.
fn renewed(sheet: &[u8], count: usize) -> Vec<u8> {
    let mut renewed = sheet.to_vec();
    let end = 8 * count + CORE;
    if sheet.len() == 8 * count + Edition::One.frame() {
        renewed.splice(end..end, [0; NAME]);
        renewed[end + NAME + 8] = Edition::NEWEST.number() as u8;
    }
    renewed
}

/// Check; the request inside a sheet that it accepts must give that sheet, or for
/// edition 1 the same with an empty name.
fn checking(random: &mut Random, call: &sheets::Call) -> Found {
    let mut sheet = Lent::holding(random, &call.sheet);
    let mut work = Lent::rubbish(random, call.work);
    let before = (sheet.clone(), work.clone());
    let number = linked::sheet::check(sheet.slice(), work.slice());
    demand(sheet.same(&before.0), "the sheet was written to")?;
    cleared(&work, before.1)?;
    let expected = check(&call.sheet, &mut vec![0.5; call.work]);
    let most = call.sheet.len().saturating_sub(Edition::One.frame()) / 8;
    answers(number, expected, most, &CHECK)?;
    if let Ok(count) = usize::try_from(number) {
        let sheet = renewed(&call.sheet, count);
        let inside = &sheet[8 * count..][..SIZE];
        let mut again = vec![0x5A; sheet.len()];
        let answer = linked::sheet::sample(inside, work.slice(), &mut again);
        let same = answer == number && again == sheet;
        demand(same, "Sampling does not write what Check accepted")?;
    }
    Ok(number)
}

/// Roots.
fn finding(random: &mut Random, call: &roots::Call) -> Found {
    let mut coefficients = Lent::holding(random, &call.coefficients);
    let mut result = Lent::rubbish(random, call.result);
    let mut kinds = Lent::rubbish(random, call.kinds);
    let before = (coefficients.clone(), result.clone(), kinds.clone());
    let (lower, upper) = (call.lower, call.upper);
    let number = linked::polynomial::roots(
        coefficients.slice(),
        lower,
        upper,
        result.slice(),
        kinds.slice(),
    );
    demand(coefficients.same(&before.0), "a coefficient was written to")?;
    let mut oracle = (before.1.clone(), before.2.clone());
    let (values, marks) = (oracle.0.slice(), oracle.1.slice());
    let expected = roots_op(&call.coefficients, lower, upper, values, marks);
    answers(number, expected, call.result.min(call.kinds), &ROOTS)?;
    let size = usize::try_from(number).unwrap_or(0);
    written(&mut result, &oracle.0, before.1, size)?;
    written(&mut kinds, &oracle.1, before.2, size)?;
    Ok(number)
}

/// A page; Check must refuse the sheet exactly if the answer is one of its own.
fn laying(random: &mut Random, call: &pages::Call) -> Found {
    let mut sheet = Lent::holding(random, &call.sheet);
    let mut work = Lent::rubbish(random, call.work);
    let mut text = Lent::rubbish(random, call.text);
    let before = (sheet.clone(), work.clone(), text.clone());
    let number = linked::page::text(sheet.slice(), call.page, work.slice(), text.slice());
    demand(sheet.same(&before.0), "the sheet was written to")?;
    cleared(&work, before.1)?;
    let mut oracle = before.2.clone();
    let places = &mut vec![0.5; call.work];
    let expected = page_text(&call.sheet, call.page, places, oracle.slice());
    answers(number, expected, call.text, &PAGE)?;
    let size = usize::try_from(number).unwrap_or(0);
    written(&mut text, &oracle, before.2, size)?;
    let accepted = linked::sheet::check(&call.sheet, work.slice()) >= 0;
    let right = accepted == matches!(number, 0..|-42| -43);
    demand(right, "Check says otherwise of the sheet")?;
    Ok(number)
}

/// Decimals.
fn showing(random: &mut Random, call: &decimals::Call) -> Found {
    let mut text = Lent::rubbish(random, call.text);
    let before = text.clone();
    let number = linked::page::decimal(call.x, text.slice());
    let mut oracle = before.clone();
    let expected = decimal_text(call.x, oracle.slice());
    answers(number, expected, call.text, &DECIMAL)?;
    let size = usize::try_from(number).unwrap_or(0);
    written(&mut text, &oracle, before, size)?;
    Ok(number)
}

/// One call and the oracle's inner calls; a panic of the oracle is a fault.
fn run(random: &mut Random, case: &Case) -> Result<(i64, Inner), String> {
    observe::reset();
    let call = AssertUnwindSafe(|| match case {
        Case::Sample(call) => sampling(random, call),
        Case::Check(call) => checking(random, call),
        Case::Roots(call) => finding(random, call),
        Case::Page(call) => laying(random, call),
        Case::Decimal(call) => showing(random, call),
        Case::Floats(_) => unreachable!("no hostile call is of floats"),
    });
    let number = catch_unwind(call).unwrap_or(Err("a panic".to_string()))?;
    let inner = observe::notes().inner;
    demand(inner.refused == 0, "an inner call would be refused")?;
    Ok((number, inner))
}

/// How often each operation gave each answer, 0 for all that were accepted.
type Counts = BTreeMap<&'static str, BTreeMap<i64, u64>>;

fn print(counts: &Counts, inner: Inner) {
    for (operation, answers) in counts {
        let calls: u64 = answers.values().sum();
        println!("{operation}: {calls} calls");
        for (number, count) in answers {
            let answer = match number {
                0 => "accepted".to_string(),
                _ => format!("refused {number}"),
            };
            println!("    {answer}: {count}");
        }
    }
    println!("{inner}");
}

fn read(arguments: &[String]) -> Option<(Duration, u64)> {
    let seed = match arguments {
        [_] => 1,
        [_, seed] => seed.parse().ok()?,
        _ => return None,
    };
    Some((Duration::from_secs(arguments[0].parse().ok()?), seed))
}

/// Writes the case that is under way over the one before; not a file anew, for
/// which the disk would be waited on.
fn note(file: &mut File, case: &Case) -> std::io::Result<()> {
    file.rewind()?;
    file.write_all(format!("fault {}\n", case.line()).as_bytes())
}

/// Calls until the time is over, or to the first fault.
fn fuzz(time: Duration, seed: u64) -> Result<(Counts, Inner), String> {
    let path = format!("{}/target/fuzz-{seed}.case", env!("CARGO_MANIFEST_DIR"));
    let mut file = File::create(&path).map_err(|error| format!("{path}: {error}"))?;
    let start = Instant::now();
    let (mut counts, mut inner) = (Counts::new(), Inner::default());
    for index in (0..).take_while(|_| start.elapsed() < time) {
        let case = catch_unwind(|| hostile::case(seed, index))
            .map_err(|_| format!("call {index}: a panic before the call"))?;
        note(&mut file, &case).map_err(|error| format!("{path}: {error}"))?;
        let (number, calls) = run(&mut Random::new(!seed, index), &case)
            .map_err(|fault| format!("call {index}: {fault}\nfault {}", case.line()))?;
        inner = inner.and(calls);
        let answers = counts.entry(case.operation()).or_default();
        *answers.entry((-number).max(0)).or_default() += 1;
    }
    Ok((counts, inner))
}

fn main() -> ExitCode {
    let arguments: Vec<String> = std::env::args().skip(1).collect();
    let Some((time, seed)) = read(&arguments) else {
        eprintln!("fuzz SECONDS [SEED]");
        return ExitCode::FAILURE;
    };
    println!("seed {seed}, {} seconds", time.as_secs());
    match fuzz(time, seed) {
        Ok((counts, inner)) => {
            print(&counts, inner);
            println!("no fault");
            ExitCode::SUCCESS
        }
        Err(fault) => {
            println!("{fault}");
            ExitCode::FAILURE
        }
    }
}
