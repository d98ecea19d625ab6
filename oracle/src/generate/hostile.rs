//! Hostile calls: any bytes, right requests and sheets that were changed, and
//! lent slices of any length.

use super::{Random, decimals, floats, names, pages, power, requests, roots, sheets};
use crate::corpus::Case;
use crate::edition::{CORE, Edition, NAME, TRAILER};
use crate::operations::{self, PROGRAM_INPUT, PROGRAM_WORK};
use crate::page::{self, COLUMNS, LINE};
use crate::request::SIZE;

/// Lengths at which an answer changes, or changed in an earlier edition.
const BORDERS: [usize; 15] = [
    0, 263, 264, 265, 279, 280, 281, 288, 295, 296, 297, 311, 312, 313, 320,
];

/// The longest run of random bytes.
const MOST: usize = 4096;

/// One call of an operation.
pub fn case(seed: u64, index: u64) -> Case {
    let random = &mut Random::new(seed, index);
    // Kind 3 takes a thousand times as long.
    let kinds: &[u8] = if random.once_in(100) { &[3] } else { &[1, 2] };
    match random.below(8) {
        0 | 1 => Case::Sample(sampling(random, kinds)),
        2 | 3 => Case::Check(check(random, kinds)),
        4 | 5 => Case::Page(page(random, kinds)),
        6 => Case::Decimal(decimal(random)),
        _ => Case::Roots(roots(random)),
    }
}

/// A call of Sampling.
fn sampling(random: &mut Random, kinds: &[u8]) -> requests::Call {
    let request = request(random, kinds);
    let frame = Edition::NEWEST.frame();
    let (cuts, size) = match operations::sampled(Edition::NEWEST, &request) {
        Ok(sampled) => (sampled.notes.cuts, 8 * sampled.angles.len() + frame),
        Err(_) => (1, frame),
    };
    requests::Call {
        request,
        work: length(random, cuts),
        output: length(random, size),
    }
}

/// A call of Check.
fn check(random: &mut Random, kinds: &[u8]) -> sheets::Call {
    let (sheet, cuts) = sheet(random, kinds);
    let work = length(random, cuts);
    sheets::Call { sheet, work }
}

/// A call for a page: a sheet that was changed, or a call of the differential runs;
/// and any number.
fn page(random: &mut Random, kinds: &[u8]) -> pages::Call {
    let mut call = pages::call(random.bits(), 0, kinds);
    if random.once_in(2) {
        let (sheet, cuts) = sheet(random, kinds);
        call.sheet = sheet;
        call.work = length(random, cuts);
    }
    let count = pages::count(&call.sheet);
    call.page = match random.below(4) {
        0 => random.bits() >> random.below(64),
        _ => pages::number(random, count),
    };
    let size = page::size(count, call.page).unwrap_or(LINE);
    call.text = length(random, size);
    call
}

/// A call for decimals.
fn decimal(random: &mut Random) -> decimals::Call {
    let x = decimals::float(random);
    let text = length(random, COLUMNS);
    decimals::Call { x, text }
}

/// A call of Roots: floats of any sort, or a call of the differential runs with
/// some parts changed.
fn roots(random: &mut Random) -> roots::Call {
    let mut call = roots::call(random.bits(), 0);
    let places = call.coefficients.len();
    let hard = |random: &mut Random| f64::from_bits(hard(random));
    match random.below(8) {
        0 => call.coefficients = (0..random.below(24)).map(|_| hard(random)).collect(),
        1 | 2 if places > 0 => call.coefficients[random.below(places)] = hard(random),
        3 => call.coefficients.truncate(random.below(places + 1)),
        4 => call.lower = hard(random),
        5 => call.upper = hard(random),
        _ => {}
    }
    let found = operations::root_values(&call.coefficients, call.lower, call.upper);
    let count = found.map_or(1, |roots| roots.len().max(1));
    call.result = length(random, count);
    call.kinds = length(random, count);
    call
}

/// Bytes for Sampling: any, or a request of the differential runs of one of
/// these kinds, mostly changed.
pub fn request(random: &mut Random, kinds: &[u8]) -> Vec<u8> {
    if random.once_in(8) {
        return any_bytes(random);
    }
    let right = |random: &mut Random| requests::request(random.bits(), 0, kinds);
    let mut bytes = right(random);
    changes(random, &mut bytes, right);
    // Mostly with a right name, so that what is tested after it counts.
    if bytes.len() == SIZE && random.below(4) > 0 {
        bytes[CORE..].copy_from_slice(&names::right(random));
    }
    bytes
}

/// Bytes for Check: any, or a sheet of one of these kinds, mostly changed; and
/// the cuts of the right one.
pub fn sheet(random: &mut Random, kinds: &[u8]) -> (Vec<u8>, usize) {
    if random.once_in(8) {
        return (any_bytes(random), 1);
    }
    let (mut bytes, cuts) = right_sheet(random, kinds);
    changes(random, &mut bytes, |random| right_sheet(random, kinds).0);
    (bytes, cuts)
}

/// Brings bytes to about the longest input that a program takes: what is added
/// stands before them, as further angles of a sheet would, or behind.
pub fn lengthen(random: &mut Random, bytes: &mut Vec<u8>) {
    let lengths = [PROGRAM_INPUT - 1, PROGRAM_INPUT, PROGRAM_INPUT + 1, 100_000];
    let length = random.pick(&lengths);
    let more = vec![random.bits() as u8; length.saturating_sub(bytes.len())];
    let at = random.pick(&[0, bytes.len()]);
    bytes.splice(at..at, more);
    if random.once_in(2) {
        let edition = random.pick(&Edition::ALL);
        sheets::put_trailer(bytes, edition, sheets::count_at(edition, length));
    }
}

/// A sheet as one of the editions lays it out, and its cuts.
fn right_sheet(random: &mut Random, kinds: &[u8]) -> (Vec<u8>, usize) {
    let kind = random.pick(kinds);
    let request = requests::accepted(random, kind).bytes;
    let edition = random.pick(&Edition::ALL);
    sheets::written(edition, &request).unwrap_or_else(|| (request.to_vec(), 1))
}

/// Random bytes of a random length.
fn any_bytes(random: &mut Random) -> Vec<u8> {
    let length = if random.once_in(2) {
        random.pick(&BORDERS)
    } else {
        random.below(MOST)
    };
    (0..length).map(|_| random.bits() as u8).collect()
}

/// A length for a slice of which so many places are wanted.
fn length(random: &mut Random, wanted: usize) -> usize {
    match random.below(12) {
        0 => 0,
        1 => 1,
        2 => wanted.saturating_sub(1),
        3 => random.below(wanted + 1),
        4..=6 => wanted,
        7 => wanted + 1,
        8 => wanted + random.below(64),
        _ => wanted.max(PROGRAM_WORK),
    }
}

/// A float at which something changes, by its bits.
fn hard(random: &mut Random) -> u64 {
    let large = random.sign() * random.near(power(2.0, 400));
    match random.below(6) {
        0 => large.to_bits(),
        1 => (1.0 / large).to_bits(),
        _ => floats::float(random),
    }
}

/// Makes none to three changes.
fn changes(random: &mut Random, bytes: &mut Vec<u8>, other: impl Fn(&mut Random) -> Vec<u8>) {
    for _ in 0..random.below(4) {
        change(random, bytes, &other);
    }
}

/// Makes one change.
fn change(random: &mut Random, bytes: &mut Vec<u8>, other: &impl Fn(&mut Random) -> Vec<u8>) {
    let size = bytes.len();
    match random.below(24) {
        0 => bytes.truncate(random.below(size + 1)),
        1 => bytes.extend(any_bytes(random)),
        2 => bytes.resize(random.pick(&BORDERS), random.bits() as u8),
        3 => {
            // The end of another one behind a part of this one.
            let end = other(random);
            bytes.truncate(random.below(size + 1));
            bytes.extend(&end[random.below(end.len() + 1)..]);
        }
        4 => {
            // The length is right for n modulo 2^29 alone, or for no n.
            let edition = random.pick(&Edition::ALL);
            let count = sheets::count_at(edition, size);
            let less = count.wrapping_sub(1);
            let counts = [
                0,
                less,
                count,
                count + 1,
                1 << 29,
                count + (1 << 29),
                u32::MAX,
            ];
            sheets::put_trailer(bytes, edition, random.pick(&counts));
        }
        5 if size >= TRAILER => bytes[size - 1 - random.below(TRAILER)] = random.bits() as u8,
        6 | 7 if size > 0 => bytes[random.below(size)] = random.bits() as u8,
        8..=10 if size > 0 => bytes[random.below(size)] ^= 1 << random.below(8),
        11 if size >= SIZE => {
            // Where a request has its name, or a sheet.
            let end = if size == SIZE { size } else { size - TRAILER };
            names::broken(random, &mut bytes[end - NAME..end]);
        }
        _ if size >= 8 => {
            let at = 8 * random.below(size / 8);
            bytes[at..at + 8].copy_from_slice(&hard(random).to_le_bytes());
        }
        _ => bytes.push(0),
    }
}
