//! Calls of the operation Check: sheets of every edition as laid out, and
//! damaged ones.

use super::{Random, names, requests};
use crate::edition::{CORE, Edition, NAME, TRAILER};
use crate::operations;
use crate::request::{self, SIZE};

/// Numbers of no edition; the low byte alone would say 1 or 2 of some.
const UNKNOWN: [u16; 6] = [0, 3, 256, 257, 258, 65535];

/// Lengths about the shortest sheets of both editions.
const SHORT: [usize; 8] = [279, 280, 281, 288, 311, 312, 313, 320];

/// A call of Check: the sheet and the number of work places.
#[derive(Clone, Debug)]
pub struct Call {
    pub sheet: Vec<u8>,
    pub work: usize,
}

/// Calls of all sorts, for requests of these kinds.
pub fn calls(seed: u64, count: usize, kinds: &[u8]) -> Vec<Call> {
    (0..count as u64)
        .map(|index| call(seed, index, kinds))
        .collect()
}

/// One call: three sheets of sixteen are undamaged.
pub fn call(seed: u64, index: u64, kinds: &[u8]) -> Call {
    let random = &mut Random::new(seed, index);
    let kind = random.pick(kinds);
    let request = match random.below(8) {
        0 => one_angle(),
        _ => requests::accepted(random, kind).bytes,
    };
    let edition = random.pick(&Edition::ALL);
    let Some((mut sheet, cuts)) = written(edition, &request) else {
        return Call {
            sheet: request.to_vec(),
            work: 0,
        };
    };
    match random.below(16) {
        0..9 => damage(random, edition, &mut sheet),
        9..13 => damage_edition(random, edition, &mut sheet),
        _ => {}
    }
    let work = places(random, cuts);
    Call { sheet, work }
}

/// The work places for so many cuts: mostly enough, else one short or any number.
pub fn places(random: &mut Random, cuts: usize) -> usize {
    match random.below(6) {
        0 => cuts.saturating_sub(1),
        1 => random.below(cuts + 1),
        2 => cuts,
        _ => operations::PROGRAM_WORK,
    }
}

/// The request of 01's whole sheet, without a name: its one angle is zero.
pub fn one_angle() -> [u8; SIZE] {
    let mut draft = requests::Draft { bytes: [0; SIZE] };
    draft.bytes[..3].copy_from_slice(&[2, 1, 1]);
    draft.bytes[request::SIGNS..request::SIGNS + 6].fill(1);
    draft.put(request::ROTATION + 24, 1.0);
    draft.put(request::FROM + 8, 2.0 * crate::float::P);
    draft.bytes
}

/// That request with a name.
pub fn one_angle_named(name: &str) -> [u8; SIZE] {
    let mut request = one_angle();
    request[CORE..].copy_from_slice(&names::name(name));
    request
}

/// The sheet that an edition lays out for a request, or for as much of it as the
/// edition has; and its cuts.
pub fn written(edition: Edition, request: &[u8; SIZE]) -> Option<(Vec<u8>, usize)> {
    let request = &request[..edition.request_size()];
    let sampled = operations::sampled(edition, request).ok()?;
    let sheet = operations::laid_out(edition, request, &sampled.angles);
    Some((sheet, sampled.notes.cuts))
}

/// Damages a sheet of this edition in one of thirteen ways.
fn damage(random: &mut Random, edition: Edition, sheet: &mut Vec<u8>) {
    let size = sheet.len();
    let angles = size - edition.frame();
    let count = angles / 8;
    match random.below(13) {
        0 => sheet[random.below(size)] ^= 1 << random.below(8),
        1 => sheet[size - 1 - random.below(TRAILER)] ^= 1 << random.below(8),
        2 => sheet[angles + random.below(edition.request_size())] = random.bits() as u8,
        3 => sheet.truncate(random.below(size)),
        4 => sheet.truncate(size - 1),
        5 => sheet.extend([0; 8]),
        6 => sheet.push(0),
        7 if count > 1 => {
            let at = 8 * random.below(count - 1);
            let (left, right) = sheet.split_at_mut(at + 8);
            left[at..].swap_with_slice(&mut right[..8]);
        }
        8 => sign_of_zero(random, sheet, 0, angles),
        9 => sign_of_zero(random, sheet, angles + 16, angles + CORE),
        10 => unread_byte(random, edition, sheet),
        11 => {
            if random.once_in(2) || count == 0 {
                sheet.splice(0..0, [0; 8]);
            } else {
                sheet.drain(..8);
            }
            let count = count_at(edition, sheet.len());
            put_trailer(sheet, edition, count);
        }
        _ => {
            // The length is right for n modulo 2^29 alone.
            let at = size - TRAILER;
            let count = count as u32 + (1 << 29);
            sheet[at..at + 4].copy_from_slice(&count.to_le_bytes());
        }
    }
}

/// Damages a sheet of this edition where editions differ: number, length, name.
/// Another edition or name may leave it right.
fn damage_edition(random: &mut Random, edition: Edition, sheet: &mut Vec<u8>) {
    let other = match edition {
        Edition::One => Edition::Two,
        Edition::Two => Edition::One,
    };
    match random.below(8) {
        0 => put_edition(sheet, other.number()),
        1 => put_edition(sheet, random.pick(&UNKNOWN)),
        2 => resize_name(random, edition, sheet),
        3 => {
            resize_name(random, edition, sheet);
            put_edition(sheet, other.number());
        }
        4 => {
            // The other edition's trailer for this length, so that the request is
            // looked for 32 bytes away.
            let count = count_at(other, sheet.len());
            put_trailer(sheet, other, count);
        }
        5 => {
            // The end alone, so that the trailer stands as it was, or with the n
            // of this length.
            let length = random.pick(&SHORT);
            let missing = length.saturating_sub(sheet.len());
            sheet.splice(0..0, vec![0; missing]);
            sheet.drain(..sheet.len() - length);
            if random.once_in(2) {
                put_trailer(sheet, edition, count_at(edition, length));
            }
        }
        way => {
            // Edition 1 has limits in the place of a name.
            let end = sheet.len() - TRAILER;
            match (edition, way) {
                (Edition::One, _) => sheet[end - 1 - random.below(NAME)] ^= 1 << random.below(8),
                (_, 6) => names::broken(random, &mut sheet[end - NAME..end]),
                _ => names::neighbour(random, &mut sheet[end - NAME..end]),
            }
        }
    }
}

/// Takes the name out of a sheet, or puts one in; number and n stay.
fn resize_name(random: &mut Random, edition: Edition, sheet: &mut Vec<u8>) {
    let end = sheet.len() - TRAILER;
    match edition {
        Edition::One => {
            sheet.splice(end..end, names::right(random));
        }
        Edition::Two => {
            sheet.drain(end - NAME..end);
        }
    }
}

/// Writes an edition's number into the trailer.
fn put_edition(sheet: &mut [u8], number: u16) {
    let at = sheet.len() - TRAILER + 8;
    sheet[at..at + 2].copy_from_slice(&number.to_le_bytes());
}

/// The n of a sheet of this edition and length, rounded down.
pub fn count_at(edition: Edition, length: usize) -> u32 {
    (length.saturating_sub(edition.frame()) / 8) as u32
}

/// Writes a trailer of this edition and n over the last bytes, if there are so
/// many.
pub fn put_trailer(sheet: &mut [u8], edition: Edition, count: u32) {
    let Some(at) = sheet.len().checked_sub(TRAILER) else {
        return;
    };
    let trailer = &mut sheet[at..];
    trailer.fill(0);
    trailer[..4].copy_from_slice(&count.to_le_bytes());
    trailer[4..8].copy_from_slice(&count.wrapping_mul(8).to_le_bytes());
    trailer[8..10].copy_from_slice(&edition.number().to_le_bytes());
}

/// Turns a +0.0 between two positions into -0.0, if there is one.
fn sign_of_zero(random: &mut Random, sheet: &mut [u8], first: usize, end: usize) {
    let zeros: Vec<usize> = (first..end)
        .step_by(8)
        .filter(|&at| request::word_at(sheet, at) == 0)
        .collect();
    if !zeros.is_empty() {
        sheet[random.pick(&zeros) + 7] = 0x80;
    }
}

/// Sets a byte of an unread field of the request inside, if there is one.
fn unread_byte(random: &mut Random, edition: Edition, sheet: &mut [u8]) {
    let angles = sheet.len() - edition.frame();
    let read = request::read_bytes(&sheet[angles..]);
    let unread: Vec<usize> = (0..CORE).filter(|&at| !read[at]).collect();
    if !unread.is_empty() {
        sheet[angles + random.pick(&unread)] = random.pick(&[1, 128, 255]);
    }
}
