//! What the programs share that write stored calls of operations: the lines, which
//! calls are kept, and what is lent (`crates/vectors/src/main.rt`).

use crate::edition::Edition;
use crate::operations;
use std::collections::BTreeMap;
use std::io::{Result, Write};

/// The bytes of the output, of which a call is lent the first.
pub const OUTPUT: usize = 8192;
/// What they hold beforehand.
pub const RUBBISH: u8 = 165;

/// The most inner calls of the root finder for which a request is small.
const CALLS: usize = 200;
/// The longest sheet that is stored, but for examples.
const SHEET: usize = 632;

/// The calls that were kept, by their sort: an edition and a kind with its flags,
/// or a refusal.
pub struct Kept {
    successes: usize,
    refusals: usize,
    counts: BTreeMap<(i64, [u8; 3]), usize>,
}

impl Kept {
    /// None yet, and so many at most of each edition and kind with its flags, and
    /// of each refusal.
    pub fn at_most(successes: usize, refusals: usize) -> Self {
        let counts = BTreeMap::new();
        Self {
            successes,
            refusals,
            counts,
        }
    }

    /// Whether one more of this sort is wanted, which is then counted.
    pub fn wants(&mut self, answer: i64, edition: Edition, request: &[u8]) -> bool {
        let (sort, most) = if answer < 0 {
            ((answer, [0; 3]), self.refusals)
        } else {
            let head = [request[0], request[1], request[2]];
            ((i64::from(edition.number()), head), self.successes)
        };
        let count = self.counts.entry(sort).or_default();
        *count += 1;
        *count <= most
    }
}

/// FNV-1a of 64 bits.
pub fn digest(bytes: &[u8]) -> u64 {
    bytes.iter().fold(0xCBF29CE484222325, |sum, &byte| {
        (sum ^ u64::from(byte)).wrapping_mul(0x100000001B3)
    })
}

/// A line: the letter, the words, and the bytes, eight to a word.
pub fn line(lines: &mut impl Write, letter: char, words: &[u64], bytes: &[u8]) -> Result<()> {
    write!(lines, "{letter}")?;
    for word in words {
        write!(lines, " {word:016X}")?;
    }
    for eight in bytes.chunks(8) {
        let mut word = [0; 8];
        word[..eight.len()].copy_from_slice(eight);
        write!(lines, " {:016X}", u64::from_be_bytes(word))?;
    }
    writeln!(lines)
}

/// Whether sampling a request of this edition, if it comes to that, takes few
/// inner calls.
pub fn is_small(edition: Edition, request: &[u8]) -> bool {
    operations::sampled(edition, request).map_or(true, |sampled| sampled.notes.inner.calls <= CALLS)
}

/// Edition and request of a sheet; of one that is refused as 31 or 32, no byte.
pub fn inside(sheet: &[u8]) -> (Edition, &[u8]) {
    match operations::formed(Edition::NEWEST, sheet) {
        Ok((edition, count)) => (edition, &sheet[8 * count..][..edition.request_size()]),
        Err(_) => (Edition::NEWEST, &[]),
    }
}

/// Whether a generated sheet is stored.
pub fn is_short(sheet: &[u8]) -> bool {
    let (edition, request) = inside(sheet);
    sheet.len() <= SHEET && is_small(edition, request)
}

/// The kinds of the generated calls of an index: fewer of kind 3, which takes longer.
pub fn kinds(index: u64) -> std::ops::RangeInclusive<u8> {
    1..=if index < 300 { 3 } else { 2 }
}
