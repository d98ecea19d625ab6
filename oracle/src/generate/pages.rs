//! Calls for a page of a sheet: sheets right and damaged, pages that they have and
//! others, and texts of all lengths.

use super::{Random, names, requests, sheets};
use crate::edition::{CORE, Edition};
use crate::operations;
use crate::page;
use crate::request::SIZE;

/// A call: the sheet, the page's number, the work places and the text's bytes.
#[derive(Clone, Debug)]
pub struct Call {
    pub sheet: Vec<u8>,
    pub page: u64,
    pub work: usize,
    pub text: usize,
}

/// The seed of the requests below.
const SEED: u64 = 60;

/// Numbers of angles about full pages, each with kind and index of requests that
/// have so many. Kinds 1 and 2 have no multiple of 4 but 0: an interval of c cuts
/// has 4c - 3 angles, and there are three intervals at most.
pub const BORDERS: [(usize, u8, u64); 21] = [
    (0, 1, 17),
    (0, 2, 7),
    (0, 3, 17),
    (1, 1, 42),
    (1, 2, 34),
    (59, 1, 1371),
    (59, 2, 84),
    (59, 3, 5645),
    (60, 3, 6270),
    (60, 3, 7028),
    (61, 1, 214),
    (61, 2, 340),
    (61, 3, 2221),
    (119, 1, 1464),
    (119, 2, 586),
    (119, 3, 4498),
    (120, 3, 2028),
    (120, 3, 3306),
    (121, 1, 248),
    (121, 2, 1181),
    (121, 3, 8499),
];

/// One call, for requests of these kinds; some at a border are of kind 3 in any
/// case.
pub fn call(seed: u64, index: u64, kinds: &[u8]) -> Call {
    let random = &mut Random::new(seed, index);
    let sheets::Call { sheet, work } = match random.below(8) {
        0 | 1 => sheets::call(random.bits(), 0, kinds),
        2 => {
            let kinds = if random.once_in(40) { &[3] } else { kinds };
            let of_kinds = BORDERS.iter().filter(|(_, kind, _)| kinds.contains(kind));
            let of_kinds: Vec<_> = of_kinds.collect();
            let &(_, kind, index) = random.pick(&of_kinds);
            let request = at_border(kind, index);
            right(random, request)
        }
        _ => {
            let kind = random.pick(kinds);
            let request = requests::accepted(random, kind).bytes;
            right(random, request)
        }
    };
    let count = count(&sheet);
    let page = number(random, count);
    let text = room(random, count, page);
    Call {
        sheet,
        page,
        work,
        text,
    }
}

/// A request of the list above, by its kind and index.
pub fn at_border(kind: u8, index: u64) -> [u8; SIZE] {
    requests::accepted(&mut Random::new(SEED, index), kind).bytes
}

/// The sheet of a request, with a name of any sort, in one of the editions.
fn right(random: &mut Random, mut request: [u8; SIZE]) -> sheets::Call {
    request[CORE..].copy_from_slice(&names::right(random));
    let edition = random.pick(&Edition::ALL);
    let (sheet, cuts) = sheets::written(edition, &request).unwrap_or((request.to_vec(), 0));
    let work = sheets::places(random, cuts);
    sheets::Call { sheet, work }
}

/// The n of a sheet, 0 of one that is not formed.
pub fn count(sheet: &[u8]) -> usize {
    operations::formed(Edition::NEWEST, sheet).map_or(0, |(_, count)| count)
}

/// A page's number: mostly one that there is; else 0, those past the last, and
/// those that are right in their low bits alone.
pub fn number(random: &mut Random, count: usize) -> u64 {
    let last = page::pages(count);
    match random.below(16) {
        0 => 0,
        1 | 2 => last + 1,
        3 => random.pick(&[u64::MAX, 1 << 63, last + 2, random.clone().bits()]),
        4 => random.pick(&[1 << 32, 1 << 16, 1 << 8]) + last,
        5..8 => last,
        8..11 => 1,
        _ => 1 + random.below(last as usize) as u64,
    }
}

/// The text's bytes: mostly enough, else one too few, a line too few, or none.
/// Where there is no such page, about the first page's.
fn room(random: &mut Random, count: usize, number: u64) -> usize {
    let first = page::size(count, 1).unwrap_or_default();
    let size = page::size(count, number).unwrap_or(first);
    match random.below(16) {
        0 => 0,
        1 | 2 => size - 1,
        3 => size - page::LINE,
        4 => random.below(size),
        5 => size + random.below(page::LINE),
        6..11 => size,
        _ => 4096,
    }
}
