//! Change request 4, the angle page: a checked sheet laid out as lines of text.

use crate::edition::{CORE, Edition};
use crate::operations::{check, formed, program_check};
use crate::{float, request};
use std::ops::Range;

/// The bytes of a line: 64 characters and a line feed.
pub const LINE: usize = 65;
/// The angles of a full page.
pub const ANGLES: usize = 60;
/// The columns of an angle in radians.
pub const COLUMNS: usize = 16;
/// What `show_pages` writes between two pages.
const FORM_FEED: u8 = 12;

/// The angle of these bits with nine decimals, or asterisks if it is not finite or
/// too long. Rust's formatter rounds the exact value of the float to nearest, ties
/// to even, and keeps the minus of what rounds to zero.
pub fn decimal(bits: u64) -> [u8; COLUMNS] {
    let x = float::of_bits(bits);
    let text = format!("{x:.9}");
    let mut columns = [b' '; COLUMNS];
    match COLUMNS.checked_sub(text.len()) {
        Some(blanks) if x.is_finite() => columns[blanks..].copy_from_slice(text.as_bytes()),
        _ => columns.fill(b'*'),
    }
    columns
}

/// A line of these texts, each behind so many columns, and blanks elsewhere.
fn line_of(texts: &[(usize, &[u8])]) -> [u8; LINE] {
    let mut line = [b' '; LINE];
    for &(behind, text) in texts {
        line[behind..behind + text.len()].copy_from_slice(text);
    }
    line[LINE - 1] = b'\n';
    line
}

/// The line of an angle by its place from 1, which has six digits at most, and
/// its bits.
pub fn line(place: usize, bits: u64) -> [u8; LINE] {
    let (place, digits) = (format!("{place:6}"), format!("{bits:016X}"));
    line_of(&[
        (0, place.as_bytes()),
        (8, digits.as_bytes()),
        (26, &decimal(bits)),
    ])
}

/// The first line of a page: the name in a request, which edition 1 has not.
fn title(request: &[u8]) -> [u8; LINE] {
    let name = request[CORE..].iter();
    let name: Vec<u8> = name
        .map(|&byte| if byte == 0 { b' ' } else { byte })
        .collect();
    line_of(&[(0, &name)])
}

/// The pages of so many angles.
pub fn pages(count: usize) -> u64 {
    count.div_ceil(ANGLES).max(1) as u64
}

/// Which of so many angles stand on a page; none if there is no such page.
fn listed(count: usize, page: u64) -> Option<Range<usize>> {
    if page == 0 || page > pages(count) {
        return None;
    }
    let first = ANGLES * (page as usize - 1);
    Some(first..count.min(first + ANGLES))
}

/// The bytes of a page's text, where there are so many angles.
pub fn size(count: usize, page: u64) -> Option<usize> {
    listed(count, page).map(|listed| LINE * (1 + listed.len()))
}

/// The text of a page of a checked sheet; none if there is no such page.
pub fn page(sheet: &[u8], page: u64) -> Option<Vec<u8>> {
    let (edition, count) = formed(Edition::NEWEST, sheet).ok()?;
    let listed = listed(count, page)?;
    let mut text = title(&sheet[8 * count..][..edition.request_size()]).to_vec();
    for index in listed {
        text.extend(line(index + 1, request::word_at(sheet, 8 * index)));
    }
    Some(text)
}

/// Page: writes the text of a page of a sheet, and returns its length.
pub fn page_text(sheet: &[u8], number: u64, work: &mut [f64], text: &mut [u8]) -> i64 {
    let answer = check(sheet, work);
    if answer < 0 {
        return answer;
    }
    let Some(page) = page(sheet, number) else {
        return -43;
    };
    if text.len() < page.len() {
        return -42;
    }
    text[..page.len()].copy_from_slice(&page);
    page.len() as i64
}

/// Decimal: writes the columns of one angle, and returns how many they are.
pub fn decimal_text(bits: u64, text: &mut [u8]) -> i64 {
    if text.len() < COLUMNS {
        return -42;
    }
    text[..COLUMNS].copy_from_slice(&decimal(bits));
    COLUMNS as i64
}

/// What `show_pages` prints for this standard input: every page, or what
/// `check_sheet` says of a sheet that it does not take.
pub fn pages_output(input: &[u8]) -> Vec<u8> {
    match program_check(input) {
        Err(said) => said.into_bytes(),
        Ok(count) => {
            let numbers = 1..=pages(count);
            let texts: Vec<Vec<u8>> = numbers.filter_map(|number| page(input, number)).collect();
            texts.join(&FORM_FEED)
        }
    }
}
