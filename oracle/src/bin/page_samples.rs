//! Writes the stored decimals and pages, a line each: D, a float and its columns; 0,
//! what is lent to the operation and answered, and the sheet, as words of 16 capital
//! hexadecimal digits (`crates/vectors/src/main.rt`). The same lines every time: the
//! last of the five parts of crates/vectors/stdin.
//!
//! Of the generated calls those are kept that are small, so many of each kind with
//! its flags and edition, and so many of each refusal; the sheets about full pages
//! are longer.

use lemongully_oracle::edition::{CORE, Edition};
use lemongully_oracle::float::P;
use lemongully_oracle::generate::{Random, decimals, names, pages, sheets};
use lemongully_oracle::page::{self, decimal, page_text};
use lemongully_oracle::stored::{Kept, OUTPUT, RUBBISH, digest, inside, is_short, kinds, line};
use std::io::{BufWriter, Result, Write};

const SEED: u64 = 1707;

/// The generated floats.
const FLOATS: u64 = 1800;

/// The floats of change request 4's words: ties, what rounds to zero, the longest
/// and those that are too long.
const EXAMPLES: [f64; 16] = [
    0.0,
    0.0009765625,
    0.0029296875,
    0.00048828125,
    1.0e-10,
    5.0e-10,
    5.0e-324,
    0.1,
    P,
    2.0 * P,
    99999.999999999,
    99999.9999999996,
    999999.999999999,
    999999.9999999996,
    f64::INFINITY,
    f64::NAN,
];

/// A float and its columns.
fn decimal_line(lines: &mut impl Write, x: u64) -> Result<()> {
    line(lines, 'D', &[x], &decimal(x))
}

/// The examples with either sign, and generated floats.
fn decimal_lines(lines: &mut impl Write) -> Result<()> {
    for x in EXAMPLES {
        decimal_line(lines, x.to_bits())?;
        decimal_line(lines, (-x).to_bits())?;
    }
    for index in 0..FLOATS {
        decimal_line(lines, decimals::float(&mut Random::new(SEED, index)))?;
    }
    Ok(())
}

/// A call for a page and its answer.
fn page_line(lines: &mut impl Write, kept: Option<&mut Kept>, call: &pages::Call) -> Result<()> {
    let mut work = vec![7.5; call.work];
    let mut text = [RUBBISH; OUTPUT];
    let answer = page_text(&call.sheet, call.page, &mut work, &mut text[..call.text]);
    let (edition, request) = inside(&call.sheet);
    if kept.is_some_and(|kept| !kept.wants(answer, edition, request)) {
        return Ok(());
    }
    let [bytes, places, room] = [call.sheet.len(), call.work, call.text].map(|n| n as u64);
    let words = [bytes, call.page, places, room, answer as u64, digest(&text)];
    line(lines, '0', &words, &call.sheet)
}

/// 01's whole sheet in both editions: one page of 130 bytes, one work place. 43 comes
/// before 42, and 35 before both.
fn page_examples(lines: &mut impl Write) -> Result<()> {
    for edition in Edition::ALL {
        let request = sheets::one_angle_named("Gully Antiqua Book");
        let (sheet, _) = sheets::written(edition, &request).expect("01 says that it is accepted");
        let calls = [
            (1, 1, 130),
            (1, 1, OUTPUT),
            (1, 1, 129),
            (0, 1, 129),
            (2, 1, 0),
            (1 << 32 | 1, 1, 130),
            (u64::MAX, 1, 130),
            (2, 0, 0),
        ];
        for (page, work, text) in calls {
            let sheet = sheet.clone();
            let call = pages::Call {
                sheet,
                page,
                work,
                text,
            };
            page_line(lines, None, &call)?;
        }
    }
    Ok(())
}

/// The sheets about full pages, one of each number of angles: every page with exactly
/// its bytes, the last with one too few, and the one after it.
fn full_pages(lines: &mut impl Write) -> Result<()> {
    let mut stored = None;
    for (count, kind, index) in pages::BORDERS {
        if stored == Some(count) {
            continue;
        }
        stored = Some(count);
        let mut request = pages::at_border(kind, index);
        request[CORE..].copy_from_slice(&names::name("Gully Text Light Italic"));
        let (sheet, cuts) = sheets::written(Edition::Two, &request).expect("it is accepted");
        let last = page::pages(count);
        let exact = |page| page::size(count, page).unwrap_or(OUTPUT);
        let rooms = (1..=last + 1).map(|page| (page, exact(page)));
        for (page, text) in rooms.chain([(last, exact(last) - 1)]) {
            let sheet = sheet.clone();
            let call = pages::Call {
                sheet,
                page,
                work: cuts,
                text,
            };
            page_line(lines, None, &call)?;
        }
    }
    Ok(())
}

fn main() -> Result<()> {
    let mut lines = BufWriter::new(std::io::stdout().lock());
    decimal_lines(&mut lines)?;
    page_examples(&mut lines)?;
    full_pages(&mut lines)?;
    let mut kept = Kept::at_most(3, 10);
    for index in 0..2000 {
        for kind in kinds(index) {
            let call = pages::call(SEED, index, &[kind]);
            if is_short(&call.sheet) {
                page_line(&mut lines, Some(&mut kept), &call)?;
            }
        }
    }
    lines.flush()
}
