//! Writes the stored calls of Sampling and Check, a line each: the operation's
//! letter, what is lent and answered, and the request or the sheet, as words
//! of 16 capital hexadecimal digits (`crates/vectors/src/main.rt`). The
//! same lines every time: the fourth of the five parts of crates/vectors/stdin.
//!
//! Of the generated calls those are kept that are small, so many of each kind
//! with its flags and edition, and so many of each refusal.

use lemongully_oracle::edition::{CORE, Edition, TRAILER};
use lemongully_oracle::generate::{names, requests, sheets};
use lemongully_oracle::operations;
use lemongully_oracle::request::{ARM, FROM, OFFSETS, REFERENCES, ROTATION, SIGNS, SIZE, TO};
use lemongully_oracle::stored::{
    Kept, OUTPUT, RUBBISH, digest, inside, is_short, is_small, kinds, line,
};
use std::f64::consts::TAU;
use std::io::{BufWriter, Result, Write};

const SEED: u64 = 1707;

/// A call of Sampling and its answer.
fn sample(lines: &mut impl Write, kept: Option<&mut Kept>, call: &requests::Call) -> Result<()> {
    let room = call.output.min(OUTPUT);
    let mut work = vec![7.5; call.work];
    let mut output = [RUBBISH; OUTPUT];
    let answer = operations::sample(&call.request, &mut work, &mut output[..room]);
    if kept.is_some_and(|kept| !kept.wants(answer, Edition::NEWEST, &call.request)) {
        return Ok(());
    }
    let lent = [call.request.len(), call.work, room].map(|length| length as u64);
    let words = [lent[0], lent[1], lent[2], answer as u64, digest(&output)];
    line(lines, '8', &words, &call.request)
}

/// A call of Check and its answer.
fn check(lines: &mut impl Write, kept: Option<&mut Kept>, call: &sheets::Call) -> Result<()> {
    let mut work = vec![7.5; call.work];
    let answer = operations::check(&call.sheet, &mut work);
    let (edition, request) = inside(&call.sheet);
    if kept.is_some_and(|kept| !kept.wants(answer, edition, request)) {
        return Ok(());
    }
    let words = [call.sheet.len() as u64, call.work as u64, answer as u64];
    line(lines, '9', &words, &call.sheet)
}

/// The job of 01's whole sheet, named: one work place suffices, none is 10, and
/// its 320 bytes are needed. Without a name the request is too short, as edition
/// 1's are.
fn sample_examples(lines: &mut impl Write) -> Result<()> {
    let request = sheets::one_angle_named(NAMED).to_vec();
    for (work, output) in [(1, 320), (0, 320), (1, 319), (4096, OUTPUT)] {
        let request = request.clone();
        let call = requests::Call {
            request,
            work,
            output,
        };
        sample(lines, None, &call)?;
    }
    let earlier = request[..CORE].to_vec();
    sample(lines, None, &plenty(earlier))
}

/// A call of Sampling with room enough.
fn plenty(request: Vec<u8>) -> requests::Call {
    requests::Call {
        request,
        work: 4096,
        output: OUTPUT,
    }
}

/// The name of the examples.
const NAMED: &str = "Gully Antiqua Book";

/// Names by their first bytes, zeros behind them, and by their last byte: right
/// ones, and those that break the rule.
const NAMES: [(&str, u8); 10] = [
    ("", 0),
    (" ~", 0),
    ("Gully Antiqua Book  ", 0),
    ("Gully Grotesk Semibold Condensed", b'd'),
    ("\u{1F}ully", 0),
    ("Gull\u{7F}", 0),
    ("Gully\0Book", 0),
    ("\0ully", 0),
    ("Gully", b'y'),
    ("Gully Grotesk Semibold Condensed", 0x80),
];

/// The request of the examples with a name of these.
fn named((first, last): (&str, u8)) -> [u8; SIZE] {
    let mut request = sheets::one_angle();
    request[CORE..].copy_from_slice(&names::name(first));
    request[SIZE - 1] = last;
    request
}

/// Names for Sampling; 2 comes before 41, and 41 before 3.
fn name_examples(lines: &mut impl Write) -> Result<()> {
    for name in NAMES {
        sample(lines, None, &plenty(named(name).to_vec()))?;
    }
    for (position, byte) in [(3, 1), (SIGNS + 1, 2)] {
        let mut request = named(NAMES[5]).to_vec();
        request[position] = byte;
        sample(lines, None, &plenty(request))?;
    }
    Ok(())
}

/// The edges of what passes 6 and 8: every arm angle 8 or -8, every offset a turn
/// either way, with and without limits, and the next arm angle, which is 6. No inner
/// call of the root finder is refused up to there (change request 5).
fn edge_examples(lines: &mut impl Write) -> Result<()> {
    for kind in 1..=3 {
        for (limits, arm, offset) in [
            (0, 8.0, TAU),
            (0, -8.0, -TAU),
            (1, 8.0, -TAU),
            (1, -8.0, TAU),
            (1, 8f64.next_up(), TAU),
        ] {
            let mut request = sheets::one_angle_named(NAMED);
            request[..3].copy_from_slice(&[kind, limits, 0]);
            let mut fill = |start: usize, count: usize, value: f64| {
                for field in request[start..start + 8 * count].as_chunks_mut::<8>().0 {
                    *field = value.to_le_bytes();
                }
            };
            fill(ROTATION, 3, 0.5);
            fill(ARM, 3, arm);
            fill(REFERENCES, 6, 0.25);
            fill(OFFSETS, 6, offset);
            fill(FROM, 6, -0.5);
            fill(TO, 6, 0.75);
            sample(lines, None, &plenty(request.to_vec()))?;
        }
    }
    Ok(())
}

/// 01's whole sheet in both editions: as it is, with another edition's number, and
/// in edition 2 with other names.
fn check_examples(lines: &mut impl Write) -> Result<()> {
    let mut call = |sheet: &[u8], work: usize| {
        let sheet = sheet.to_vec();
        check(lines, None, &sheets::Call { sheet, work })
    };
    for edition in Edition::ALL {
        let request = sheets::one_angle_named(NAMED);
        let (sheet, _) = sheets::written(edition, &request).expect("01 says that it is accepted");
        call(&sheet, 0)?;
        call(&sheet, 1)?;
        let others = [0, 1, 2, 3, 257];
        for number in others
            .into_iter()
            .filter(|&other| other != edition.number())
        {
            let mut sheet = sheet.clone();
            let at = sheet.len() - TRAILER + 8;
            sheet[at..at + 2].copy_from_slice(&number.to_le_bytes());
            call(&sheet, 1)?;
        }
    }
    let angles = [0.0];
    for name in NAMES {
        let sheet = operations::laid_out(Edition::Two, &named(name), &angles);
        call(&sheet, 1)?;
    }
    Ok(())
}

fn main() -> Result<()> {
    let mut lines = BufWriter::new(std::io::stdout().lock());
    sample_examples(&mut lines)?;
    name_examples(&mut lines)?;
    edge_examples(&mut lines)?;
    check_examples(&mut lines)?;
    let mut kept = Kept::at_most(20, 16);
    for index in 0..4000 {
        for kind in kinds(index) {
            let call = requests::call(SEED, index, &[kind]);
            if is_small(Edition::NEWEST, &call.request) {
                sample(&mut lines, Some(&mut kept), &call)?;
            }
        }
    }
    let mut kept = Kept::at_most(2, 22);
    for index in 0..4000 {
        for kind in kinds(index) {
            let call = sheets::call(SEED, index, &[kind]);
            if is_short(&call.sheet) {
                check(&mut lines, Some(&mut kept), &call)?;
            }
        }
    }
    lines.flush()
}
