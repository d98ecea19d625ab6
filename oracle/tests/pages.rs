//! Change request 4: examples, what holds of every page and decimal, tried over
//! generated ones, and the decimals worked out again over whole numbers.

use lemongully_oracle::corpus::lent;
use lemongully_oracle::edition::{CORE, Edition};
use lemongully_oracle::float::P;
use lemongully_oracle::generate::sheets::{one_angle_named, written};
use lemongully_oracle::generate::{Random, decimals, pages};
use lemongully_oracle::operations::{self, check};
use lemongully_oracle::page::{self, decimal, decimal_text, line, page_text, pages_output};
use std::collections::BTreeSet;

const SEED: u64 = 20;
const FLOATS: u64 = 3_000_000;
const CALLS: u64 = 8_000;
const TWO_FREE: u64 = 60;

/// The decimals of an angle without the blanks before them.
fn shown(x: f64) -> String {
    let columns = decimal(x.to_bits());
    let text = str::from_utf8(&columns).expect("text");
    text.trim_start_matches(' ').to_string()
}

#[test]
fn decimals_of_ties() {
    // 2^-10 and its odd multiples lie midway between two ninth decimals.
    assert_eq!(shown(0.0009765625), "0.000976562");
    assert_eq!(shown(0.0029296875), "0.002929688");
    assert_eq!(shown(-0.0009765625), "-0.000976562");
    assert_eq!(shown(0.0009765625f64.next_up()), "0.000976563");
    assert_eq!(shown(0.0029296875f64.next_down()), "0.002929687");
    assert_eq!(shown(524287.9990234375), "524287.999023438");
    // 2^-11 is no tie.
    assert_eq!(shown(0.00048828125), "0.000488281");
}

#[test]
fn decimals_about_zero() {
    assert_eq!(decimal(0), *b"     0.000000000");
    assert_eq!(decimal(1 << 63), *b"    -0.000000000");
    assert_eq!(shown(1.0e-10), "0.000000000");
    assert_eq!(shown(-1.0e-10), "-0.000000000");
    assert_eq!(shown(-5.0e-324), "-0.000000000");
    // The floats beside 5e-10, which is none.
    assert_eq!(shown(f64::from_bits(0x3E012E0BE826D694)), "0.000000000");
    assert_eq!(shown(f64::from_bits(0x3E012E0BE826D695)), "0.000000001");
}

#[test]
fn decimals_of_angles() {
    assert_eq!(shown(P), "3.141592654");
    assert_eq!(shown(-P), "-3.141592654");
    assert_eq!(shown(2.0 * P), "6.283185307");
    assert_eq!(shown(0.1), "0.100000000");
    assert_eq!(shown(9.9999999996), "10.000000000");
}

#[test]
fn the_longest_decimals() {
    let stars = "****************";
    assert_eq!(shown(999999.999999999), "999999.999999999");
    assert_eq!(shown(999999.9999999994), "999999.999999999");
    assert_eq!(shown(999999.9999999996), stars);
    assert_eq!(shown(1000000.0), stars);
    assert_eq!(shown(-99999.999999999), "-99999.999999999");
    assert_eq!(shown(-99999.9999999994), "-99999.999999999");
    assert_eq!(shown(-99999.9999999996), stars);
    assert_eq!(shown(99999.9999999996), "100000.000000000");
    for x in [f64::MAX, f64::MIN, f64::INFINITY, f64::NEG_INFINITY] {
        assert_eq!(shown(x), stars);
    }
    for bits in [0x7FF8, 0xFFF8, 0x7FF4, 0xFFFF] {
        assert_eq!(shown(f64::from_bits(bits << 48)), stars);
    }
}

#[test]
fn room_for_decimals() {
    let mut text = [0xA5; 18];
    assert_eq!(decimal_text(P.to_bits(), &mut text[..15]), -42);
    assert_eq!(text, [0xA5; 18]);
    assert_eq!(decimal_text(P.to_bits(), &mut text), 16);
    assert_eq!(text, *b"     3.141592654\xA5\xA5");
}

/// 01's whole sheet, as edition 1 was written.
const EARLIER: &[u8; 288] = include_bytes!("../../examples/edition_1.sheet");

/// The line of these characters, and blanks behind them.
fn padded(characters: &str) -> String {
    format!("{characters:64}\n")
}

#[test]
fn a_whole_page() {
    let (sheet, _) = written(Edition::Two, &one_angle_named("Gully Antiqua Book")).expect("01");
    let mut text = [0xA5; 140];
    let room = &mut text[..];
    assert_eq!(page_text(&sheet, 1, &mut [], room), -35);
    assert_eq!(page_text(&sheet, 1, &mut [7.5], &mut room[..129]), -42);
    for page in [0, 2, 1 << 32 | 1, u64::MAX] {
        assert_eq!(page_text(&sheet, page, &mut [7.5], &mut room[..129]), -43);
    }
    assert_eq!(room, [0xA5; 140]);
    let mut work = [7.5];
    assert_eq!(page_text(&sheet, 1, &mut work, room), 130);
    assert_eq!(work[0].to_bits(), 0);
    assert_eq!(text[130..], [0xA5; 10]);
    let lines =
        padded("Gully Antiqua Book") + &padded("     1  0000000000000000       0.000000000");
    assert_eq!(text[..130], *lines.as_bytes());
    assert_eq!(pages_output(&sheet), lines.as_bytes());
    // Edition 1 has no name.
    assert_eq!(page_text(EARLIER, 1, &mut work, &mut text), 130);
    assert_eq!(text[..65], *padded("").as_bytes());
    assert_eq!(text[65..130], lines.as_bytes()[65..]);
}

#[test]
fn lines_of_angles() {
    let line = |place, x: f64| String::from_utf8_lossy(&line(place, x.to_bits())).into_owned();
    let expected = "    61  C00921FB54442D18      -3.141592654";
    assert_eq!(line(61, -P), padded(expected));
    let expected = "351239  3FB999999999999A       0.100000000";
    assert_eq!(line(351239, 0.1), padded(expected));
}

#[test]
fn pages_of_so_many_angles() {
    // Angles, and those on each page.
    let cases: [(usize, u8, u64, &[usize]); 6] = [
        (0, 1, 17, &[0]),
        (59, 1, 1371, &[59]),
        (60, 3, 6270, &[60]),
        (61, 1, 214, &[60, 1]),
        (120, 3, 2028, &[60, 60]),
        (121, 2, 1181, &[60, 60, 1]),
    ];
    for (count, kind, index, pages) in cases {
        let (sheet, _) = written(Edition::Two, &pages::at_border(kind, index)).expect("accepted");
        let (mut text, work) = ([0; 4000], &mut [0.0; 100]);
        assert_eq!(check(&sheet, work), count as i64);
        let mut first = 1;
        for (number, &angles) in (1..).zip(pages) {
            let length = page_text(&sheet, number, work, &mut text);
            assert_eq!(length, 65 * (1 + angles as i64));
            if angles > 0 {
                assert_eq!(text[65..71], *format!("{first:6}").as_bytes());
            }
            first += angles;
        }
        let beyond = pages.len() as u64 + 1;
        assert_eq!(page_text(&sheet, beyond, work, &mut text), -43);
    }
}

/// |x|·10^9 rounded to nearest, ties to even; none for what is 2^52 or more, or not
/// finite.
fn billionths(x: f64) -> Option<u128> {
    let digits = x.to_bits() & ((1 << 52) - 1);
    let (significand, shift) = match x.to_bits() >> 52 & 0x7FF {
        0 => (digits, 1074),
        exponent => (1 << 52 | digits, 1075 - exponent as i64),
    };
    // The product is below 2^83, so that it rounds to zero from 85 on.
    let product = u128::from(significand) * 1_000_000_000;
    match shift {
        ..=0 => None,
        1..=84 => {
            let (whole, rest) = (product >> shift, product & ((1 << shift) - 1));
            let half = 1 << (shift - 1);
            let up = rest > half || rest == half && whole % 2 == 1;
            Some(whole + u128::from(up))
        }
        _ => Some(0),
    }
}

/// The columns of an angle, digit by digit from the last.
fn by_hand(bits: u64) -> [u8; 16] {
    let minus = bits >> 63 == 1;
    let most = 10u128.pow(if minus { 14 } else { 15 });
    let rounded = billionths(f64::from_bits(bits)).filter(|&rounded| rounded < most);
    let Some(mut rest) = rounded else {
        return [b'*'; 16];
    };
    let (mut columns, mut at) = ([b' '; 16], 16);
    for place in 0.. {
        if place == 9 {
            at -= 1;
            columns[at] = b'.';
        }
        at -= 1;
        columns[at] = b'0' + (rest % 10) as u8;
        rest /= 10;
        if place >= 9 && rest == 0 {
            break;
        }
    }
    if minus {
        columns[at - 1] = b'-';
    }
    columns
}

/// Fails unless both ways agree, for either sign.
fn agrees(x: f64) {
    for bits in [x.to_bits(), (-x).to_bits()] {
        assert_eq!(decimal(bits), by_hand(bits), "{bits:016X}");
    }
}

#[test]
fn decimals_are_the_exact_value_rounded() {
    let (mut minus, mut stars, mut ties) = (0, 0, 0);
    for index in 0..FLOATS {
        let bits = decimals::float(&mut Random::new(SEED, index));
        let columns = decimal(bits);
        assert_eq!(columns, by_hand(bits), "{bits:016X}");
        stars += u64::from(columns == [b'*'; 16]);
        minus += u64::from(columns.ends_with(b"-0.000000000"));
        ties += u64::from((f64::from_bits(bits) * 1024.0 % 2.0).abs() == 1.0);
    }
    println!("of {FLOATS}: {stars} asterisks, {minus} minus zero, {ties} ties");
    assert!(
        [stars, minus, ties]
            .iter()
            .all(|&count| count > FLOATS / 50)
    );
}

/// Every tie up to 1024 with its neighbours, every power of 2, and the floats about
/// each number at which the text grows by a digit.
#[test]
fn decimals_where_rounding_turns() {
    for odd in (1..1 << 20).step_by(2) {
        let tie = f64::from(odd) / 1024.0;
        for x in [tie.next_down(), tie, tie.next_up()] {
            agrees(x);
        }
    }
    for exponent in 0..2047 {
        let power = f64::from_bits(exponent << 52);
        agrees(power);
        agrees(power.next_up());
    }
    for digits in 0..8 {
        let end = (10f64.powi(digits) - 5.0e-10).to_bits();
        (end - 5000..end + 5000).for_each(|bits| agrees(f64::from_bits(bits)));
    }
}

#[test]
fn a_decimal_has_its_columns_or_is_refused() {
    for index in 0..100_000 {
        let call = decimals::call(SEED, index);
        let (mut text, before) = (lent(call.text), lent(call.text));
        let number = decimal_text(call.x, &mut text);
        if call.text < 16 {
            assert_eq!((number, text), (-42, before));
        } else {
            assert_eq!((number, &text[..16]), (16, &decimal(call.x)[..]));
            assert_eq!(text[16..], before[16..]);
        }
    }
}

/// Generated calls of all kinds.
fn calls() -> impl Iterator<Item = pages::Call> {
    let one = (0..CALLS).map(|index| pages::call(SEED, index, &[1, 2]));
    one.chain((0..TWO_FREE).map(|index| pages::call(SEED, index, &[3])))
}

/// The check's refusals come first, then 43, then 42.
#[test]
fn pages_are_answered_in_order_and_refusals_leave_the_text() {
    let (mut refusals, mut accepted) = (BTreeSet::new(), 0);
    for call in calls() {
        let mut work = vec![7.5; call.work];
        let checked = check(&call.sheet, &mut work.clone());
        let mut text = lent(call.text);
        let number = page_text(&call.sheet, call.page, &mut work, &mut text);
        assert!(work.iter().all(|place| place.to_bits() == 0));
        let size = page::size(pages::count(&call.sheet), call.page);
        let expected = match (checked, size) {
            (..0, _) => checked,
            (_, None) => -43,
            (_, Some(size)) if size > call.text => -42,
            (_, Some(size)) => size as i64,
        };
        assert_eq!(number, expected);
        let size = number.max(0) as usize;
        assert_eq!(text[size..], lent(call.text)[size..]);
        if number < 0 {
            refusals.insert(-number);
        } else {
            accepted += 1;
        }
    }
    let expected = [31, 32, 33, 34, 35, 36, 42, 43];
    assert_eq!(refusals.into_iter().collect::<Vec<_>>(), expected);
    assert!(accepted > CALLS / 4);
}

/// The sheets at a border in both editions, and generated ones that are accepted.
fn right_sheets() -> Vec<Vec<u8>> {
    let borders = pages::BORDERS.iter().flat_map(|&(count, kind, index)| {
        let request = pages::at_border(kind, index);
        Edition::ALL.map(|edition| {
            let (sheet, _) = written(edition, &request).expect("it is accepted");
            assert_eq!(pages::count(&sheet), count);
            sheet
        })
    });
    let accepted = |sheet: &Vec<u8>| check(sheet, &mut vec![0.5; 4096]) >= 0;
    let generated = calls().map(|call| call.sheet).filter(accepted);
    borders.chain(generated).collect()
}

/// Every page of a sheet, each laid out in exactly its bytes.
fn all_pages(sheet: &[u8]) -> Vec<Vec<u8>> {
    let count = pages::count(sheet);
    let page = |number| {
        let mut text = vec![0; page::size(count, number).expect("there is such a page")];
        let length = page_text(sheet, number, &mut vec![0.5; 4096], &mut text);
        assert_eq!(length, text.len() as i64);
        text
    };
    (1..=page::pages(count)).map(page).collect()
}

/// Place, digits and decimals of an angle's line, which is blank elsewhere.
fn columns(line: &str) -> (&str, &str, &str) {
    for blank in [&line[6..8], &line[24..26], &line[42..]] {
        assert_eq!(blank.trim_start_matches(' '), "");
    }
    (&line[..6], &line[8..24], &line[26..42])
}

#[test]
fn lines_have_64_characters_and_a_line_feed() {
    for sheet in right_sheets() {
        for page in all_pages(&sheet) {
            for line in page.chunks(65) {
                let (characters, end) = line.split_at(64);
                assert!(characters.iter().all(|byte| (32..=126).contains(byte)));
                assert_eq!(end, b"\n");
            }
        }
    }
}

/// Full pages, then one of those that remain; each angle once, in order, with its
/// bits, and no asterisk.
#[test]
fn pages_list_each_angle_once_in_order() {
    for sheet in right_sheets() {
        let (edition, count) = operations::formed(Edition::NEWEST, &sheet).expect("formed");
        let (all, mut place) = (all_pages(&sheet), 0);
        for (number, page) in all.iter().enumerate() {
            let page = str::from_utf8(page).expect("text");
            let mut lines = page.lines();
            let name = &sheet[8 * count + CORE..8 * count + edition.request_size()];
            let name = String::from_utf8_lossy(name).replace('\0', " ");
            assert_eq!(lines.next(), Some(format!("{name:64}").as_str()));
            assert_eq!(lines.clone().count(), 60.min(count - 60 * number));
            for line in lines {
                let bits: [u8; 8] = std::array::from_fn(|at| sheet[8 * place + at]);
                let angle = f64::from_le_bytes(bits);
                place += 1;
                let (found, digits, decimals) = columns(line);
                assert_eq!(found, format!("{place:>6}"));
                assert_eq!(digits, format!("{:016X}", angle.to_bits()));
                let shown: f64 = decimals.trim_start().parse().expect("a number");
                assert!((shown - angle).abs() <= 5.1e-10);
                assert_eq!(decimals.contains('-'), angle.is_sign_negative());
            }
        }
        assert_eq!(place, count);
        assert_eq!(pages_output(&sheet), all.join(&12));
    }
}
