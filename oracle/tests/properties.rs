//! What holds of every call, tried over generated ones.

use lemongully_oracle::corpus::{self, Answer, Case};
use lemongully_oracle::edition::{CORE, Edition, NAME, TRAILER};
use lemongully_oracle::generate::requests::{self, Draft};
use lemongully_oracle::generate::{Random, hostile, names, roots, sheets};
use lemongully_oracle::observe::{self, Inner, LENT};
use lemongully_oracle::request::{self, SIZE};
use lemongully_oracle::{operations, page};
use std::collections::BTreeSet;

const SEED: u64 = 20;
const ONE_FREE: u64 = 20_000;
const TWO_FREE: u64 = 250;
const HOSTILE: u64 = 5_000;

/// The bytes of a new sheet beside its angles.
const FRAME: usize = Edition::NEWEST.frame();

/// Requests of 296 bytes, accepted or not.
fn requests() -> impl Iterator<Item = [u8; SIZE]> {
    let one = (0..ONE_FREE).map(|index| requests::request(SEED, index, &[1, 2]));
    let two = (0..TWO_FREE).map(|index| requests::request(SEED, index, &[3]));
    one.chain(two).filter_map(|bytes| bytes.try_into().ok())
}

/// Sampling with room enough: the answer and the output.
fn sampled(bytes: &[u8]) -> (i64, Vec<u8>) {
    let (mut work, mut output) = (vec![f64::NAN; 8192], vec![0x5A; 32768]);
    let answer = operations::sample(bytes, &mut work, &mut output);
    assert!(work.iter().all(|place| place.to_bits() == 0));
    (answer, output)
}

/// Calls of sampling with lent lengths of all sorts.
fn sample_calls() -> impl Iterator<Item = requests::Call> {
    let one = (0..ONE_FREE).map(|index| requests::call(SEED, index, &[1, 2]));
    one.chain((0..TWO_FREE / 4).map(|index| requests::call(SEED, index, &[3])))
}

#[test]
fn refused_sampling_leaves_the_output_and_clears_work() {
    let mut refusals = BTreeSet::new();
    for call in sample_calls() {
        let places = call.work;
        let before: Vec<u64> = {
            let untouched: Vec<u8> = (0..call.output).map(|at| (at % 251) as u8).collect();
            untouched.chunks(8).map(little).collect()
        };
        let Answer { number, words } = Case::Sample(call).answer();
        assert!(words[..places].iter().all(|&place| place == 0));
        if number < 0 {
            assert_eq!(words[places..], before);
            refusals.insert(-number);
        } else {
            let size = number as usize + FRAME / 8;
            assert!(words.len() - places >= size);
            assert_eq!(words[places + size..], before[size..]);
        }
    }
    let expected = [1, 2, 3, 4, 5, 6, 7, 8, 10, 11, 41];
    assert_eq!(refusals.into_iter().collect::<Vec<_>>(), expected);
}

/// Up to eight bytes as a number, the first lowest.
fn little(bytes: &[u8]) -> u64 {
    bytes
        .iter()
        .rev()
        .fold(0, |word, &byte| word << 8 | u64::from(byte))
}

#[test]
fn exactly_the_counted_room_suffices() {
    for bytes in requests().step_by(7) {
        let Ok(found) = operations::sampled(Edition::NEWEST, &bytes) else {
            continue;
        };
        let (cuts, size) = (found.notes.cuts, 8 * found.angles.len() + FRAME);
        let mut output = vec![0; size];
        let mut work = vec![1.0; cuts];
        let count = operations::sample(&bytes, &mut work, &mut output);
        assert_eq!(count, found.angles.len() as i64);
        assert_eq!(operations::check(&output, &mut work), count);
        assert_eq!(
            operations::sample(&bytes, &mut work, &mut vec![0; size - 1]),
            -11
        );
        if cuts > 0 {
            let short = &mut work[..cuts - 1];
            assert_eq!(operations::sample(&bytes, short, &mut output), -10);
            assert_eq!(operations::check(&output, short), -35);
        }
    }
}

#[test]
fn check_accepts_what_sampling_writes() {
    for bytes in requests() {
        let (answer, output) = sampled(&bytes);
        if answer >= 0 {
            let sheet = &output[..8 * answer as usize + FRAME];
            assert_eq!(operations::check(sheet, &mut vec![0.5; 8192]), answer);
        }
    }
}

#[test]
fn unread_fields_do_not_matter() {
    for (index, bytes) in requests().enumerate() {
        let mut other = Draft { bytes };
        other.scramble_unread(&mut Random::new(SEED, index as u64));
        assert_eq!(request::blanked(&other.bytes), request::blanked(&bytes));
        assert_eq!(sampled(&other.bytes), sampled(&bytes));
    }
}

#[test]
fn read_fields_are_in_the_sheet() {
    for (index, bytes) in requests().filter(|bytes| bytes[0] < 3).enumerate() {
        let (answer, output) = sampled(&bytes);
        if answer < 0 {
            continue;
        }
        let random = &mut Random::new(SEED + 1, index as u64);
        let read = request::read_bytes(&bytes);
        let position = random.below(SIZE);
        let mut other = bytes;
        other[position] ^= 1 << random.below(8);
        let (changed, sheet) = sampled(&other);
        if changed >= 0 {
            assert_eq!(sheet == output, !read[position]);
        }
    }
}

/// The request with another right name.
fn renamed(bytes: &[u8; SIZE], random: &mut Random) -> [u8; SIZE] {
    let mut other = *bytes;
    other[CORE..].copy_from_slice(&names::right(random));
    other
}

/// The sheet without its name.
fn nameless(answer: i64, mut output: Vec<u8>) -> Vec<u8> {
    let name = 8 * answer as usize + CORE;
    output.drain(name..name + NAME);
    output
}

#[test]
fn names_stand_in_the_sheet_and_alter_nothing_else() {
    for (index, bytes) in requests().enumerate() {
        let random = &mut Random::new(SEED + 2, index as u64);
        let [one, other] = [(); 2].map(|()| renamed(&bytes, random));
        let ((answer, sheet), (again, changed)) = (sampled(&one), sampled(&other));
        assert_eq!(answer, again);
        if answer < 0 {
            continue;
        }
        // Sheets are the same exactly if the names are.
        assert_eq!(sheet == changed, one == other);
        let name = 8 * answer as usize + CORE;
        assert_eq!(sheet[name..name + NAME], one[CORE..]);
        assert_eq!(nameless(answer, sheet), nameless(answer, changed));
    }
}

#[test]
fn a_broken_name_is_refused_unless_the_head_is() {
    for (index, bytes) in requests().enumerate() {
        let random = &mut Random::new(SEED + 3, index as u64);
        let mut broken = renamed(&bytes, random);
        let expected = match sampled(&broken).0 {
            -2 => -2,
            _ => -41,
        };
        names::broken(random, &mut broken[CORE..]);
        assert_eq!(sampled(&broken).0, expected);
    }
}

/// Edition and n of a sheet, as the newest check sees them.
fn formed(sheet: &[u8]) -> Option<(Edition, usize)> {
    operations::formed(Edition::NEWEST, sheet).ok()
}

/// Generated bytes for Check, damaged sheets and hostile ones, each with a number
/// of work places.
fn check_calls() -> impl Iterator<Item = sheets::Call> {
    let damaged = sheets::calls(SEED, 6000, &[1, 2]).into_iter();
    let damaged = damaged.chain(sheets::calls(SEED, 60, &[3]));
    let hostile = (0..HOSTILE).map(|index| hostile::case(SEED, index));
    damaged.chain(hostile.filter_map(|case| match case {
        Case::Check(call) => Some(call),
        _ => None,
    }))
}

#[test]
fn an_earlier_check_refuses_what_sampling_writes_now() {
    for (index, bytes) in requests().enumerate() {
        let (answer, output) = sampled(&bytes);
        if answer >= 0 {
            let sheet = &output[..8 * answer as usize + FRAME];
            let places = Random::new(SEED + 4, index as u64).pick(&[0, 1, 4096]);
            let work = &mut vec![0.5; places];
            assert_eq!(operations::check_as(Edition::One, sheet, work), -32);
        }
    }
}

#[test]
fn sheets_of_edition_1_are_answered_as_before() {
    let (mut earlier_accepts, mut now_alone) = (0, 0);
    for call in check_calls() {
        let number = call.sheet.len().checked_sub(TRAILER - 8);
        let says = |edition: u8| number.is_some_and(|at| call.sheet[at..at + 2] == [edition, 0]);
        let answer = |newest| operations::check_as(newest, &call.sheet, &mut vec![0.5; call.work]);
        let (before, now) = (answer(Edition::One), answer(Edition::Two));
        assert_eq!(
            now,
            operations::check(&call.sheet, &mut vec![0.5; call.work])
        );
        if says(1) || before >= 0 {
            assert_eq!(before, now);
            earlier_accepts += u32::from(before >= 0);
        }
        // Nothing but edition 2 is answered otherwise, which was 32.
        if before != now {
            assert!(before == -32 && says(2));
            now_alone += u32::from(now >= 0);
        }
    }
    assert!(earlier_accepts > 500 && now_alone > 500);
}

#[test]
fn editions_have_the_same_angles() {
    for bytes in requests().step_by(3) {
        let unnamed = |edition: Edition| {
            let bytes = &bytes[..edition.request_size()];
            operations::sampled(edition, bytes).map(|found| (found.angles, found.notes.cuts))
        };
        let (one, two) = (unnamed(Edition::One), unnamed(Edition::Two));
        assert!(one == two || two == Err(41));
        let (Ok((angles, cuts)), Ok(_)) = (one, two) else {
            continue;
        };
        let work = &mut vec![0.5; cuts];
        let [one, two] = Edition::ALL.map(|edition| {
            let sheet = operations::laid_out(edition, &bytes[..edition.request_size()], &angles);
            assert_eq!(operations::check(&sheet, work), angles.len() as i64);
            assert_eq!(formed(&sheet), Some((edition, angles.len())));
            sheet
        });
        let end = 8 * angles.len() + CORE;
        assert_eq!(one[..end], two[..end]);
        assert_eq!(one.len() + NAME, two.len());
    }
}

#[test]
fn angles_are_finite_and_within_two_turns() {
    for bytes in requests() {
        if let Ok(found) = operations::sampled(Edition::NEWEST, &bytes) {
            let bound = 2.0 * std::f64::consts::PI;
            assert!(found.angles.iter().all(|angle| angle.abs() <= bound));
            assert!(found.angles.iter().all(|angle| angle.to_bits() != 1 << 63));
            if bytes[0] == 3 {
                assert!(found.angles.windows(2).all(|pair| pair[0] < pair[1]));
            }
        }
    }
}

/// Change request 5: within the domain Roots would refuse no inner call. The bounds
/// stay beside ±1 and the parts far below 2^400.
#[test]
fn no_inner_call_is_refused() {
    let mut inner = Inner::default();
    for bytes in requests() {
        if let Ok(found) = operations::sampled(Edition::NEWEST, &bytes) {
            inner = inner.and(found.notes.inner);
        }
    }
    let hostile = (0..HOSTILE).map(|index| hostile::case(SEED, index));
    let checked = check_calls().map(Case::Check);
    for case in checked.chain(hostile) {
        observe::reset();
        case.answer();
        inner = inner.and(observe::notes().inner);
    }
    println!("{inner}");
    assert_eq!(inner.refused, 0);
    assert!(inner.calls > 20_000 && inner.coefficients == 9);
    assert!((1.0..1.0 + 1.0e-9).contains(&inner.bound));
    assert!(inner.part < 1.0e30 && inner.roots <= LENT);
}

/// A call of Roots: its answer, the result and the kinds.
fn found(call: &roots::Call) -> (i64, Vec<f64>, Vec<u64>) {
    let Answer { number, words } = Case::Roots(call.clone()).answer();
    let (result, kinds) = words.split_at(call.result);
    let result = result.iter().map(|&root| f64::from_bits(root)).collect();
    assert_eq!(kinds.len(), call.kinds);
    (number, result, kinds.to_vec())
}

#[test]
fn roots_answers_are_in_order_and_between_the_bounds() {
    let mut refusals = BTreeSet::new();
    for call in roots::calls(SEED, 6000) {
        let (number, result, kinds) = found(&call);
        let (roots, rest) = result.split_at(number.max(0) as usize);
        assert!(rest.iter().all(|&place| place == 7.5));
        assert!(kinds[roots.len()..].iter().all(|&byte| byte == 0xA5));
        if number < 0 {
            refusals.insert(-number);
            continue;
        }
        let between = |root: &f64| call.lower <= *root && *root <= call.upper;
        assert!(roots.iter().all(between));
        assert!(roots.windows(2).all(|pair| pair[0] < pair[1]));
        let most = degree(&call.coefficients).map_or(0, |degree| (2 << degree) - 3);
        assert!(roots.len() <= most);
    }
    assert_eq!(refusals.into_iter().collect::<Vec<_>>(), [21, 22, 23, 24]);
}

#[test]
fn kinds_are_touches_and_crossings() {
    let mut seen = BTreeSet::new();
    for call in roots::calls(SEED, 6000) {
        let (number, result, kinds) = found(&call);
        let values = operations::root_values(&call.coefficients, call.lower, call.upper);
        let (Ok(values), 0..) = (values, number) else {
            continue;
        };
        assert_eq!(values.len(), number as usize);
        let first = degree(&call.coefficients) == Some(1);
        for (value, (root, kind)) in std::iter::zip(values, std::iter::zip(result, kinds)) {
            assert_eq!(value.to_bits(), root.to_bits());
            assert!(kind == 1 || kind == 2);
            // A quotient is a crossing, and no bisection ends in -0.0.
            assert!(!first || kind == 2);
            assert!(first || kind == 1 || root.to_bits() != 1 << 63);
            let bound = root == call.lower || root == call.upper;
            seen.insert((kind, bound, root == 0.0));
        }
    }
    assert_eq!(seen.len(), 8);
}

#[test]
fn roots_need_as_many_places_as_there_are_in_both_slices() {
    for call in roots::calls(SEED, 3000) {
        let (coefficients, lower, upper) = (&call.coefficients, call.lower, call.upper);
        let Ok(values) = operations::root_values(coefficients, lower, upper) else {
            continue;
        };
        let count = values.len();
        let shorts = [[0, 0], [1, 0], [0, 1], [1, 1]];
        for [result, kinds] in shorts.map(|short| short.map(|less| count.saturating_sub(less))) {
            let (mut result, mut kinds) = (vec![7.5; result], vec![7; kinds]);
            let fits = result.len().min(kinds.len()) >= count;
            let answer = operations::roots_op(coefficients, lower, upper, &mut result, &mut kinds);
            assert_eq!(answer, if fits { count as i64 } else { -24 });
        }
    }
}

/// The degree after trimming, if it is at least 1.
fn degree(coefficients: &[f64]) -> Option<usize> {
    coefficients
        .chunks_exact(2)
        .rposition(|pair| pair[0] != 0.0 || pair[1] != 0.0)
        .filter(|&degree| degree > 0)
}

#[test]
fn check_of_damaged_sheets() {
    let (mut refusals, mut editions) = (BTreeSet::new(), BTreeSet::new());
    let calls = sheets::calls(SEED, 4000, &[1, 2]);
    for call in calls.into_iter().chain(sheets::calls(SEED, 60, &[3])) {
        let sheet = call.sheet.clone();
        let Answer { number, words } = Case::Check(call).answer();
        assert!(words.iter().all(|&place| place == 0));
        if number < 0 {
            refusals.insert(-number);
            continue;
        }
        // Accepted is exactly what its own edition lays out for the request inside.
        let (edition, count) = formed(&sheet).expect("what is accepted is formed");
        let inside = &sheet[8 * count..][..edition.request_size()];
        let found = operations::sampled(edition, inside).expect("it is not refused");
        assert_eq!(found.angles.len() as i64, number);
        assert_eq!(operations::laid_out(edition, inside, &found.angles), sheet);
        editions.insert(edition);
    }
    assert_eq!(editions.len(), Edition::ALL.len());
    let expected = [31, 32, 33, 34, 35, 36];
    assert_eq!(refusals.into_iter().collect::<Vec<_>>(), expected);
}

#[test]
fn any_bytes_are_answered() {
    let random = &mut Random::new(SEED, 0);
    let (work, kinds) = (&mut [0.0; 64], &mut [0; 64]);
    for _ in 0..20_000 {
        let mut bytes: Vec<u8> = (0..SIZE).map(|_| random.bits() as u8).collect();
        bytes[..4].copy_from_slice(&[1 + random.below(2) as u8, 1, random.below(2) as u8, 0]);
        bytes[4..10].fill(1);
        bytes[10..16].fill(0);
        bytes[CORE..].copy_from_slice(&names::right(random));
        // Exponents near 1, so that the rotation is accepted.
        for part in 0..4 {
            bytes[request::ROTATION + 8 * part + 7] &= 0xBF;
        }
        operations::sample(&bytes, work, &mut [0; 64]);
        let words: Vec<f64> = (0..random.below(20))
            .map(|_| f64::from_bits(random.bits()))
            .collect();
        let bounds = [random.within(4.5), f64::from_bits(random.bits())];
        operations::roots_op(&words, bounds[0], bounds[1], work, kinds);
        operations::roots_op(&words, bounds[0], 4.0, work, kinds);
        operations::check(&bytes, work);
        page::page_text(&bytes, random.bits(), work, kinds);
        page::decimal_text(random.bits(), kinds);
        corpus::floor_and_trigonometry([(); 3].map(|()| random.bits()));
    }
}

#[test]
fn hostile_calls_reach_every_answer() {
    let mut accepted = BTreeSet::new();
    let mut refusals = BTreeSet::new();
    for index in 0..HOSTILE {
        let case = hostile::case(SEED, index);
        let number = case.answer().number;
        if number < 0 {
            refusals.insert(-number);
        } else {
            accepted.insert(case.operation());
        }
    }
    let expected = [(1..=8), (10..=11), (21..=24), (31..=36), (41..=43)];
    let expected: Vec<i64> = expected.into_iter().flatten().collect();
    assert_eq!(refusals.into_iter().collect::<Vec<_>>(), expected);
    assert_eq!(accepted.len(), 5);
}

#[test]
fn cases_keep_their_meaning_as_text() {
    let corpus = corpus::generated(SEED, 3);
    let again = corpus::parse(&corpus::text(&corpus)).expect("a text of cases");
    assert_eq!(corpus::digests(&again), corpus::digests(&corpus));
    assert_eq!(corpus::text(&again), corpus::text(&corpus));
}
