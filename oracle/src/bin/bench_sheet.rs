//! Times the operations of the linked library beside the oracle's, on the same
//! accepted calls, and prints the tables of docs/SPEED.md: Sampling by kind, for
//! ordinary requests and for those that the differential runs aim at hard cases;
//! Roots by number of coefficients; the first page of ordinary sheets by kind, with
//! Check alone beside it, which a page begins with; decimals beside Rust's formatter.
//! `bench_sheet page` prints the last two alone. Times are the processor's, so that
//! other programs count little: library and Rust in turn, call by call, and the
//! least of three for each.

use lemongully_oracle::edition::Edition;
use lemongully_oracle::generate::{Random, decimals, limits, requests, roots};
use lemongully_oracle::linked;
use lemongully_oracle::operations::{
    self, PROGRAM_INPUT, PROGRAM_WORK, Sampled, check, laid_out, root_values, sample,
};
use lemongully_oracle::page::page_text;
use lemongully_oracle::request::{FROM, OFFSETS, REFERENCES, SIGNS, TO};
use std::hint::black_box;
use std::io::Write;

const REPETITIONS: usize = 3;

/// Nanoseconds that a measurement takes at least, so that reading the clock
/// counts little.
const LEAST: f64 = 5e4;

/// What operations are lent.
struct Room {
    places: Vec<f64>,
    bytes: Vec<u8>,
}

impl Room {
    fn new() -> Self {
        Self {
            places: vec![0.0; PROGRAM_WORK],
            bytes: vec![0; PROGRAM_INPUT],
        }
    }
}

/// An operation of the library and of the oracle.
struct Sides<T> {
    library: fn(&T, &mut Room) -> i64,
    rust: fn(&T, &mut Room) -> i64,
}

const SAMPLING: Sides<Vec<u8>> = Sides {
    library: |request, room| linked::sheet::sample(request, &mut room.places, &mut room.bytes),
    rust: |request, room| sample(request, &mut room.places, &mut room.bytes),
};

/// The library gives values and kinds. The Rust gives values alone, as ported:
/// the oracle's definition of kinds finds the derivative's roots a second time,
/// which is no yardstick.
const ROOTS: Sides<roots::Call> = Sides {
    library: |call, room| {
        let (places, kinds) = (&mut room.places, &mut room.bytes);
        linked::polynomial::roots(&call.coefficients, call.lower, call.upper, places, kinds)
    },
    rust: |call, room| match root_values(&call.coefficients, call.lower, call.upper) {
        Err(refusal) => -refusal,
        Ok(roots) => {
            room.places[..roots.len()].copy_from_slice(&roots);
            roots.len() as i64
        }
    },
};

/// The first page of a sheet.
const PAGE: Sides<Vec<u8>> = Sides {
    library: |sheet, room| linked::page::text(sheet, 1, &mut room.places, &mut room.bytes),
    rust: |sheet, room| page_text(sheet, 1, &mut room.places, &mut room.bytes),
};

const CHECK: Sides<Vec<u8>> = Sides {
    library: |sheet, room| linked::sheet::check(sheet, &mut room.places),
    rust: |sheet, room| check(sheet, &mut room.places),
};

/// The columns of a float, in Rust without the asterisks.
const DECIMAL: Sides<u64> = Sides {
    library: |&x, room| linked::page::decimal(x, &mut room.bytes),
    rust: |&x, room| {
        let written = write!(&mut room.bytes[..], "{:16.9}", f64::from_bits(x));
        i64::from(written.is_ok())
    },
};

/// A request with limits, plain signs and offsets and references in one turn.
fn ordinary(kind: u8, index: u64) -> Vec<u8> {
    let random = &mut Random::new(7, index);
    let mut draft = requests::accepted(random, kind);
    draft.bytes[1] = 1;
    draft.bytes[2] = 0;
    for joint in 0..6 {
        draft.bytes[SIGNS + joint] = 1;
        draft.put(OFFSETS + 8 * joint, 0.0);
        draft.put(REFERENCES + 8 * joint, random.within(3.0));
        let [from, to] = limits::ordinary(random);
        draft.put(FROM + 8 * joint, from);
        draft.put(TO + 8 * joint, to);
    }
    draft.bytes.to_vec()
}

/// A request of the differential runs.
fn adversarial(kind: u8, index: u64) -> Vec<u8> {
    requests::request(7, index, &[kind])
}

/// A request by kind and index.
type Request = fn(u8, u64) -> Vec<u8>;

const SORTS: [(&str, Request); 2] = [("ordinary", ordinary), ("adversarial", adversarial)];

/// Nanoseconds that the processor has worked for this thread (Linux).
fn processor_time() -> f64 {
    unsafe extern "C" {
        fn clock_gettime(clock: i32, seconds_and_nanoseconds: *mut [i64; 2]) -> i32;
    }
    const OF_THREAD: i32 = 3;
    let mut time = [0; 2];
    // SAFETY: the function writes the two numbers alone.
    assert_eq!(unsafe { clock_gettime(OF_THREAD, &mut time) }, 0);
    let [seconds, nanoseconds] = time.map(|part| part as f64);
    1e9 * seconds + nanoseconds
}

/// Nanoseconds of so many equal calls, for each.
fn time<T>(side: fn(&T, &mut Room) -> i64, call: &T, room: &mut Room, count: u32) -> f64 {
    let start = processor_time();
    for _ in 0..count {
        black_box(side(black_box(call), room));
    }
    (processor_time() - start) / f64::from(count)
}

/// Nanoseconds of library and Rust for each call, in order of size.
type Times = [Vec<f64>; 2];

impl<T> Sides<T> {
    /// The first calls that are accepted.
    fn accepted(&self, calls: impl Iterator<Item = T>, count: usize) -> Vec<T> {
        let room = &mut Room::new();
        calls
            .filter(|call| (self.rust)(call, room) >= 0)
            .take(count)
            .collect()
    }

    /// The least times of one call.
    fn least(&self, call: &T, room: &mut Room) -> [f64; 2] {
        let mut count = 1;
        while time(self.rust, call, room, count) * f64::from(count) < LEAST {
            count *= 2;
        }
        let mut least = [f64::INFINITY; 2];
        for _ in 0..REPETITIONS {
            for (least, side) in std::iter::zip(&mut least, [self.library, self.rust]) {
                *least = least.min(time(side, call, room, count));
            }
        }
        least
    }

    fn times(&self, calls: &[T]) -> Times {
        let room = &mut Room::new();
        let least: Vec<[f64; 2]> = calls.iter().map(|call| self.least(call, room)).collect();
        [0, 1].map(|side| {
            let mut times: Vec<f64> = least.iter().map(|least| least[side]).collect();
            times.sort_by(f64::total_cmp);
            times
        })
    }
}

/// The head of a table whose first columns have these names.
fn head(names: &[&str]) {
    let figures = "median, library and Rust | ratio | 99 %, library and Rust | ratio";
    println!("| {} | {figures} | all together |", names.join(" | "));
    println!("{}|", "|---".repeat(names.len() + 5));
}

/// Two times in a unit for both, and their ratio.
fn pair([library, rust]: [f64; 2]) -> String {
    let (unit, name) = match rust {
        ..1e3 => (1.0, "ns"),
        ..1e6 => (1e3, "µs"),
        _ => (1e6, "ms"),
    };
    let ratio = library / rust;
    format!(
        "{:.1} and {:.1} {name} | {ratio:.2}",
        library / unit,
        rust / unit
    )
}

/// A line of a table.
fn row(names: &[&str], times: &Times) {
    let at = |share: f64| {
        let of = |times: &Vec<f64>| times[(share * (times.len() - 1) as f64) as usize];
        pair(times.each_ref().map(of))
    };
    let [library, rust] = times.each_ref().map(|times| times.iter().sum::<f64>());
    let (names, all) = (names.join(" | "), library / rust);
    println!("| {names} | {} | {} | {all:.2} |", at(0.5), at(0.99));
}

/// The table of Sampling.
fn sampling() {
    head(&["kind", "requests"]);
    for (kind, count) in [(1, 2_000), (2, 2_000), (3, 200)] {
        for (sort, request) in SORTS {
            let requests = (0..).map(|index| request(kind, index));
            let requests = SAMPLING.accepted(requests, count);
            row(&[&kind.to_string(), sort], &SAMPLING.times(&requests));
        }
    }
}

/// The table of Roots.
fn finding() {
    head(&["coefficients"]);
    for coefficients in 2..=9 {
        let calls = (0..).map(|index| roots::call(1, index));
        let calls = calls.filter(|call| call.coefficients.len() == 2 * coefficients);
        let calls = ROOTS.accepted(calls, 1_000);
        row(&[&coefficients.to_string()], &ROOTS.times(&calls));
    }
}

/// The sheet of a request, or no byte.
fn sheet(request: &[u8]) -> Vec<u8> {
    let sampled = operations::sampled(Edition::NEWEST, request);
    let sheet = |sampled: Sampled| laid_out(Edition::NEWEST, request, &sampled.angles);
    sampled.map_or(Vec::new(), sheet)
}

/// The tables of pages and decimals.
fn showing() {
    head(&["kind", "of ordinary sheets"]);
    for (kind, count) in [(1, 2_000), (2, 2_000), (3, 200)] {
        let sheets = (0..).map(|index| sheet(&ordinary(kind, index)));
        let sheets = CHECK.accepted(sheets, count);
        let kind = kind.to_string();
        row(&[&kind, "check"], &CHECK.times(&sheets));
        row(&[&kind, "check and page 1"], &PAGE.times(&sheets));
    }
    println!();
    head(&["decimals"]);
    let random = &mut Random::new(7, 0);
    let angles: Vec<u64> = (0..2_000).map(|_| random.within(7.0).to_bits()).collect();
    row(&["angles"], &DECIMAL.times(&angles));
    let hard: Vec<u64> = (0..2_000).map(|_| decimals::float(random)).collect();
    row(&["of the differential runs"], &DECIMAL.times(&hard));
}

fn main() {
    if std::env::args().nth(1).as_deref() != Some("page") {
        sampling();
        println!();
        finding();
        println!();
    }
    showing();
}
