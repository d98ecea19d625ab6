//! Times the library's fused product, square root and error of a product beside
//! Rust's own on the same inputs, in loops: a chain, each step from the result
//! of the one before, and a step at every place of an array. Prints nanoseconds
//! a step and their ratio, each the median of five repetitions.

use lemongully_oracle::generate::Random;
use lemongully_oracle::linked::float_bench as library;
use std::hint::black_box;
use std::time::Instant;

const REPETITIONS: usize = 5;
const STEPS: u64 = 2_000_000;
const PLACES: usize = 1 << 14;
const PASSES: usize = 64;

/// A start, a factor and an addend, and the number of steps.
type Chain = fn(f64, f64, f64, u64) -> f64;
/// The places, a factor and an addend.
type Each = fn(&mut [f64], f64, f64);

struct Pair {
    name: &'static str,
    chains: [Chain; 2],
    eaches: [Each; 2],
}

const PAIRS: [Pair; 4] = [
    Pair {
        name: "plain",
        chains: [library::plain, |h, x, c, n| chain(h, n, |h| h * x + c)],
        eaches: [library::each_plain, |hs, x, c| each(hs, |h| h * x + c)],
    },
    Pair {
        name: "mul_add",
        chains: [library::mul_add, |h, x, c, n| {
            chain(h, n, |h| h.mul_add(x, c))
        }],
        eaches: [library::each_mul_add, |hs, x, c| {
            each(hs, |h| h.mul_add(x, c))
        }],
    },
    Pair {
        name: "sqrt",
        chains: [library::sqrt, |h, _, c, n| chain(h, n, |h| (h + c).sqrt())],
        eaches: [library::each_sqrt, |hs, _, c| each(hs, |h| (h + c).sqrt())],
    },
    Pair {
        name: "product_error",
        chains: [library::product_error, |h, x, c, n| {
            chain(h, n, |h| h.mul_add(x, -(h * x)) + c)
        }],
        eaches: [library::each_product_error, |hs, x, c| {
            each(hs, |h| h.mul_add(x, -(h * x)) + c)
        }],
    },
];

#[inline(always)]
fn chain(start: f64, n: u64, step: impl Fn(f64) -> f64) -> f64 {
    (0..n).fold(start, |h, _| step(h))
}

#[inline(always)]
fn each(hs: &mut [f64], step: impl Fn(f64) -> f64) {
    for h in hs {
        *h = step(*h);
    }
}

/// The factor and the addend: the chains stay near the start's size.
const FACTOR: f64 = -0.9999999;
const ADDEND: f64 = 1.2345678901234567;

/// Nanoseconds a step of a chain, and its last result.
fn time_chain(run: Chain) -> (f64, u64) {
    let start = Instant::now();
    let result = run(
        black_box(3.7),
        black_box(FACTOR),
        black_box(ADDEND),
        black_box(STEPS),
    );
    (
        start.elapsed().as_nanos() as f64 / STEPS as f64,
        result.to_bits(),
    )
}

/// Nanoseconds a place of an array, and a digest of its results.
fn time_each(run: Each, places: &[f64]) -> (f64, u64) {
    let (mut nanoseconds, mut digest) = (0, 0u64);
    for _ in 0..PASSES {
        let mut hs = places.to_vec();
        let start = Instant::now();
        run(black_box(&mut hs), black_box(FACTOR), black_box(ADDEND));
        nanoseconds += start.elapsed().as_nanos();
        digest = hs
            .iter()
            .fold(digest, |digest, h| digest.rotate_left(1) ^ h.to_bits());
    }
    (nanoseconds as f64 / (PASSES * places.len()) as f64, digest)
}

/// The medians of both sides, timed in turn, and whether their results agree.
fn compare(mut time: impl FnMut(usize) -> (f64, u64)) -> ([f64; 2], bool) {
    let mut times = [Vec::new(), Vec::new()];
    let mut same = true;
    for _ in 0..REPETITIONS {
        let [library, rust] = [time(0), time(1)];
        times[0].push(library.0);
        times[1].push(rust.0);
        same &= library.1 == rust.1;
    }
    let median = times.map(|mut side| {
        side.sort_by(f64::total_cmp);
        side[REPETITIONS / 2]
    });
    (median, same)
}

fn report(name: &str, form: &str, ([library, rust], same): ([f64; 2], bool)) {
    let results = if same { "" } else { "  RESULTS DIFFER" };
    let ratio = library / rust;
    println!("{name:14} {form:6} {library:9.2} {rust:9.2} {ratio:8.1}{results}");
}

fn main() {
    let mut random = Random::new(1, 0);
    // Either sign, and magnitudes from 2^-10 to 2^10.
    let places: Vec<f64> = (0..PLACES)
        .map(|_| {
            let exponent = 1013 + random.bits() % 20;
            f64::from_bits(random.bits() & 0x800FFFFFFFFFFFFF | exponent << 52)
        })
        .collect();
    let magnitudes: Vec<f64> = places.iter().map(|h| h.abs()).collect();
    println!(
        "{:14} {:6} {:>9} {:>9} {:>8}",
        "", "", "library", "Rust", "ratio"
    );
    for pair in &PAIRS {
        report(
            pair.name,
            "chain",
            compare(|side| time_chain(pair.chains[side])),
        );
        let places = if pair.name == "sqrt" {
            &magnitudes
        } else {
            &places
        };
        report(
            pair.name,
            "array",
            compare(|side| time_each(pair.eaches[side], places)),
        );
    }
}
