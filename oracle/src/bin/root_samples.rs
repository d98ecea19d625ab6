//! Writes the stored calls of the operation Roots, a line each, as
//! crates/vectors/src/main.rt reads them. The same lines every time: the second
//! of the five parts of crates/vectors/stdin.

use lemongully_oracle::float;
use lemongully_oracle::generate::roots::{Call, call};
use lemongully_oracle::operations::{found_roots, root_values};
use lemongully_oracle::touching::Root::{self, Crossing, Touch};
use std::io::{BufWriter, Result, Write};

const SEED: u64 = 754;

/// A call with its expected answer: the roots, or the refusal's number.
struct Stored {
    mark: char,
    call: Call,
    answer: std::result::Result<Vec<Root>, i64>,
}

impl Stored {
    /// An example: high parts, the low parts zero, and slices of as many places
    /// as there are roots.
    fn example(mark: char, high: &[f64], bounds: [f64; 2], answer: &[Root]) -> Self {
        Self {
            mark,
            call: Call {
                coefficients: high.iter().flat_map(|&high| [high, 0.0]).collect(),
                lower: bounds[0],
                upper: bounds[1],
                result: answer.len(),
                kinds: answer.len(),
            },
            answer: Ok(answer.to_vec()),
        }
    }

    /// The same call, refused.
    fn refused(self, refusal: i64) -> Self {
        Self {
            answer: Err(refusal),
            ..self
        }
    }

    /// The same call with so many places less, refused for it.
    fn short(mut self, result: usize, kinds: usize) -> Self {
        self.call.result -= result;
        self.call.kinds -= kinds;
        self.refused(24)
    }

    fn generated(index: u64) -> Self {
        let call = call(SEED, index);
        let answer = found_roots(&call.coefficients, call.lower, call.upper);
        let fits = |roots: &Vec<Root>| roots.len() <= call.result.min(call.kinds);
        Self {
            mark: '3',
            answer: answer.and_then(|roots| if fits(&roots) { Ok(roots) } else { Err(24) }),
            call,
        }
    }

    /// The line's words: the number of parts and the parts, the bounds, the
    /// places of the result and of the kinds, the answer, the roots' values and
    /// their kinds.
    fn words(&self) -> Vec<u64> {
        let bits = |floats: &[f64]| floats.iter().map(|&x| float::bits(x)).collect::<Vec<_>>();
        let call = &self.call;
        let roots = self.answer.as_deref().unwrap_or(&[]);
        let answer = match self.answer {
            Ok(_) => roots.len() as i64,
            Err(refusal) => -refusal,
        };
        let mut words = vec![call.coefficients.len() as u64];
        words.extend(bits(&call.coefficients));
        words.extend(bits(&[call.lower, call.upper]));
        words.extend([call.result as u64, call.kinds as u64, answer as u64]);
        words.extend(roots.iter().map(|root| float::bits(root.value())));
        words.extend(roots.iter().map(|root| u64::from(root.kind())));
        words
    }
}

/// The examples of document 01, 1 those that it marks P, and of change request 1.
fn examples() -> Vec<Stored> {
    let beyond = 4.0f64.next_up();
    let square = [-1.0, 0.0, 1.0];
    let line = [-4.0, 1.0];
    let whole = [-4.0, 4.0];
    let crossed = [Crossing(-1.0), Crossing(1.0)];
    let four = [Crossing(4.0)];
    // 1 is a bound near zero, and the end of a bisection too.
    let lifted = [1.0e-323, 0.0, -1.0, 1.0];
    let beside = Crossing(f64::from_bits(0x1E65555555555556));
    let two = || Stored::example('2', &square, whole, &crossed);
    vec![
        Stored::example('1', &square, whole, &crossed),
        Stored::example('1', &[0.0, 0.0, 1.0], [-1.0, 1.0], &[Touch(-0.0)]),
        Stored::example('1', &line, whole, &four),
        Stored::example('1', &[-5.0, 1.0], whole, &[]),
        Stored::example('1', &square, [1.0, 1.0], &[Touch(1.0)]),
        Stored::example('1', &[-1.0, 1.0, 0.0, 0.0], whole, &[Crossing(1.0)]),
        Stored::example('1', &[7.0], whole, &[]),
        Stored::example('1', &[], whole, &[]),
        Stored::example('2', &line, [4.0, 4.0], &four),
        Stored::example('2', &[4.0, 1.0], [-4.0, -4.0], &[Crossing(-4.0)]),
        Stored::example('2', &line, [-4.0, beyond], &four).refused(22),
        Stored::example('2', &line, [-beyond, 4.0], &four).refused(22),
        Stored::example('2', &line, [beyond, beyond], &four).refused(22),
        Stored::example('2', &lifted, [0.0, 1.0], &[beside, Touch(1.0)]),
        two().short(1, 0),
        two().short(0, 1),
        two().short(1, 1),
    ]
}

/// The degree once leading zeros are trimmed; none without a coefficient.
fn degree(call: &Call) -> Option<usize> {
    call.coefficients
        .chunks(2)
        .rposition(|pair| pair.iter().any(|&part| part != 0.0))
}

/// The sorts of calls, by degree where the call is not refused for another
/// reason than its slices' lengths.
#[derive(PartialEq)]
enum Sort {
    /// One root or more, as many places in both slices: whether some touch, and
    /// whether some cross.
    Exact(Option<usize>, [bool; 2]),
    /// No root, or more places than roots.
    Roomy(Option<usize>),
    /// 24, one place less than there are roots: of the result, of the kinds.
    OneShort(Option<usize>, [bool; 2]),
    /// 24, no place in one of the slices for two roots or more.
    NoPlace,
    /// 21, 22 or 23.
    Refused(i64),
}

fn sort(stored: &Stored) -> Sort {
    let (call, degree) = (&stored.call, degree(&stored.call));
    let places = [call.result, call.kinds];
    match &stored.answer {
        Ok(roots) if places == [roots.len(); 2] && !roots.is_empty() => Sort::Exact(
            degree,
            [1, 2].map(|kind| roots.iter().any(|root| root.kind() == kind)),
        ),
        Ok(_) => Sort::Roomy(degree),
        Err(24) => {
            let roots = root_values(&call.coefficients, call.lower, call.upper);
            let count = roots.map_or(0, |roots| roots.len());
            if places.iter().all(|places| places + 1 >= count) {
                Sort::OneShort(degree, places.map(|places| places < count))
            } else {
                Sort::NoPlace
            }
        }
        Err(refusal) => Sort::Refused(*refusal),
    }
}

/// How many calls of each sort are stored. Degree 1 has no touch.
fn wanted() -> Vec<(Sort, usize)> {
    let mut wanted = vec![(Sort::Roomy(None), 8), (Sort::Roomy(Some(0)), 16)];
    for degree in (1..=8).map(Some) {
        let kinds: &[_] = match degree {
            Some(1) => &[([false, true], 24)],
            _ => &[([true, false], 8), ([false, true], 8), ([true, true], 8)],
        };
        let short = [([true, false], 6), ([false, true], 6), ([true, true], 4)];
        wanted.extend(
            kinds
                .iter()
                .map(|&(kinds, count)| (Sort::Exact(degree, kinds), count)),
        );
        wanted.extend(short.map(|(short, count)| (Sort::OneShort(degree, short), count)));
        wanted.push((Sort::Roomy(degree), 16));
    }
    wanted.push((Sort::NoPlace, 16));
    wanted.push((Sort::Refused(21), 32));
    wanted.push((Sort::Refused(22), 64));
    wanted.push((Sort::Refused(23), 48));
    wanted
}

/// Calls by index, each kept where its sort still wants one.
fn generated() -> Vec<Stored> {
    let mut wanted = wanted();
    let mut kept = Vec::new();
    for stored in (0..).map(Stored::generated) {
        let sort = sort(&stored);
        if let Some((_, left)) = wanted
            .iter_mut()
            .find(|(of, left)| *of == sort && *left > 0)
        {
            *left -= 1;
            kept.push(stored);
        }
        if wanted.iter().all(|(_, left)| *left == 0) {
            break;
        }
    }
    kept
}

fn main() -> Result<()> {
    let mut lines = BufWriter::new(std::io::stdout().lock());
    for stored in examples().iter().chain(&generated()) {
        write!(lines, "{}", stored.mark)?;
        for word in stored.words() {
            write!(lines, " {word:016X}")?;
        }
        writeln!(lines)?;
    }
    lines.flush()
}
