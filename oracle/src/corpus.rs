//! Cases as lines of text, the answers to them, and digests of the answers.
//!
//! A line is the case's part, its operation and its arguments, divided by
//! spaces. Bytes and floats are hexadecimal, lengths decimal; `-` is no byte.

use crate::generate::{Random, decimals, floats, pages, requests, roots, sheets};
use crate::{float, operations, page, trig};
use std::collections::BTreeMap;

/// One call of an operation.
#[derive(Clone, Debug)]
pub enum Case {
    Sample(requests::Call),
    Roots(roots::Call),
    Check(sheets::Call),
    Page(pages::Call),
    Decimal(decimals::Call),
    Floats([u64; 3]),
}

/// What a case's answer is made of.
#[derive(Clone, Debug, PartialEq)]
pub struct Answer {
    /// The count, or minus the refusal; zero for floats.
    pub number: i64,
    /// Every lent slice afterwards, or the results.
    pub words: Vec<u64>,
}

impl Case {
    /// The case's operation.
    pub fn operation(&self) -> &'static str {
        match self {
            Case::Sample(_) => "sample",
            Case::Roots(_) => "roots",
            Case::Check(_) => "check",
            Case::Page(_) => "page",
            Case::Decimal(_) => "decimal",
            Case::Floats(_) => "floats",
        }
    }

    /// Operation and arguments as text.
    pub fn line(&self) -> String {
        let arguments = match self {
            Case::Sample(call) => {
                format!("{} {} {}", hex(&call.request), call.work, call.output)
            }
            Case::Roots(call) => {
                let bounds = [call.lower, call.upper].map(word).join(" ");
                let parts: Vec<String> = call.coefficients.iter().map(|&part| word(part)).collect();
                let parts = parts.join(" ");
                format!("{bounds} {} {} {parts}", call.result, call.kinds)
            }
            Case::Check(call) => format!("{} {}", hex(&call.sheet), call.work),
            Case::Page(call) => {
                let sheet = hex(&call.sheet);
                format!("{sheet} {} {} {}", call.page, call.work, call.text)
            }
            Case::Decimal(call) => format!("{:016X} {}", call.x, call.text),
            Case::Floats(bits) => bits.map(|bits| format!("{bits:016X}")).join(" "),
        };
        format!("{} {arguments}", self.operation())
            .trim_end()
            .to_string()
    }

    /// The case of such a text.
    pub fn parse(text: &str) -> Option<Self> {
        let mut words = text.split_whitespace();
        match words.next()? {
            "sample" => Some(Case::Sample(requests::Call {
                request: bytes(words.next()?)?,
                work: words.next()?.parse().ok()?,
                output: words.next()?.parse().ok()?,
            })),
            "roots" => Some(Case::Roots(roots::Call {
                lower: float_of(words.next()?)?,
                upper: float_of(words.next()?)?,
                result: words.next()?.parse().ok()?,
                kinds: words.next()?.parse().ok()?,
                coefficients: words.map(float_of).collect::<Option<_>>()?,
            })),
            "check" => Some(Case::Check(sheets::Call {
                sheet: bytes(words.next()?)?,
                work: words.next()?.parse().ok()?,
            })),
            "page" => Some(Case::Page(pages::Call {
                sheet: bytes(words.next()?)?,
                page: words.next()?.parse().ok()?,
                work: words.next()?.parse().ok()?,
                text: words.next()?.parse().ok()?,
            })),
            "decimal" => Some(Case::Decimal(decimals::Call {
                x: u64::from_str_radix(words.next()?, 16).ok()?,
                text: words.next()?.parse().ok()?,
            })),
            "floats" => {
                let bits: Option<Vec<f64>> = words.map(float_of).collect();
                let bits: [f64; 3] = bits?.try_into().ok()?;
                Some(Case::Floats(bits.map(f64::to_bits)))
            }
            _ => None,
        }
    }

    /// Runs the case; lent slices hold something beforehand.
    pub fn answer(&self) -> Answer {
        match self {
            Case::Sample(call) => {
                let (mut work, mut output) = (vec![7.5; call.work], lent(call.output));
                let number = operations::sample(&call.request, &mut work, &mut output);
                written(number, &work, &output)
            }
            Case::Roots(call) => roots_answer(call),
            Case::Check(call) => {
                let mut work = vec![7.5; call.work];
                let number = operations::check(&call.sheet, &mut work);
                written(number, &work, &[])
            }
            Case::Page(call) => {
                let (mut work, mut text) = (vec![7.5; call.work], lent(call.text));
                let number = page::page_text(&call.sheet, call.page, &mut work, &mut text);
                written(number, &work, &text)
            }
            Case::Decimal(call) => {
                let mut text = lent(call.text);
                let number = page::decimal_text(call.x, &mut text);
                written(number, &[], &text)
            }
            Case::Floats(bits) => Answer {
                number: 0,
                words: floor_and_trigonometry(*bits),
            },
        }
    }
}

/// The bytes of a slice before it is lent.
pub fn lent(length: usize) -> Vec<u8> {
    (0..length).map(|at| (at % 251) as u8).collect()
}

/// The words are the work places, then the bytes, eight to a word.
fn written(number: i64, work: &[f64], bytes: &[u8]) -> Answer {
    let places = work.iter().map(|place| place.to_bits());
    Answer {
        number,
        words: places.chain(bytes.chunks(8).map(little)).collect(),
    }
}

/// Roots: the words are the places of the result, then the kinds, a word each.
fn roots_answer(call: &roots::Call) -> Answer {
    let (mut result, mut kinds) = (vec![7.5; call.result], vec![0xA5; call.kinds]);
    let number = operations::roots_op(
        &call.coefficients,
        call.lower,
        call.upper,
        &mut result,
        &mut kinds,
    );
    let kinds = kinds.into_iter().map(u64::from);
    Answer {
        number,
        words: result.into_iter().map(float::bits).chain(kinds).collect(),
    }
}

/// Every function of modules 1 and 2 on these bits.
pub fn floor_and_trigonometry(operands: [u64; 3]) -> Vec<u64> {
    let [a, b, c] = operands.map(float::of_bits);
    let (sine, cosine) = trig::sin_cos(a);
    let results = [
        float::mul_add(a, b, c),
        float::sqrt(a),
        float::product_error(a, b),
        float::rem_euclid(a, b),
        float::minimum(a, b),
        float::maximum(a, b),
        float::clamp(a),
        float::floor(a),
        float::magnitude(a),
        float::copysign(a, b),
        sine,
        cosine,
        trig::tan(a),
        trig::hypot(a, b),
        trig::atan(a),
        trig::atan2(a, b),
        trig::acos(a),
        trig::asin(a),
    ];
    let tests = [
        float::total_lt(a, b),
        float::is_sign_positive(a),
        float::is_finite(a),
    ];
    results
        .into_iter()
        .map(float::bits)
        .chain(tests.map(u64::from))
        .collect()
}

/// Cases with the names of their parts.
pub type Corpus = Vec<(String, Case)>;

/// A corpus by seed and size: so many requests of kind 3, more of the rest.
pub fn generated(seed: u64, size: usize) -> Corpus {
    let mut corpus = Vec::new();
    let mut part = |name: &str, count: usize, case: &dyn Fn(u64) -> Case| {
        for index in 0..count as u64 {
            corpus.push((format!("generated-{name}"), case(index)));
        }
    };
    part("one-free", 20 * size, &|index| {
        Case::Sample(requests::call(seed, index, &[1, 2]))
    });
    part("two-free", size, &|index| {
        Case::Sample(requests::call(seed, index, &[3]))
    });
    part("roots", 5 * size, &|index| {
        Case::Roots(roots::call(seed, index))
    });
    part("check", 2 * size, &|index| {
        Case::Check(sheets::call(seed, index, &[1, 2]))
    });
    part("check-two-free", size / 10, &|index| {
        Case::Check(sheets::call(seed, index, &[3]))
    });
    part("pages", 2 * size, &|index| {
        Case::Page(pages::call(seed, index, &[1, 2]))
    });
    part("decimals", 50 * size, &|index| {
        Case::Decimal(decimals::call(seed, index))
    });
    part("floats", 100 * size, &|index| {
        Case::Floats(three_floats(seed, index))
    });
    corpus
}

/// Operands of the fused product, of the square root, or any floats.
fn three_floats(seed: u64, index: u64) -> [u64; 3] {
    let random = &mut Random::new(seed, index);
    match index % 3 {
        0 => floats::fma_triple(random),
        1 => [
            floats::sqrt_argument(random),
            floats::float(random),
            floats::float(random),
        ],
        _ => [(); 3].map(|()| floats::float(random)),
    }
}

/// A corpus as text, a case a line.
pub fn text(corpus: &Corpus) -> String {
    corpus
        .iter()
        .map(|(part, case)| format!("{part} {}\n", case.line()))
        .collect()
}

/// The corpus of a text; empty lines and those that start with # are passed over.
pub fn parse(text: &str) -> Option<Corpus> {
    text.lines()
        .map(str::trim)
        .filter(|line| !line.is_empty() && !line.starts_with('#'))
        .map(|line| {
            let (part, case) = line.split_once(' ')?;
            Some((part.to_string(), Case::parse(case)?))
        })
        .collect()
}

/// For each part: how many cases, and a digest of their answers.
pub fn digests(corpus: &Corpus) -> BTreeMap<String, (usize, u64)> {
    let mut digests = BTreeMap::new();
    for (part, case) in corpus {
        let (count, digest) = digests
            .entry(part.clone())
            .or_insert((0, 0xCBF29CE484222325));
        let answer = case.answer();
        *count += 1;
        for word in std::iter::once(answer.number as u64).chain(answer.words) {
            *digest = (*digest ^ word).wrapping_mul(0x100000001B3).rotate_left(29);
        }
    }
    digests
}

/// Up to eight bytes as a number, the first lowest.
fn little(bytes: &[u8]) -> u64 {
    bytes
        .iter()
        .rev()
        .fold(0, |word, &byte| word << 8 | u64::from(byte))
}

/// The bits of a float as text.
fn word(x: f64) -> String {
    format!("{:016X}", x.to_bits())
}

/// The float of such a text.
fn float_of(text: &str) -> Option<f64> {
    u64::from_str_radix(text, 16).ok().map(f64::from_bits)
}

/// Bytes as text.
pub fn hex(bytes: &[u8]) -> String {
    if bytes.is_empty() {
        return "-".to_string();
    }
    bytes.iter().map(|byte| format!("{byte:02X}")).collect()
}

/// The bytes of such a text.
pub fn bytes(text: &str) -> Option<Vec<u8>> {
    if text == "-" {
        return Some(Vec::new());
    }
    if !text.is_ascii() || !text.len().is_multiple_of(2) {
        return None;
    }
    (0..text.len() / 2)
        .map(|at| u8::from_str_radix(&text[2 * at..2 * at + 2], 16).ok())
        .collect()
}
