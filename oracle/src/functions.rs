//! The functions of the float floor and the trigonometry (document 01, modules 1
//! and 2) by name: on words, a float by its bits, a test by 1 or 0, a whole
//! number in two's complement.

mod angles;
pub mod operands;

use crate::generate::Random;
use crate::{float, trig};
use operands::Operands;

/// A function of either module, as samples and differential runs see it.
pub struct Function {
    pub name: &'static str,
    /// What a stored sample begins with: a capital in module 1, a small letter
    /// in module 2.
    pub letter: char,
    /// How many operands it has; the others are 0.
    pub count: usize,
    pub operands: fn(&mut Random) -> Operands,
    pub answer: fn(Operands) -> u64,
}

impl Function {
    /// Operands by the function's own generator, once in eight times with an
    /// edge value in one place.
    pub fn draw(&self, random: &mut Random) -> Operands {
        let mut operands = (self.operands)(random);
        if random.once_in(8) {
            let place = random.below(self.count);
            operands[place] = operands::edge(random);
        }
        operands
    }
}

fn of(bits: u64) -> f64 {
    float::of_bits(bits)
}

/// All of them, in the order in which they are reported.
pub const FUNCTIONS: [Function; 21] = [
    Function {
        name: "bits",
        letter: 'B',
        count: 1,
        operands: operands::one,
        answer: |[x, _, _]| float::bits(of(x)),
    },
    Function {
        name: "is_finite",
        letter: 'F',
        count: 1,
        operands: operands::one,
        answer: |[x, _, _]| float::is_finite(of(x)) as u64,
    },
    Function {
        name: "is_sign_positive",
        letter: 'P',
        count: 1,
        operands: operands::one,
        answer: |[x, _, _]| float::is_sign_positive(of(x)) as u64,
    },
    Function {
        name: "abs",
        letter: 'A',
        count: 1,
        operands: operands::one,
        answer: |[x, _, _]| float::bits(float::magnitude(of(x))),
    },
    Function {
        name: "total_le",
        letter: 'T',
        count: 2,
        operands: operands::two,
        answer: |[x, y, _]| !float::total_lt(of(y), of(x)) as u64,
    },
    Function {
        name: "rem_euclid",
        letter: 'R',
        count: 2,
        operands: operands::rem_euclid,
        answer: |[x, m, _]| float::bits(float::rem_euclid(of(x), of(m))),
    },
    Function {
        name: "minimum",
        letter: 'N',
        count: 2,
        operands: operands::two,
        answer: |[x, y, _]| float::bits(float::minimum(of(x), of(y))),
    },
    Function {
        name: "maximum",
        letter: 'X',
        count: 2,
        operands: operands::two,
        answer: |[x, y, _]| float::bits(float::maximum(of(x), of(y))),
    },
    Function {
        name: "clamp",
        letter: 'C',
        count: 1,
        operands: operands::clamp,
        answer: |[x, _, _]| float::bits(float::clamp(of(x))),
    },
    Function {
        name: "floor",
        letter: 'L',
        count: 1,
        operands: operands::floor,
        // The nearest whole number that an i64 holds; 0 for a NaN.
        answer: |[x, _, _]| of(x).floor() as i64 as u64,
    },
    Function {
        name: "mul_add",
        letter: 'M',
        count: 3,
        operands: operands::mul_add,
        answer: |[a, b, c]| float::bits(float::mul_add(of(a), of(b), of(c))),
    },
    Function {
        name: "sqrt",
        letter: 'S',
        count: 1,
        operands: operands::sqrt,
        answer: |[x, _, _]| float::bits(float::sqrt(of(x))),
    },
    Function {
        name: "product_error",
        letter: 'E',
        count: 2,
        operands: operands::product_error,
        answer: |[a, b, _]| float::bits(float::product_error(of(a), of(b))),
    },
    Function {
        name: "sin",
        letter: 's',
        count: 1,
        operands: angles::angle,
        answer: |[x, _, _]| float::bits(trig::sin(of(x))),
    },
    Function {
        name: "cos",
        letter: 'c',
        count: 1,
        operands: angles::angle,
        answer: |[x, _, _]| float::bits(trig::cos(of(x))),
    },
    Function {
        name: "tan",
        letter: 't',
        count: 1,
        operands: angles::angle,
        answer: |[x, _, _]| float::bits(trig::tan(of(x))),
    },
    Function {
        name: "hypot",
        letter: 'h',
        count: 2,
        operands: angles::sides,
        answer: |[x, y, _]| float::bits(trig::hypot(of(x), of(y))),
    },
    Function {
        name: "atan",
        letter: 'a',
        count: 1,
        operands: angles::tangent,
        answer: |[x, _, _]| float::bits(trig::atan(of(x))),
    },
    Function {
        name: "atan2",
        letter: 'q',
        count: 2,
        operands: angles::point,
        answer: |[y, x, _]| float::bits(trig::atan2(of(y), of(x))),
    },
    Function {
        name: "acos",
        letter: 'o',
        count: 1,
        operands: angles::cosine,
        answer: |[x, _, _]| float::bits(trig::acos(of(x))),
    },
    Function {
        name: "asin",
        letter: 'i',
        count: 1,
        operands: angles::cosine,
        answer: |[x, _, _]| float::bits(trig::asin(of(x))),
    },
];
