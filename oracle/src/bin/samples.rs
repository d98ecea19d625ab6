//! Writes the stored samples of the float floor and the trigonometry, a line
//! each: the function's letter, its operands and its result, as 16 capital
//! hexadecimal digits. The same lines every time:
//! the first of the five parts of crates/vectors/stdin.

use lemongully_oracle::functions::{FUNCTIONS, Function};
use lemongully_oracle::generate::Random;
use std::io::{BufWriter, Result, Write};

const SEED: u64 = 754;

/// How many samples of a function are stored.
fn stored(function: &Function) -> u64 {
    match function.name {
        "mul_add" | "sqrt" => 4096,
        _ if function.letter.is_ascii_lowercase() => 3072,
        _ => 512,
    }
}

fn main() -> Result<()> {
    let mut lines = BufWriter::new(std::io::stdout().lock());
    for function in &FUNCTIONS {
        for index in 0..stored(function) {
            let mut random = Random::new(SEED ^ u64::from(function.letter) << 32, index);
            let operands = function.draw(&mut random);
            write!(lines, "{}", function.letter)?;
            for operand in &operands[..function.count] {
                write!(lines, " {operand:016X}")?;
            }
            writeln!(lines, " {:016X}", (function.answer)(operands))?;
        }
    }
    lines.flush()
}
