//! Writes the stored samples of module 4, a line each: the function's mark,
//! 4 to 7, its operands and every number of its answer, as 16 capital
//! hexadecimal digits. The same lines every time: the third of the five parts
//! of crates/vectors/stdin.

use lemongully_oracle::generate::Random;
use lemongully_oracle::parts::PARTS;
use std::io::{BufWriter, Result, Write};

const SEED: u64 = 754;

/// How many samples of a function are stored.
const STORED: u64 = 512;

fn main() -> Result<()> {
    let mut lines = BufWriter::new(std::io::stdout().lock());
    for (function, mark) in PARTS.iter().zip('4'..='7') {
        for index in 0..STORED {
            let mut random = Random::new(SEED ^ u64::from(function.letter) << 32, index);
            let operands = (function.operands)(&mut random);
            write!(lines, "{mark}")?;
            for operand in &operands[..function.count] {
                write!(lines, " {operand:016X}")?;
            }
            for number in (function.answer)(operands) {
                write!(lines, " {number:016X}")?;
            }
            writeln!(lines)?;
        }
    }
    lines.flush()
}
