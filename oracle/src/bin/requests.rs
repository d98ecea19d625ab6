//! Writes generated requests as hexadecimal lines, each with its answer:
//! the number of angles, or minus the refusal. `requests SEED COUNT`, and
//! after these the kinds wanted, such as `12`.

use lemongully_oracle::corpus::hex;
use lemongully_oracle::generate::requests;
use lemongully_oracle::operations;
use std::io::{BufWriter, Write};
use std::process::ExitCode;

fn read(arguments: &[String]) -> Option<(u64, u64, Vec<u8>)> {
    let kinds = match arguments.get(2) {
        Some(kinds) => kinds
            .bytes()
            .map(|digit| digit.wrapping_sub(b'0'))
            .collect(),
        None => vec![1, 2, 3],
    };
    let right = !kinds.is_empty() && kinds.iter().all(|kind| (1..=3).contains(kind));
    let (seed, count) = (
        arguments.first()?.parse().ok()?,
        arguments.get(1)?.parse().ok()?,
    );
    right.then_some((seed, count, kinds))
}

fn main() -> ExitCode {
    let arguments: Vec<String> = std::env::args().skip(1).collect();
    let Some((seed, count, kinds)) = read(&arguments) else {
        eprintln!("requests SEED COUNT [KINDS]");
        return ExitCode::FAILURE;
    };
    let mut lines = BufWriter::new(std::io::stdout().lock());
    let (mut work, mut output) = (vec![0.0; 65536], vec![0; 1 << 20]);
    for index in 0..count {
        let request = requests::request(seed, index, &kinds);
        let answer = operations::sample(&request, &mut work, &mut output);
        if writeln!(lines, "{} {answer}", hex(&request)).is_err() {
            return ExitCode::FAILURE;
        }
    }
    ExitCode::SUCCESS
}
