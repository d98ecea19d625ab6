//! Prints the digest of each part's answers, over a corpus by seed and size,
//! or over a file of cases: `corpus SEED SIZE` or `corpus FILE`. With `--cases`
//! after these, the cases themselves.

use lemongully_oracle::corpus;
use std::process::ExitCode;

fn read(arguments: &[String]) -> Option<corpus::Corpus> {
    match arguments {
        [file] => corpus::parse(&std::fs::read_to_string(file).ok()?),
        [seed, size] => Some(corpus::generated(seed.parse().ok()?, size.parse().ok()?)),
        _ => None,
    }
}

fn main() -> ExitCode {
    let mut arguments: Vec<String> = std::env::args().skip(1).collect();
    let cases = arguments.last().is_some_and(|last| last == "--cases");
    if cases {
        arguments.pop();
    }
    let Some(corpus) = read(&arguments) else {
        eprintln!("corpus SEED SIZE | corpus FILE, then --cases or nothing");
        return ExitCode::FAILURE;
    };
    if cases {
        print!("{}", corpus::text(&corpus));
        return ExitCode::SUCCESS;
    }
    for (part, (count, digest)) in corpus::digests(&corpus) {
        println!("{part} {count} {digest:016X}");
    }
    ExitCode::SUCCESS
}
