//! Hostile standard input for the three programs, after `rt run` in the folder of
//! each: `fuzz_programs COUNT [SEED] [--valgrind]`. What a program writes must be
//! what the oracle says, and its exit status 0. With `--valgrind` programs run under
//! memcheck. Prints the answers by number; at the first fault, the input in
//! hexadecimal, with exit status 1.

use lemongully_oracle::corpus::hex;
use lemongully_oracle::generate::{Random, hostile};
use lemongully_oracle::operations::{maker_output, program_output};
use lemongully_oracle::page::pages_output;
use std::collections::BTreeMap;
use std::error::Error;
use std::io::{ErrorKind, Result, Write};
use std::path::{Path, PathBuf};
use std::process::{ChildStdin, Command, ExitCode, ExitStatus, Stdio};
use std::time::Duration;

const NAMES: [&str; 3] = ["check_sheet", "make_sheet", "show_pages"];

/// A result, or a fault.
type Outcome<T> = std::result::Result<T, Box<dyn Error>>;

/// What stands on standard output and standard error.
type Written = (Vec<u8>, Vec<u8>);

/// How a program gets its input.
#[derive(Clone, Copy, Debug, PartialEq)]
enum Feed {
    Whole,
    /// A part of it, and some time later the rest.
    Parts,
    /// Standard input is closed, so there is none.
    Closed,
}

/// One run of a program.
struct Run {
    name: &'static str,
    input: Vec<u8>,
    feed: Feed,
}

/// The run of an index.
fn drawn(seed: u64, index: u64) -> Run {
    let random = &mut Random::new(seed, index);
    let name = random.pick(&NAMES);
    let kinds = &[1, 2, 3];
    let mut input = match random.below(8) {
        // Sometimes what another program takes.
        0 => hostile::request(random, kinds),
        _ if name == "make_sheet" => hostile::request(random, kinds),
        _ => hostile::sheet(random, kinds).0,
    };
    if random.once_in(6) {
        hostile::lengthen(random, &mut input);
    }
    let feed = match random.below(24) {
        0 | 1 => Feed::Parts,
        2 => Feed::Closed,
        _ => Feed::Whole,
    };
    if feed == Feed::Closed {
        input.clear();
    }
    Run { name, input, feed }
}

/// What the oracle says that a program writes.
fn expected(run: &Run) -> Written {
    if run.feed == Feed::Closed {
        return (Vec::new(), b"not read\n".to_vec());
    }
    match run.name {
        "make_sheet" => {
            let (sheet, refusal) = maker_output(&run.input);
            (sheet, refusal.into_bytes())
        }
        "show_pages" => (pages_output(&run.input), Vec::new()),
        _ => (program_output(&run.input).into_bytes(), Vec::new()),
    }
}

/// The answer without its angles.
fn answer((output, error): &Written) -> String {
    let text = if error.is_empty() { output } else { error };
    let line = text.split(|&byte| byte == b'\n').next().unwrap_or_default();
    match std::str::from_utf8(line) {
        Ok(line) if line.starts_with("refused") || line == "too long" || line == "not read" => {
            line.to_string()
        }
        _ => "accepted".to_string(),
    }
}

/// Writes the input; a program need not read it to the end.
fn feed(run: &Run, mut stdin: ChildStdin) -> Result<()> {
    let first = match run.feed {
        Feed::Parts => run.input.len() / 3,
        _ => run.input.len(),
    };
    let (first, rest) = run.input.split_at(first);
    let written = stdin.write_all(first).and_then(|()| {
        if run.feed == Feed::Parts {
            std::thread::sleep(Duration::from_millis(300));
        }
        stdin.write_all(rest)
    });
    match written {
        Err(error) if error.kind() == ErrorKind::BrokenPipe => Ok(()),
        other => other,
    }
}

/// Runs a program that is started by these words.
fn start(words: &[PathBuf], run: &Run) -> Result<(ExitStatus, Written)> {
    let closing = match run.feed {
        Feed::Closed => "exec \"$@\" <&-",
        _ => "exec \"$@\"",
    };
    let mut child = Command::new("sh")
        .args(["-c", closing, "sh"])
        .args(words)
        .stdin(Stdio::piped())
        .stdout(Stdio::piped())
        .stderr(Stdio::piped())
        .spawn()?;
    if let Some(stdin) = child.stdin.take() {
        feed(run, stdin)?;
    }
    let output = child.wait_with_output()?;
    Ok((output.status, (output.stdout, output.stderr)))
}

/// Where `rt run` puts a program.
fn built(name: &str) -> PathBuf {
    let root = Path::new(env!("CARGO_MANIFEST_DIR")).join("..");
    root.join(format!("crates/{name}/out/{name}"))
}

/// The words that start a program: by itself, or under memcheck.
fn words(memcheck: bool, name: &str) -> Vec<PathBuf> {
    let options: &[&str] = match memcheck {
        true => &["valgrind", "-q", "--error-exitcode=99"],
        false => &[],
    };
    let options = options.iter().map(PathBuf::from);
    options.chain([built(name)]).collect()
}

/// How often each program gave each answer.
type Counts = BTreeMap<(&'static str, String), u64>;

/// A fault, unless the program ended well and wrote what the oracle says.
fn compare(run: &Run, status: ExitStatus, found: &Written, expected: &Written) -> Outcome<()> {
    if status.success() && found == expected {
        return Ok(());
    }
    let [found, expected] = [found, expected]
        .map(|(output, error)| format!("{} {}", hex(output), String::from_utf8_lossy(error)));
    let (name, feed, input) = (run.name, run.feed, hex(&run.input));
    Err(format!("{name}, {feed:?}, {status}: {found}, not {expected}\nfault {input}").into())
}

/// So many runs, or the first fault.
fn fuzz(count: u64, seed: u64, valgrind: bool) -> Outcome<Counts> {
    if let Some(name) = NAMES.into_iter().find(|name| !built(name).exists()) {
        return Err(format!("{name} is not built: `rt run` in crates/{name} first").into());
    }
    let mut counts = Counts::new();
    for index in 0..count {
        let run = drawn(seed, index);
        let expected = expected(&run);
        let (status, found) = start(&words(valgrind, run.name), &run)?;
        compare(&run, status, &found, &expected)?;
        *counts.entry((run.name, answer(&expected))).or_default() += 1;
    }
    Ok(counts)
}

fn read(arguments: &[String]) -> Option<(u64, u64, bool)> {
    let (numbers, valgrind) = match arguments {
        [numbers @ .., last] if last == "--valgrind" => (numbers, true),
        numbers => (numbers, false),
    };
    match numbers {
        [count] => Some((count.parse().ok()?, 1, valgrind)),
        [count, seed] => Some((count.parse().ok()?, seed.parse().ok()?, valgrind)),
        _ => None,
    }
}

fn main() -> ExitCode {
    let arguments: Vec<String> = std::env::args().skip(1).collect();
    let Some((count, seed, valgrind)) = read(&arguments) else {
        eprintln!("fuzz_programs COUNT [SEED] [--valgrind]");
        return ExitCode::FAILURE;
    };
    println!("seed {seed}, {count} inputs");
    match fuzz(count, seed, valgrind) {
        Ok(counts) => {
            for ((name, answer), count) in counts {
                println!("{name} {answer}: {count}");
            }
            println!("no fault");
            ExitCode::SUCCESS
        }
        Err(fault) => {
            println!("{fault}");
            ExitCode::FAILURE
        }
    }
}
