//! Reads a sheet from standard input, has it checked, and prints its name and its angles.
//!
//!     (cd crates/lemongully && rt lib)
//!     rustc --edition 2024 -O examples/rust/check_sheet.rs -L crates/lemongully/out -l static=lemongully -o check_sheet_rust
//!     ./check_sheet_rust < examples/joint_2.sheet

use std::io::Read;
use std::process::ExitCode;

unsafe extern "C" {
    /// `sheet_check` of include/lemongully/sheet.h: a slice is a pointer and a length.
    fn sheet_check(sheet: *const u8, length: usize, work: *mut f64, places: usize) -> i64;
}

/// The number of angles, or the refusal's number.
fn check(sheet: &[u8], work: &mut [f64]) -> Result<usize, i64> {
    // SAFETY: both slices are lent whole, and do not overlap.
    let answer = unsafe { sheet_check(sheet.as_ptr(), sheet.len(), work.as_mut_ptr(), work.len()) };
    usize::try_from(answer).map_err(|_| -answer)
}

/// The name on an accepted sheet of n angles: it stands between the request's first 264 bytes and
/// the 16 of the trailer, where edition 1 has nothing.
fn name(sheet: &[u8], n: usize) -> &[u8] {
    let name = &sheet[8 * n + 264..sheet.len() - 16];
    let end = name.iter().position(|&byte| byte == 0);
    &name[..end.unwrap_or(name.len())]
}

fn main() -> ExitCode {
    let mut sheet = Vec::new();
    if let Err(error) = std::io::stdin().read_to_end(&mut sheet) {
        eprintln!("not read: {error}");
        return ExitCode::from(2);
    }
    let mut work = vec![0.0; 175_618];
    match check(&sheet, &mut work) {
        Ok(n) => {
            println!("{}", String::from_utf8_lossy(name(&sheet, n)));
            for bytes in sheet.chunks_exact(8).take(n) {
                println!("{}", f64::from_le_bytes(bytes.try_into().expect("eight bytes")));
            }
            ExitCode::SUCCESS
        }
        Err(refusal) => {
            eprintln!("refused {refusal}");
            ExitCode::FAILURE
        }
    }
}
