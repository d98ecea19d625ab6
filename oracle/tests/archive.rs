//! The archive that a supplier links asks for nothing but `memcpy` and `memset`.
//! Runs with the feature `linked`, after `rt lib` in `crates/lemongully`.

#![cfg(feature = "linked")]

use std::collections::BTreeSet;
use std::path::Path;
use std::process::Command;

#[test]
fn the_archive_asks_for_memcpy_and_memset_alone() {
    let archive =
        Path::new(env!("CARGO_MANIFEST_DIR")).join("../crates/lemongully/out/liblemongully.a");
    assert!(archive.exists(), "run `rt lib` in crates/lemongully first");
    let output = Command::new("nm")
        .arg("-u")
        .arg(&archive)
        .output()
        .expect("nm runs");
    let names: BTreeSet<_> = String::from_utf8_lossy(&output.stdout)
        .lines()
        .filter_map(|line| line.trim().strip_prefix("U ").map(str::to_string))
        .collect();
    let allowed: BTreeSet<_> = ["memcpy", "memset"].map(str::to_string).into();
    assert!(!names.is_empty(), "nm lists nothing");
    assert!(names.is_subset(&allowed), "the archive asks for {names:?}");
}
