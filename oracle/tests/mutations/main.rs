//! Document 01, 'Slips to rule out', and slips of change requests 1 to 5: each is
//! built into a copy of the package, which must then answer the corpus otherwise
//! than the package itself.
//!
//! The cases are generated once, by the package; a copy only answers them. To
//! see which parts of the corpus catch a slip, add `-- --nocapture`.

mod pages;

use lemongully_oracle::corpus;
use std::collections::{BTreeMap, BTreeSet};
use std::path::{Path, PathBuf};
use std::process::Command;
use std::sync::OnceLock;

/// For each part, how many cases and the digest of their answers.
type Digests = BTreeMap<String, (usize, u64)>;

/// An edit of one file: the text must stand there exactly once.
struct Slip {
    name: &'static str,
    file: &'static str,
    text: &'static str,
    slip: &'static str,
}

/// The file of cases, generated and kept, and the package's own digests.
fn cases() -> &'static (PathBuf, Digests) {
    static CASES: OnceLock<(PathBuf, Digests)> = OnceLock::new();
    CASES.get_or_init(|| {
        let kept = include_str!("../cases/kept.txt");
        let text = kept.to_string() + &corpus::text(&corpus::generated(1, 400));
        let file = Path::new(env!("CARGO_TARGET_TMPDIR")).join("cases.txt");
        std::fs::write(&file, &text).expect("cases are written");
        let corpus = corpus::parse(&text).expect("a text of cases");
        (file, corpus::digests(&corpus))
    })
}

/// Copies a folder with all that is in it.
fn copy(from: &Path, to: &Path) {
    std::fs::create_dir_all(to).expect("a folder is made");
    for entry in std::fs::read_dir(from).expect("a folder is read") {
        let entry = entry.expect("an entry is read");
        let target = to.join(entry.file_name());
        if entry.path().is_dir() {
            copy(&entry.path(), &target);
        } else {
            std::fs::copy(entry.path(), target).expect("a file is copied");
        }
    }
}

/// A fresh copy of the package without its tests.
fn fresh(name: &str) -> PathBuf {
    let package = Path::new(env!("CARGO_MANIFEST_DIR"));
    let folder = Path::new(env!("CARGO_TARGET_TMPDIR")).join(name);
    let _ = std::fs::remove_dir_all(&folder);
    copy(&package.join("src"), &folder.join("src"));
    copy(&package.join(".cargo"), &folder.join(".cargo"));
    for file in ["Cargo.toml", "Cargo.lock"] {
        std::fs::copy(package.join(file), folder.join(file)).expect("a file is copied");
    }
    folder
}

/// The digests that the copy in a folder gives.
fn digests(folder: &Path) -> Digests {
    let cargo = std::env::var_os("CARGO").unwrap_or("cargo".into());
    let built = Command::new(cargo)
        .args([
            "build",
            "--release",
            "--offline",
            "--quiet",
            "--bin",
            "corpus",
        ])
        .arg("--target-dir")
        .arg(folder.join("target"))
        .current_dir(folder)
        .output()
        .expect("cargo runs");
    let errors = String::from_utf8_lossy(&built.stderr);
    assert!(built.status.success(), "the copy does not build: {errors}");
    let ran = Command::new(folder.join("target/release/corpus"))
        .arg(&cases().0)
        .output()
        .expect("the copy runs");
    assert!(ran.status.success(), "the copy fails");
    let lines = String::from_utf8(ran.stdout).expect("text");
    let digest = |line: &str| {
        let words: Vec<&str> = line.split(' ').collect();
        let digest = u64::from_str_radix(words[2], 16).expect("a digest");
        (
            words[0].to_string(),
            (words[1].parse().expect("a count"), digest),
        )
    };
    lines.lines().map(digest).collect()
}

/// The parts of the corpus that a slip's copy answers otherwise.
fn caught(slip: Slip) -> BTreeSet<&'static str> {
    let folder = fresh(slip.name);
    let file = folder.join("src").join(slip.file);
    let text = std::fs::read_to_string(&file).expect("the file is read");
    assert_eq!(
        text.matches(slip.text).count(),
        1,
        "the text must stand once"
    );
    std::fs::write(&file, text.replace(slip.text, slip.slip)).expect("the file is written");
    let (own, found) = (&cases().1, digests(&folder));
    let parts: BTreeSet<&str> = own
        .keys()
        .filter(|part| own[*part] != found[*part])
        .map(String::as_str)
        .collect();
    println!("{} is caught by {parts:?}", slip.name);
    std::fs::remove_dir_all(folder).expect("the copy is removed");
    parts
}

/// Fails unless the slip is caught by each of these parts.
fn is_caught(slip: Slip, by: &[&str]) {
    let name = slip.name;
    let parts = caught(slip);
    for part in by {
        assert!(parts.contains(part), "{part} does not catch {name}");
    }
}

#[test]
fn an_unedited_copy_answers_alike() {
    let folder = fresh("unedited");
    assert_eq!(digests(&folder), cases().1);
    std::fs::remove_dir_all(folder).expect("the copy is removed");
}

#[test]
fn sorting_each_interval() {
    let slip = Slip {
        name: "sorting-each-interval",
        file: "singularity/continuum.rs",
        text: "        result.extend(samples);\n",
        slip: "        samples.sort_by(f64::total_cmp);\n        result.extend(samples);\n",
    };
    is_caught(slip, &["generated-one-free", "kept-order"]);
}

#[test]
fn sorting_all_samples() {
    let slip = Slip {
        name: "sorting-all-samples",
        file: "singularity/continuum.rs",
        text: "    // with the ordinary arm branches in the caller.\n",
        slip: "    result.sort_by(f64::total_cmp);\n",
    };
    is_caught(slip, &["generated-one-free", "kept-order"]);
}

#[test]
fn dropping_an_end_beside_its_equal() {
    let slip = Slip {
        name: "dropping-an-end-beside-its-equal",
        file: "singularity/continuum.rs",
        text: "    // with the ordinary arm branches in the caller.\n",
        slip: "    result.dedup();\n",
    };
    is_caught(slip, &["generated-one-free", "kept-end-twice"]);
}

#[test]
fn dropping_every_second_end() {
    let slip = Slip {
        name: "dropping-every-second-end",
        file: "singularity/continuum.rs",
        text: "        result.extend(samples);\n",
        slip: "        samples.retain(|angle| !result.contains(angle));\n        result.extend(samples);\n",
    };
    is_caught(slip, &["generated-one-free", "kept-end-twice"]);
}

#[test]
fn leaving_out_an_interval_of_one_angle() {
    let slip = Slip {
        name: "leaving-out-an-interval-of-one-angle",
        file: "kinematics_impl.rs",
        text: "tolerance >= 0.0 && lower <= upper)",
        slip: "tolerance >= 0.0 && (lower < upper || tolerance == 0.0))",
    };
    is_caught(slip, &["generated-one-free", "kept-end-twice"]);
}

#[test]
fn moving_cuts_into_their_half() {
    let slip = Slip {
        name: "moving-cuts-into-their-half",
        file: "singularity/j1j2free.rs",
        text: ".map(|root| origin + 2.0 * trig::atan(root)),",
        slip: ".map(|root| (origin + 2.0 * trig::atan(root)).max(lower).min(upper)),",
    };
    is_caught(slip, &["kept-half"]);
}

#[test]
fn dropping_cuts_beyond_their_half() {
    let slip = Slip {
        name: "dropping-cuts-beyond-their-half",
        file: "singularity/j1j2free.rs",
        text: "        let mut cuts = critical_slices(&curves, lo, hi);\n",
        slip: "        let mut cuts = critical_slices(&curves, lo, hi);\n        \
               cuts.retain(|&angle| lo <= angle && angle <= hi);\n",
    };
    is_caught(slip, &["kept-half"]);
}

#[test]
fn leaving_out_a_pair_of_curves() {
    let slip = Slip {
        name: "leaving-out-a-pair-of-curves",
        file: "singularity/j1j2free.rs",
        text: "polynomials.iter().skip(index + 1)",
        slip: "polynomials.iter().skip(index + 2)",
    };
    is_caught(slip, &["generated-two-free", "kept-half"]);
}

#[test]
fn turning_the_operands_of_a_pair() {
    let slip = Slip {
        name: "turning-the-operands-of-a-pair",
        file: "singularity/j1j2free.rs",
        text: "        for [d, e, f] in polynomials.iter().skip(index + 1) {\n",
        slip: "        for later in polynomials.iter().skip(index + 1) {\n            \
               let [d, e, f] = [a, b, c];\n            \
               let [a, b, c] = later;\n",
    };
    is_caught(slip, &["generated-two-free", "kept-half"]);
}

/// No slip: the order of change request 3. Cuts are sorted, so nothing shows it.
#[test]
fn pairs_by_their_later_curve_answer_alike() {
    let order = Slip {
        name: "pairs-by-their-later-curve",
        file: "singularity/j1j2free.rs",
        text: "        for [d, e, f] in polynomials.iter().skip(index + 1) {\n",
        slip: "        for earlier in polynomials.iter().take(index) {\n            \
               let [d, e, f] = [a, b, c];\n            \
               let [a, b, c] = earlier;\n",
    };
    assert!(caught(order).is_empty());
}

/// No sheet shows this one: it shows in Roots alone, where a bound is a zero.
#[test]
fn keeping_plus_zero_beside_minus_zero() {
    let slip = Slip {
        name: "keeping-plus-zero-beside-minus-zero",
        file: "singularity/j1j2free.rs",
        text: "    partitions.dedup();\n",
        slip: "    partitions.reverse();\n    partitions.dedup();\n    partitions.reverse();\n",
    };
    let parts = caught(slip);
    assert!(parts.contains("kept-zero") && parts.contains("generated-roots"));
    assert_eq!(parts.len(), 2);
}

#[test]
fn an_unfused_product() {
    let slip = Slip {
        name: "an-unfused-product",
        file: "singularity/j1j2free.rs",
        text: "self.high.mul_add(other.high, -product)",
        slip: "(self.high * other.high - product)",
    };
    is_caught(
        slip,
        &["generated-roots", "generated-two-free", "kept-product"],
    );
}

#[test]
fn leaving_out_a_reference_of_kind_3() {
    let slip = Slip {
        name: "leaving-out-a-reference-of-kind-3",
        file: "singularity/j1j2free.rs",
        text: "    let mut slices = vec![model_reference, lower, upper];\n",
        slip: "    let mut slices = vec![model_reference, lower, upper];\n    \
               slices.retain(|&angle| lower <= angle && angle <= upper);\n",
    };
    is_caught(slip, &["generated-two-free", "kept-reference"]);
}

#[test]
fn keeping_a_reference_of_kinds_1_and_2() {
    let slip = Slip {
        name: "keeping-a-reference-of-kinds-1-and-2",
        file: "singularity/continuum.rs",
        text: "    // with the ordinary arm branches in the caller.\n",
        slip: "    if !result.contains(&near) {\n        result.push(near);\n    }\n",
    };
    is_caught(slip, &["generated-one-free", "kept-reference"]);
}

#[test]
fn cutting_every_interval_at_the_reference() {
    let slip = Slip {
        name: "cutting-every-interval-at-the-reference",
        file: "singularity/continuum.rs",
        text: "        let mut cuts = vec![lower, upper];\n",
        slip: "        let mut cuts = vec![lower, upper, near];\n",
    };
    is_caught(slip, &["generated-one-free", "kept-reference"]);
}

/// The sign changes beside such a number, so that a bisection ends there too.
#[test]
fn a_number_that_arises_both_ways_as_a_crossing() {
    let slip = Slip {
        name: "a-number-that-arises-both-ways-as-a-crossing",
        file: "touching.rs",
        text: "    points\n}\n\n/// The partition points of",
        slip: "    let value = |x: f64| j1j2free::evaluate(polynomial, x);\n    \
               points.retain(|&point| {\n        \
               let beside = [point.next_down(), point.next_up()];\n        \
               !beside.iter().any(|&x| value(x).signum() * value(point) < 0.0)\n    \
               });\n    points\n}\n\n/// The partition points of",
    };
    is_caught(slip, &["generated-roots", "kept-both-ways"]);
}

#[test]
fn the_quotient_as_a_touch() {
    let slip = Slip {
        name: "the-quotient-as-a-touch",
        file: "touching.rs",
        text: "        return Vec::new();\n",
        slip: "        return j1j2free::roots(polynomial.to_vec(), lower, upper);\n",
    };
    is_caught(slip, &["generated-roots", "kept-quotient"]);
}

#[test]
fn bounds_that_do_not_touch() {
    let slip = Slip {
        name: "bounds-that-do-not-touch",
        file: "touching.rs",
        text: "    points.extend([lower, upper]);\n",
        slip: "",
    };
    is_caught(slip, &["generated-roots", "kept-bound"]);
}

#[test]
fn a_name_not_looked_at_after_its_first_zero() {
    let slip = Slip {
        name: "a-name-not-looked-at-after-its-first-zero",
        file: "request.rs",
        text: " && rest.iter().all(|&byte| byte == 0)",
        slip: " && rest.len() <= bytes.len()",
    };
    let by = ["generated-one-free", "generated-check", "kept-name-rest"];
    is_caught(slip, &by);
}

#[test]
fn a_name_with_byte_127() {
    let slip = Slip {
        name: "a-name-with-byte-127",
        file: "request.rs",
        text: "(32..=126)",
        slip: "(32..=127)",
    };
    is_caught(slip, &["generated-one-free", "kept-name-127"]);
}

#[test]
fn a_full_name_refused() {
    let slip = Slip {
        name: "a-full-name-refused",
        file: "request.rs",
        text: "end.unwrap_or(name.len())",
        slip: "end.unwrap_or(name.len().saturating_sub(1))",
    };
    let by = ["generated-one-free", "generated-check", "kept-name-full"];
    is_caught(slip, &by);
}

#[test]
fn the_name_tested_before_the_head() {
    let slip = Slip {
        name: "the-name-tested-before-the-head",
        file: "operations.rs",
        text: "        return Err(2);\n",
        slip: "        return Err(if request::name_is_right(bytes) { 2 } else { 41 });\n",
    };
    is_caught(slip, &["generated-one-free", "kept-name-after-head"]);
}

#[test]
fn the_name_tested_after_the_signs() {
    let slip = Slip {
        name: "the-name-tested-after-the-signs",
        file: "operations.rs",
        text: "        return Err(41);\n",
        slip: "        return Err(if sign_fails { 3 } else { 41 });\n",
    };
    is_caught(slip, &["generated-one-free", "kept-name-before-signs"]);
}

#[test]
fn the_name_blanked_in_the_sheet() {
    let slip = Slip {
        name: "the-name-blanked-in-the-sheet",
        file: "request.rs",
        text: "    let mut read = [true; SIZE];\n",
        slip: "    let mut read = [true; SIZE];\n    read[CORE..].fill(false);\n",
    };
    let by = ["generated-one-free", "generated-check", "kept-name-stays"];
    is_caught(slip, &by);
}

/// The length alone then says where the request stands.
#[test]
fn edition_2_with_the_length_of_edition_1() {
    let slip = Slip {
        name: "edition-2-with-the-length-of-edition-1",
        file: "operations.rs",
        text: "    let right = edition <= newest\n",
        slip: "    let short = sheet.len() as u64 == 8 * count + Edition::One.frame() as u64;\n    \
               let edition = if short { Edition::One } else { edition };\n    \
               let right = edition <= newest\n",
    };
    is_caught(slip, &["generated-check", "kept-edition-length"]);
}

#[test]
fn edition_1_no_longer_taken() {
    let slip = Slip {
        name: "edition-1-no-longer-taken",
        file: "edition.rs",
        text: "            1 => Some(Self::One),\n",
        slip: "",
    };
    is_caught(slip, &["generated-check", "kept-edition-1"]);
}

/// Change request 5 rests on refusal 6: beyond 32 the arm's sines are NaN.
#[test]
fn arm_angles_within_40() {
    let slip = Slip {
        name: "arm-angles-within-40",
        file: "operations.rs",
        text: "(-8.0..=8.0)",
        slip: "(-40.0..=40.0)",
    };
    is_caught(slip, &["generated-one-free", "kept-arm"]);
}

/// An inner call with its bounds out of order is no longer refused as 9.
#[test]
fn the_bounds_of_a_chart_swapped() {
    let slip = Slip {
        name: "the-bounds-of-a-chart-swapped",
        file: "singularity/j1j2free.rs",
        text: "roots(polynomial, min_t, max_t)",
        slip: "roots(polynomial, max_t, min_t)",
    };
    is_caught(slip, &["generated-two-free", "kept-half"]);
}
