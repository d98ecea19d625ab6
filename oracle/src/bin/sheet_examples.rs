//! Writes the example requests and their sheets: examples/NAME.request has the
//! 296 bytes, examples/NAME.sheet what sampling writes for them. 01's whole sheet
//! is examples/edition_1.sheet, as edition 1 lays it out; with a name and in
//! edition 2 it is examples/one_angle, which make_sheet reads and writes, and
//! examples/by_hand, which docs/FORMAT.md explains. check_sheet reads joint_2 in
//! edition 1, show_pages joints_1_2, which has two pages; examples/joint_2.page is
//! the one page of joint_2.

use lemongully_oracle::edition::{CORE, Edition};
use lemongully_oracle::generate::{names, requests::Draft, sheets};
use lemongully_oracle::operations::program_output;
use lemongully_oracle::page::pages_output;
use lemongully_oracle::request::{ARM, FROM, OFFSETS, REFERENCES, ROTATION, SIGNS, SIZE, TO};
use std::fs;
use std::io::Result;
use std::path::Path;

/// Joint limits of an arm, in radians.
const LIMITS: [[f64; 2]; 6] = [
    [-2.9, 2.9],
    [-1.8, 2.2],
    [-1.2, 3.0],
    [-3.1, 3.1],
    [-2.0, 2.0],
    [-3.1, 3.1],
];

/// The rotation of the target (x, y, z, w), and the six references.
const TILTED: [f64; 4] = [0.5, -0.1, 0.7, 0.4];
const NEAR: [f64; 6] = [0.3, -0.4, 0.9, 0.1, -0.6, 0.2];

/// The weights' names.
const NAMES: [&str; 3] = [
    "Gully Antiqua Book",
    "Gully Grotesk Semibold Condensed",
    "Gully Text Light Italic",
];

/// A request for such an arm: kind, whether the sixth joint is fixed, q1 to q3,
/// and the weight's name.
fn job(kind: u8, fixed: bool, arm: [f64; 3], name: &str) -> [u8; SIZE] {
    let mut draft = Draft { bytes: [0; SIZE] };
    draft.bytes[..3].copy_from_slice(&[kind, 1, u8::from(fixed)]);
    draft.bytes[SIGNS..SIGNS + 6].copy_from_slice(&[1, 1, 255, 1, 1, 255]);
    let mut floats = |position: usize, floats: &[f64]| {
        for (index, &float) in floats.iter().enumerate() {
            draft.put(position + 8 * index, float);
        }
    };
    floats(ROTATION, &TILTED);
    floats(ARM, &arm);
    floats(REFERENCES, &NEAR);
    floats(OFFSETS, &[0.0, 0.0, -0.5, 0.0, 0.0, 0.25]);
    floats(FROM, &LIMITS.map(|[from, _]| from));
    floats(TO, &LIMITS.map(|[_, to]| to));
    draft.bytes[CORE..].copy_from_slice(&names::name(name));
    draft.bytes
}

/// The sheet that an edition lays out for a request.
fn sheet_of(edition: Edition, request: &[u8; SIZE]) -> Vec<u8> {
    let (sheet, _) = sheets::written(edition, request).expect("every example is accepted");
    sheet
}

/// Bytes in hexadecimal, 16 to a line.
fn hexadecimal(bytes: &[u8]) -> String {
    let line = |bytes: &[u8]| {
        let digits: Vec<String> = bytes.iter().map(|byte| format!("{byte:02X}")).collect();
        digits.join(" ") + "\n"
    };
    bytes.chunks(16).map(line).collect()
}

/// Writes the stored input and output of a program.
fn stored(name: &str, input: &[u8], output: &[u8]) -> Result<()> {
    let crates = Path::new(env!("CARGO_MANIFEST_DIR")).join("../crates");
    let folder = crates.join(name);
    fs::create_dir_all(&folder)?;
    fs::write(folder.join("stdin"), input)?;
    fs::write(folder.join("stdout"), output)
}

fn main() -> Result<()> {
    let examples = Path::new(env!("CARGO_MANIFEST_DIR")).join("../examples");
    let [antiqua, grotesk, text] = NAMES;
    let joint_1 = job(1, false, [0.0, 0.6, -0.9], grotesk);
    let joint_2 = job(2, true, [0.2, 0.0, -0.9], antiqua);
    let joints_1_2 = job(3, true, [0.0, 0.0, -0.9], text);
    let one_angle = sheets::one_angle_named(antiqua);
    let jobs = [
        ("joint_1", joint_1),
        ("joint_2", joint_2),
        ("joints_1_2", joints_1_2),
        ("one_angle", one_angle),
    ];
    for (name, request) in jobs {
        let sheet = sheet_of(Edition::Two, &request);
        let count = sheets::count_at(Edition::Two, sheet.len());
        println!("{name}: {count} angles");
        fs::write(examples.join(format!("{name}.request")), request)?;
        fs::write(examples.join(format!("{name}.sheet")), sheet)?;
    }
    fs::write(examples.join("by_hand.request"), one_angle)?;
    fs::write(examples.join("by_hand.hex"), hexadecimal(&one_angle))?;
    let earlier = sheet_of(Edition::One, &one_angle);
    fs::write(examples.join("edition_1.sheet"), earlier)?;
    let page = pages_output(&sheet_of(Edition::Two, &joint_2));
    fs::write(examples.join("joint_2.page"), page)?;
    let sheet = sheet_of(Edition::Two, &one_angle);
    stored("make_sheet", &one_angle, &sheet)?;
    let earlier = sheet_of(Edition::One, &joint_2);
    stored("check_sheet", &earlier, program_output(&earlier).as_bytes())?;
    let sheet = sheet_of(Edition::Two, &joints_1_2);
    stored("show_pages", &sheet, &pages_output(&sheet))
}
