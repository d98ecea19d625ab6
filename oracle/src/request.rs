//! Document 01, request and sheet: the bytes of a request, and which of them are
//! read. A request is given as a slice, as long as its edition says.

use crate::edition::{CORE, Edition};
use crate::float;

/// The bytes of a request that Sampling takes.
pub const SIZE: usize = Edition::NEWEST.request_size();

/// Positions in a request.
pub const SIGNS: usize = 4;
pub const ROTATION: usize = 16;
pub const ARM: usize = 48;
pub const REFERENCES: usize = 72;
pub const OFFSETS: usize = 120;
pub const FROM: usize = 168;
pub const TO: usize = 216;

/// The fields of a request, every one as given.
#[derive(Clone, Copy, Debug)]
pub struct Request {
    pub kind: u8,
    /// Limits are present.
    pub limits: bool,
    /// The sixth joint is fixed.
    pub fixed: bool,
    pub signs: [u8; 6],
    pub rotation: [f64; 4],
    pub arm: [f64; 3],
    pub references: [f64; 6],
    pub offsets: [f64; 6],
    pub from: [f64; 6],
    pub to: [f64; 6],
}

/// Which fields are read; an offset is where its sign is.
#[derive(Clone, Copy, Debug, Default, PartialEq)]
pub struct Reads {
    pub signs: [bool; 6],
    pub arm: [bool; 3],
    pub references: [bool; 6],
    pub limits: [bool; 6],
}

impl Reads {
    /// The fields read for a kind and flags; under a wrong one, none beyond
    /// the always-read bytes.
    pub fn of(kind: u8, limits: u8, fixed: u8) -> Self {
        let sixth = fixed == 0;
        let one = |free: usize| {
            std::array::from_fn(|j| j == free || j == 3 || j == 4 || (j == 5 && sixth))
        };
        let (arm, signs, references) = match (kind, limits, fixed) {
            (1, 0 | 1, 0 | 1) => ([false, true, true], one(0), one(0)),
            (2, 0 | 1, 0 | 1) => ([true, false, true], one(1), one(1)),
            (3, 0, 0 | 1) => ([false, false, true], first(2), first(2)),
            (3, 1, 0 | 1) => {
                let signs = [true, true, false, true, true, sixth];
                ([false, false, true], signs, first(1))
            }
            _ => return Self::default(),
        };
        let limits = if limits == 1 { signs } else { [false; 6] };
        Self {
            signs,
            arm,
            references,
            limits,
        }
    }
}

/// The first joints alone.
fn first(count: usize) -> [bool; 6] {
    std::array::from_fn(|joint| joint < count)
}

/// The float at a position.
pub fn float_at(bytes: &[u8], position: usize) -> f64 {
    float::of_bits(word_at(bytes, position))
}

/// The eight bytes at a position as a number.
pub fn word_at(bytes: &[u8], position: usize) -> u64 {
    let mut word = [0; 8];
    word.copy_from_slice(&bytes[position..position + 8]);
    u64::from_le_bytes(word)
}

/// Floats that follow each other.
fn floats_at<const N: usize>(bytes: &[u8], position: usize) -> [f64; N] {
    std::array::from_fn(|index| float_at(bytes, position + 8 * index))
}

/// Whether the always-read bytes before the rotation are right (refusal 2 if not).
pub fn head_is_right(bytes: &[u8]) -> bool {
    (1..=3).contains(&bytes[0])
        && bytes[1] <= 1
        && bytes[2] <= 1
        && bytes[3] == 0
        && bytes[10..16].iter().all(|&byte| byte == 0)
}

/// Whether the name is right: characters from 32 to 126, then zeros to the end
/// (refusal 41 if not). Edition 1 has none, which is right.
pub fn name_is_right(bytes: &[u8]) -> bool {
    let name = &bytes[CORE..];
    let end = name.iter().position(|&byte| byte == 0);
    let (characters, rest) = name.split_at(end.unwrap_or(name.len()));
    characters.iter().all(|byte| (32..=126).contains(byte)) && rest.iter().all(|&byte| byte == 0)
}

/// The fields of a request whose head is right.
pub fn fields(bytes: &[u8]) -> Request {
    Request {
        kind: bytes[0],
        limits: bytes[1] == 1,
        fixed: bytes[2] == 1,
        signs: std::array::from_fn(|joint| bytes[SIGNS + joint]),
        rotation: floats_at(bytes, ROTATION),
        arm: floats_at(bytes, ARM),
        references: floats_at(bytes, REFERENCES),
        offsets: floats_at(bytes, OFFSETS),
        from: floats_at(bytes, FROM),
        to: floats_at(bytes, TO),
    }
}

/// For each byte of a request, whether it is read; every byte of a name is.
pub fn read_bytes(bytes: &[u8]) -> [bool; SIZE] {
    let reads = Reads::of(bytes[0], bytes[1], bytes[2]);
    let mut read = [true; SIZE];
    let mut floats = |position: usize, flags: &[bool]| {
        for (index, &flag) in flags.iter().enumerate() {
            read[position + 8 * index..position + 8 * index + 8].fill(flag);
        }
    };
    floats(ARM, &reads.arm);
    floats(REFERENCES, &reads.references);
    floats(OFFSETS, &reads.signs);
    floats(FROM, &reads.limits);
    floats(TO, &reads.limits);
    read[SIGNS..SIGNS + 6].copy_from_slice(&reads.signs);
    read
}

/// The request with every unread field zero.
pub fn blanked(bytes: &[u8]) -> Vec<u8> {
    std::iter::zip(bytes, read_bytes(bytes))
        .map(|(&byte, read)| if read { byte } else { 0 })
        .collect()
}
