//! Requests for sampling, accepted and refused.

use super::limits::{self, Joint};
use super::{Random, aimed, floats, names, power};
use crate::edition::{CORE, Edition};
use crate::float::P;
use crate::operations;
use crate::request::{self, ARM, FROM, OFFSETS, REFERENCES, ROTATION, SIGNS, SIZE, TO};

/// Lengths that no request has: those beside both editions' own, and edition 1's.
const WRONG: [usize; 9] = [0, 1, 263, 264, 265, 280, 295, 297, 528];

/// A call of sampling: the request and the lent lengths.
#[derive(Clone, Debug, PartialEq)]
pub struct Call {
    pub request: Vec<u8>,
    pub work: usize,
    pub output: usize,
}

/// Requests of all kinds.
pub fn requests(seed: u64, count: usize) -> Vec<Vec<u8>> {
    (0..count as u64)
        .map(|index| request(seed, index, &[1, 2, 3]))
        .collect()
}

/// One request, of one of these kinds unless it is spoilt.
pub fn request(seed: u64, index: u64, kinds: &[u8]) -> Vec<u8> {
    let random = &mut Random::new(seed, index);
    let kind = random.pick(kinds);
    let mut draft = accepted(random, kind);
    if random.once_in(8) {
        aimed::touch_bend(&mut draft, random);
    }
    if random.once_in(40) {
        aimed::center_half_turn(&mut draft, random);
    }
    if kind == 3 && draft.bytes[1] == 1 && random.once_in(3) {
        aimed::stand_at_earlier_angles(&mut draft, random);
    }
    if random.once_in(2) {
        draft.scramble_unread(random);
    }
    if random.once_in(10) {
        spoil(random, &mut draft);
    }
    let mut bytes = draft.bytes.to_vec();
    if random.once_in(80) {
        bytes.resize(random.pick(&WRONG), 0);
    }
    bytes
}

/// A call of sampling: mostly with room enough, else exactly or one place short.
pub fn call(seed: u64, index: u64, kinds: &[u8]) -> Call {
    let request = request(seed, index, kinds);
    let random = &mut Random::new(seed ^ 0x5A5A5A5A, index);
    let plenty = Call {
        request,
        work: 4096,
        output: 32768,
    };
    if plenty.request.len() != SIZE || random.below(4) > 0 {
        return plenty;
    }
    let Ok(sampled) = operations::sampled(Edition::NEWEST, &plenty.request) else {
        return Call {
            work: 0,
            output: 0,
            ..plenty
        };
    };
    let frame = Edition::NEWEST.frame();
    let (cuts, size) = (sampled.notes.cuts, 8 * sampled.angles.len() + frame);
    let [work, output] = match random.below(5) {
        0 => [cuts.saturating_sub(1), 32768],
        1 => [cuts, size - 1],
        2 => [random.below(cuts + 1), size],
        3 => [cuts + 1, random.below(size)],
        _ => [cuts, size],
    };
    Call {
        work,
        output,
        ..plenty
    }
}

/// A request in the making.
#[derive(Clone, Debug)]
pub struct Draft {
    pub bytes: [u8; SIZE],
}

impl Draft {
    /// Puts eight bytes at a position.
    pub fn put_bits(&mut self, position: usize, bits: u64) {
        self.bytes[position..position + 8].copy_from_slice(&bits.to_le_bytes());
    }

    /// Puts a float at a position.
    pub fn put(&mut self, position: usize, float: f64) {
        self.put_bits(position, float.to_bits());
    }

    /// Sign and offset of a joint.
    pub fn joint(&self, joint: usize) -> Joint {
        Joint {
            sign: f64::from(self.bytes[SIGNS + joint] as i8),
            offset: request::float_at(&self.bytes, OFFSETS + 8 * joint),
        }
    }

    /// Fills unread fields with any bits.
    pub fn scramble_unread(&mut self, random: &mut Random) {
        let read = request::read_bytes(&self.bytes);
        for (position, byte) in self.bytes.iter_mut().enumerate() {
            if !read[position] {
                *byte = random.bits() as u8;
            }
        }
    }
}

/// A request that sampling accepts, given room enough.
pub fn accepted(random: &mut Random, kind: u8) -> Draft {
    let mut draft = Draft { bytes: [0; SIZE] };
    draft.bytes[0] = kind;
    draft.bytes[1] = u8::from(random.below(4) > 0);
    draft.bytes[2] = u8::from(random.once_in(3));
    let plain = random.once_in(4);
    for joint in 0..6 {
        draft.bytes[SIGNS + joint] = if plain { 1 } else { random.pick(&[1, 255]) };
        let offset = if plain { 0.0 } else { offset(random) };
        draft.put(OFFSETS + 8 * joint, offset);
        draft.put(REFERENCES + 8 * joint, reference(random));
    }
    for (index, part) in rotation(random).into_iter().enumerate() {
        draft.put(ROTATION + 8 * index, part);
    }
    for index in 0..3 {
        draft.put(ARM + 8 * index, arm(random));
    }
    let ordinary = random.once_in(4);
    for joint in 0..6 {
        let own = draft.joint(joint);
        let [from, to] = if ordinary {
            limits::ordinary(random).map(f64::to_bits)
        } else if joint == 4 && random.once_in(3) {
            limits::near_pole(random, own).map(f64::to_bits)
        } else {
            limits::limits(random, own)
        };
        draft.put_bits(FROM + 8 * joint, from);
        draft.put_bits(TO + 8 * joint, to);
    }
    draft.bytes[CORE..].copy_from_slice(&names::right(random));
    draft
}

/// An offset within ±2P.
fn offset(random: &mut Random) -> f64 {
    match random.below(8) {
        0 | 1 => random.within(2.0 * P),
        2 => random.sign() * random.pick(&[2.0 * P, (2.0 * P).next_down()]),
        3 => random.sign() * random.pick(&[P / 2.0, P]),
        4 => random.sign() * random.pick(&[0.0, 5.0e-324, 1.0e-300, 2.0 * f64::EPSILON]),
        _ => 0.0,
    }
}

/// A finite reference.
fn reference(random: &mut Random) -> f64 {
    match random.below(12) {
        0 => random.sign() * random.pick(&[1.0e308, f64::MAX, 1.0e16, 1.0e9]),
        1 => random.pick(&[0.0, -0.0, 5.0e-324, -5.0e-324]),
        2 => {
            let eighth = random.below(17) as f64 * (P / 4.0);
            random.sign() * random.near(eighth)
        }
        3 => random.within(100.0),
        4 => random.sign() * random.decimal(1, 307),
        5 => 0.0,
        _ => random.within(P),
    }
}

/// An arm angle within ±8.
fn arm(random: &mut Random) -> f64 {
    match random.below(8) {
        0 => random.sign() * random.pick(&[8.0, 8.0f64.next_down()]),
        1 => random.pick(&[0.0, -0.0, 5.0e-324, -1.0e-300]),
        2 => {
            let eighth = random.below(11) as f64 * (P / 4.0);
            random.sign() * random.near(eighth)
        }
        3 => random.within(8.0),
        _ => random.within(P),
    }
}

/// A rotation of finite, nonzero length.
fn rotation(random: &mut Random) -> [f64; 4] {
    let any = [(); 4].map(|()| random.within(1.0));
    let [x, y, z, w] = any;
    match random.below(14) {
        // The target's axis points straight up, or down, or nearly so.
        0 | 1 => [0.0, -0.0, z, w],
        2 => [x, y, 0.0, -0.0],
        3 => {
            let lean = random.decimal(-18, -5);
            [x * lean, y * lean, z, w]
        }
        4 => {
            let part = |random: &mut Random| random.pick(&[0.0, -0.0, 0.5, -0.5, 1.0, -1.0]);
            [
                part(random),
                part(random),
                part(random),
                random.pick(&[1.0, -1.0, 0.5]),
            ]
        }
        5 => [0.0, 0.0, 0.0, 1.0],
        // Huge, or so small that squares are subnormal.
        6 => any.map(|part| part * 1.0e153),
        7 => {
            let scale = random.decimal(-162, -155);
            any.map(|part| {
                if part.abs() < 0.3 {
                    scale
                } else {
                    part * scale
                }
            })
        }
        8 => {
            let scale = power(2.0, random.below(400) as i32 - 200);
            any.map(|part| part * scale)
        }
        _ => any,
    }
}

/// Spoils a request in one place to three, so that the order of refusals
/// counts; where the field is unread, nothing is refused.
fn spoil(random: &mut Random, draft: &mut Draft) {
    for _ in 0..random.pick(&[1, 1, 2, 3]) {
        let joint = random.below(6);
        let not_finite = floats::not_finite(random);
        let sign = random.sign();
        match random.below(8) {
            0 => {
                let position = random.pick(&[0, 1, 2, 3, 10, 11, 12, 13, 14, 15]);
                draft.bytes[position] = random.pick(&[0, 1, 2, 4, 128, 255]);
            }
            1 => draft.bytes[SIGNS + joint] = random.pick(&[0, 2, 127, 128, 254]),
            2 => {
                let part = random.pick(&[not_finite, 1.0e155, f64::MAX]);
                draft.put(ROTATION + 8 * random.below(4), part);
            }
            3 => {
                for index in 0..4 {
                    let part = random.pick(&[0.0, -0.0, 1.0e-170, 1.5e-162]);
                    draft.put(ROTATION + 8 * index, part);
                }
            }
            4 => {
                let beyond = random.pick(&[not_finite, 8.0f64.next_up(), 9.0, 1.0e300]);
                draft.put(ARM + 8 * random.below(3), sign * beyond);
            }
            5 => draft.put(REFERENCES + 8 * joint, not_finite),
            6 => names::broken(random, &mut draft.bytes[CORE..]),
            _ => {
                let beyond = random.pick(&[not_finite, (2.0 * P).next_up(), 7.0, 1.0e300]);
                draft.put(OFFSETS + 8 * joint, sign * beyond);
            }
        }
    }
}
