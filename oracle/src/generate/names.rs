//! Names of weights, right and broken.

use super::Random;
use crate::edition::NAME;

/// Names as cutters write them.
const USUAL: [&str; 4] = [
    "Gully Antiqua Book",
    "Gully Text Light Italic",
    "Gully Grotesk Semibold Condensed",
    "G",
];

/// A text of at most 32 characters as a name.
pub fn name(text: &str) -> [u8; NAME] {
    let mut name = [0; NAME];
    name[..text.len()].copy_from_slice(text.as_bytes());
    name
}

/// A right name: a usual one, or characters of any sort, among them none, 32 and
/// trailing blanks.
pub fn right(random: &mut Random) -> [u8; NAME] {
    let sort = random.below(8);
    if sort < 2 {
        return name(random.pick(&USUAL));
    }
    let length = match sort {
        2 => 0,
        3 => NAME,
        4 => random.pick(&[1, NAME - 1]),
        _ => random.below(NAME + 1),
    };
    let blanks = match sort {
        5 => random.below(length + 1),
        _ => 0,
    };
    let mut name = [0; NAME];
    for character in &mut name[..length - blanks] {
        *character = character_of(random);
    }
    name[length - blanks..length].fill(b' ');
    name
}

/// A character, often the first or the last that a name may have.
fn character_of(random: &mut Random) -> u8 {
    match random.below(8) {
        0 => 32,
        1 => 126,
        _ => 32 + random.below(95) as u8,
    }
}

/// Breaks a name in one place, often the first or the last.
pub fn broken(random: &mut Random, name: &mut [u8]) {
    let last = name.len() - 1;
    let at = match random.below(4) {
        0 => 0,
        1 => last,
        _ => random.below(name.len()),
    };
    if random.once_in(2) {
        let high = 128 + random.below(128) as u8;
        name[at] = random.pick(&[1, 10, 31, 127, 128, 255, high]);
        return;
    }
    // A zero with a character somewhere behind it.
    let zero = at.min(last - 1);
    let any = zero + 1 + random.below(last - zero);
    let behind = random.pick(&[zero + 1, last, any]);
    name[zero] = 0;
    name[behind] = character_of(random);
}

/// A name with one character more, less or changed, if that leaves it right.
pub fn neighbour(random: &mut Random, name: &mut [u8]) {
    let length = name.iter().position(|&byte| byte == 0);
    let length = length.unwrap_or(name.len());
    match random.below(3) {
        0 if length < name.len() => name[length] = character_of(random),
        1 if length > 0 => name[length - 1] = 0,
        _ if length > 0 => name[random.below(length)] = character_of(random),
        _ => {}
    }
}
