//! Pairs of texts, to be compared without case (request 5/13).

use super::flips::{flipped, other_byte, other_case, CASE_BIT};
use super::Random;
use crate::text::{LONGEST_DOMAIN, LONGEST_LABEL};

/// Two texts.
pub type Texts = (Vec<u8>, Vec<u8>);

/// Keeps the streams of texts apart from those of cases and jobs.
const TEXTS: u64 = 0x5465_7874;

/// The pairs of this number under this seed; no other pair has a part in them.
pub fn pairs(seed: u64, number: u64) -> [Texts; 4] {
    let mut random = Random::new(seed ^ TEXTS, number);
    [(); 4].map(|()| pair(&mut random))
}

/// A text, and the same with letters in the other case, with bit 20 (hex) of a
/// byte turned, with another byte, or of another length.
fn pair(random: &mut Random) -> Texts {
    let one = text(random);
    let mut other = one.clone();
    match random.below(12) {
        0..=2 => other = other_case(random, other),
        3..=6 => other = flipped(random, other),
        7 => {
            other = other_case(random, other);
            other = other_byte(random, other);
        }
        8 => other.iter_mut().for_each(|byte| *byte ^= CASE_BIT),
        9 => other.push(*random.pick(b"\0 aA")),
        10 => drop(other.pop()),
        _ => other = text(random),
    }
    match random.below(2) {
        0 => (one, other),
        _ => (other, one),
    }
}

/// A text of up to 253 bytes: as domains have them, letters alone, bytes next to
/// letters and apart from others by one bit, or any.
fn text(random: &mut Random) -> Vec<u8> {
    const LENGTHS: [usize; 16] = [0, 1, 7, 8, 9, 15, 16, 17, 31, 32, 33, 62, 63, 64, 128, 253];
    const BYTES: [&[u8]; 4] = [
        b"aAzZmMkKsS0189-.",
        b"abcdefghijklmnopqrstuvwxyzABCDEFGHIJKLMNOPQRSTUVWXYZ",
        b"@AZ[`az{_\x7F1\x11-\x0D.\x0E\x00\x20\x80\xA0\xC1\xE1\xC3\xE3\xDA\xFA\xFF",
        b"",
    ];
    let length = match random.below(3) {
        0 => *random.pick(&LENGTHS),
        1 => random.below(LONGEST_LABEL + 1),
        _ => random.below(LONGEST_DOMAIN + 1),
    };
    let bytes = *random.pick(&BYTES);
    let one = |random: &mut Random| match bytes {
        [] => random.byte(),
        _ => *random.pick(bytes),
    };
    (0..length).map(|_| one(random)).collect()
}
