//! Texts eight or sixteen bytes at a time.

/// Bit 20 (hex), which tells a small letter from a capital, in each byte of a
/// word.
pub const CASE: u64 = 0x2020_2020_2020_2020;
/// The bit that a byte below 128 has not, in each byte of a word.
const HIGH: u64 = 0x8080_8080_8080_8080;
const ONES: u64 = 0x0101_0101_0101_0101;

/// Eight bytes as one number.
#[inline(always)]
pub fn word(bytes: &[u8], at: usize) -> u64 {
    u64::from_le_bytes(*bytes[at..].first_chunk().expect("eight bytes"))
}

/// Four bytes as one number.
#[inline(always)]
fn half(bytes: &[u8], at: usize) -> u64 {
    u32::from_le_bytes(*bytes[at..].first_chunk().expect("four bytes")).into()
}

/// A text of fewer than eight bytes as one number; some bytes may stand in it
/// twice. It is the same for two texts of one length only if their bytes are.
#[inline(always)]
fn few(text: &[u8]) -> u64 {
    match text.len() {
        length @ 4.. => half(text, 0) | half(text, length - 4) << 32,
        _ => text.iter().fold(0, |all, &byte| all << 8 | u64::from(byte)),
    }
}

/// Whether all bytes of a word are below 128.
#[inline(always)]
pub fn is_low(word: u64) -> bool {
    word & HIGH == 0
}

/// "every byte below 128"
#[inline(always)]
pub fn is_ascii(text: &[u8]) -> bool {
    let length = text.len();
    if length < 8 {
        return is_low(few(text));
    }
    let mut all = word(text, length - 8);
    let mut at = 0;
    while at + 8 < length {
        all |= word(text, at);
        at += 8;
    }
    is_low(all)
}

/// 32 bytes, or-ed to eight.
#[inline(always)]
pub fn any_of_32(bytes: &[u8], at: usize) -> u64 {
    let bytes = &bytes[at..at + 32];
    word(bytes, 0) | word(bytes, 8) | word(bytes, 16) | word(bytes, 24)
}

/// Whether all bytes are zeros.
#[inline(always)]
pub fn is_zero(bytes: &[u8]) -> bool {
    let length = bytes.len();
    if length < 32 {
        return bytes.iter().fold(0, |all, byte| all | byte) == 0;
    }
    let mut all = any_of_32(bytes, length - 32);
    let mut at = 0;
    while at + 32 < length {
        all |= any_of_32(bytes, at);
        at += 32;
    }
    all == 0
}

/// A word with its capitals as small letters. In the sums, the high bit of a byte
/// says that it is not before `A`, and that it is behind `Z`; no sum of two bytes
/// reaches the next one.
#[inline(always)]
fn folded(word: u64) -> u64 {
    let low = word & !HIGH;
    let from_a = low + ONES * (128 - b'A' as u64);
    let behind_z = low + ONES * (127 - b'Z' as u64);
    word | ((from_a ^ behind_z) & HIGH & !word) >> 2
}

/// Whether two words are the same without case. They are folded only where they
/// differ.
#[inline(always)]
fn same_word(one: u64, other: u64) -> bool {
    one == other || folded(one) == folded(other)
}

/// Whether two texts are the same without case, up to the first word that
/// differs. The last word may have bytes of the one before it.
#[inline(always)]
pub fn same(one: &[u8], other: &[u8]) -> bool {
    let length = one.len();
    if length != other.len() {
        return false;
    }
    if length < 8 {
        return same_word(few(one), few(other));
    }
    let mut at = 0;
    while at + 8 < length {
        if !same_word(word(one, at), word(other, at)) {
            return false;
        }
        at += 8;
    }
    same_word(word(one, length - 8), word(other, length - 8))
}

/// A number that is the same for texts of one length that are the same without
/// case, from two words at either end of them. Words are turned by whole bytes, so
/// that bit 20 stays where it is and one mask takes it out of all.
#[inline(always)]
pub fn mixed(words: [u64; 4]) -> u64 {
    let [first, second, third, last] = words;
    let all = first ^ second.rotate_left(8) ^ third.rotate_left(16) ^ last.rotate_left(24);
    (all & !CASE).wrapping_mul(0xD6E8_FEB8_6659_FD93)
}

/// The same, for a text of any length.
#[inline(always)]
pub fn key(text: &[u8]) -> u64 {
    match text.len() {
        length @ 16.. => mixed([0, 8, length - 16, length - 8].map(|at| word(text, at))),
        length @ 8.. => mixed([word(text, 0), word(text, length - 8), 0, 0]),
        _ => mixed([few(text), 0, 0, 0]),
    }
}
