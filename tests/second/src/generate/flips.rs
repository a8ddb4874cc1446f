//! Bit 20 (hex): the two cases of a letter differ in it, and so do many pairs of
//! bytes that are no letters (request 5/13).

use super::Random;
use std::ops::Range;

/// The bit that tells `A` from `a`, and `1` from byte 11 (hex).
pub const CASE_BIT: u8 = 0x20;

/// The same text: in half of all cases as it is, in the others with one letter,
/// some or all in the other case.
pub fn other_case(random: &mut Random, mut text: Vec<u8>) -> Vec<u8> {
    match random.below(10) {
        0..=4 => {}
        5 => flip_letters(random, &mut text, 1),
        6 if !text.is_empty() => {
            let place = place(random, &text);
            flip_letters(random, &mut text[place..=place], 1);
        }
        _ => flip_letters(random, &mut text, 3),
    }
    text
}

/// The text with the bit turned in one byte: half of the time in one that is no
/// letter, where there is one.
pub fn flipped_once(random: &mut Random, mut text: Vec<u8>) -> Vec<u8> {
    if text.is_empty() {
        return text;
    }
    let mut place = place(random, &text);
    if random.one_in(2) {
        place = no_letter(&text, place).unwrap_or(place);
    }
    text[place] ^= CASE_BIT;
    text
}

/// The text with the bit turned in one byte or in two, and in half of all cases
/// with some letters in the other case.
pub fn flipped(random: &mut Random, mut text: Vec<u8>) -> Vec<u8> {
    if random.one_in(2) {
        let every = *random.pick(&[1, 2, 5]);
        flip_letters(random, &mut text, every);
    }
    for _ in 0..*random.pick(&[1, 1, 1, 2]) {
        text = flipped_once(random, text);
    }
    text
}

/// The first place from this one on whose byte is no letter, or else the first
/// of all.
fn no_letter(text: &[u8], place: usize) -> Option<usize> {
    let mut places = (place..text.len()).chain(0..place);
    places.find(|&place| !text[place].is_ascii_alphabetic())
}

/// Turns the bit in one of `every` letters.
fn flip_letters(random: &mut Random, text: &mut [u8], every: usize) {
    for byte in text {
        if byte.is_ascii_alphabetic() && random.one_in(every) {
            *byte ^= CASE_BIT;
        }
    }
}

/// A place in a text that has one: in the whole text or in one of its labels, and
/// there the first, the last, one next to a multiple of eight, or any.
pub fn place(random: &mut Random, text: &[u8]) -> usize {
    let any = random.below(text.len());
    let part = match random.below(2) {
        0 => 0..text.len(),
        _ => label(text, any),
    };
    let last = part.len() - 1;
    let chosen = *random.pick(&[0, 0, 7, 8, 15, 16, 62, last, last, last]);
    match random.below(2) {
        0 if chosen <= last => part.start + chosen,
        _ => any,
    }
}

/// The label around a place of a text; a dot belongs to the label before it.
fn label(text: &[u8], place: usize) -> Range<usize> {
    let is_dot = |&byte: &u8| byte == b'.';
    let start = text[..place].iter().rposition(is_dot);
    let end = text[place..].iter().position(is_dot);
    let end = end.map_or(text.len(), |more| place + more);
    start.map_or(0, |dot| dot + 1)..end.max(place + 1)
}

/// The text with another byte somewhere: the next one up or down, one that
/// differs in one bit, or a letter or digit. A byte below 128 stays so.
pub fn other_byte(random: &mut Random, mut text: Vec<u8>) -> Vec<u8> {
    if text.is_empty() {
        return text;
    }
    let place = place(random, &text);
    let byte = text[place];
    let other = match random.below(4) {
        0 => byte.wrapping_add(1),
        1 => byte.wrapping_sub(1),
        2 => byte ^ 1 << random.below(7),
        _ => *random.pick(b"azAZ09kK"),
    };
    text[place] = byte & 0x80 | other & 0x7F;
    text
}
