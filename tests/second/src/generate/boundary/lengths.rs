//! Elements of every kind on both sides of 127 and of 255 bytes, and a byte
//! that no text may have at every depth of a long one.

use super::{nth, size, trees, with, Body, Case, Length, Node, Taker};
use crate::tree::*;

/// Hands over the lines about long elements.
pub fn each(take: Taker) {
    grown_elements(take);
    bytes_past_ascii(take);
}

/// Each element of each tree with a content of 126 to 129 and of 254 to 257
/// bytes, which come from each text in it; each length written in every form.
fn grown_elements(take: Taker) {
    for (input, tree) in trees().iter().enumerate() {
        for place in 0..size(tree) {
            let below = place..place + size(nth(&mut tree.clone(), place));
            for leaf in below {
                for more in 1..=257 {
                    grown(take, input, tree, (place, leaf, more));
                }
            }
        }
    }
}

/// The tree with a text that has grown, where that gives the element at
/// `place` one of the lengths.
fn grown(take: Taker, input: usize, tree: &Node, (place, leaf, more): (usize, usize, usize)) {
    let mut tree = tree.clone();
    let Body::Bytes(text) = &mut nth(&mut tree, leaf).body else {
        return;
    };
    grow(text, more);
    let content = content_of(nth(&mut tree, place).write().len());
    if !matches!(content, 126..=129 | 254..=257) {
        return;
    }
    for form in [0, 1, 2, 3] {
        let mut tree = tree.clone();
        nth(&mut tree, place).length = match form {
            0 => Length::Shortest,
            bytes => Length::Long(bytes),
        };
        sort_sets(input, &mut tree);
        let what = format!("element {place} of {content} bytes, length form {form}");
        take((what, with(input, tree.write())));
    }
}

/// Appends letters and dots, so that a domain stays one.
fn grow(text: &mut Vec<u8>, more: usize) {
    if more % 2 == 1 {
        text.push(b'a');
    }
    text.extend(b".a".repeat(more / 2));
}

/// Brings the sets of a subject in order again.
fn sort_sets(input: usize, tree: &mut Node) {
    if input == 1 {
        for set in tree.children_mut() {
            if let Body::Parts(attributes) = &mut set.body {
                attributes.sort_by_cached_key(Node::write);
            }
        }
    }
}

/// Texts of 300 bytes with one byte that is not below 128, in the SAN and in
/// the constraints.
fn bytes_past_ascii(take: Taker) {
    const PLACES: [usize; 14] = [0, 1, 7, 8, 15, 16, 31, 32, 63, 64, 127, 128, 255, 299];
    for place in PLACES {
        for value in [0x7F, 0x80, 0xFF] {
            let mut text = vec![b'e'; 300];
            text[place] = value;
            for name in [
                email(&text),
                dns_name(&text),
                uri_name(&text),
                srv_name(&text),
            ] {
                let what = format!("byte {value:02X} at {place}");
                take((what.clone(), in_san(name.clone())));
                let side = constraints(vec![subtree(name)], Vec::new());
                take((what, with(2, side.write())));
            }
        }
    }
}

pub fn in_san(name: Node) -> Case {
    with(0, san(vec![name, dns_name(b"a.b")]).write())
}
