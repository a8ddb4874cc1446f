//! Changes to drafts, which keep the lengths of all parents right, and changes
//! to written bytes, which do not.

use super::draft::Draft;
use super::flips::{flipped, other_case, CASE_BIT};
use super::{Case, Chain, Random};
use crate::records::{DOMAIN, SERVICE};
use crate::tree::{bytes, Body, Length, Node};

const TAGS: [u8; 33] = [
    0x00, 0x02, 0x04, 0x05, 0x06, 0x0C, 0x13, 0x14, 0x16, 0x1E, 0x1F, 0x30, 0x31, 0x3F, 0x80, 0x81,
    0x82, 0x83, 0x84, 0x85, 0x86, 0x87, 0x88, 0x89, 0x9F, 0xA0, 0xA1, 0xA2, 0xA3, 0xA4, 0xA5, 0xA6,
    0xFF,
];

/// The tree of one issuer's constraints, if there is an issuer.
fn issuer<'d>(random: &mut Random, draft: &'d mut Draft) -> Option<&'d mut Option<Node>> {
    let place = random.below(draft.constraints.len().max(1));
    draft.constraints.get_mut(place)
}

/// Changes one element of one of the trees, or leaves a tree out.
pub fn draft(random: &mut Random, draft: &mut Draft) {
    let tree = match random.below(3) {
        0 => Some(&mut draft.san),
        1 => Some(&mut draft.subject),
        _ => issuer(random, draft),
    };
    let Some(tree) = tree else { return };
    if random.one_in(12) {
        *tree = None;
    }
    if let Some(root) = tree {
        let chosen = random.below(size(root));
        change(random, nth(root, chosen));
    }
}

/// Turns bit 20 (hex) of some bytes in one text: of a tree, or of a record.
pub fn texts(random: &mut Random, draft: &mut Draft) {
    let tree = match random.below(5) {
        0..=1 => Some(&mut draft.san),
        2 => Some(&mut draft.subject),
        3 => issuer(random, draft),
        _ => {
            let place = random.below(draft.references.len().max(1));
            if let Some(record) = draft.references.get_mut(place) {
                flip_record(random, record);
            }
            return;
        }
    };
    if let Some(Some(root)) = tree {
        let chosen = random.below(size(root));
        flip_last(random, nth(root, chosen));
    }
}

/// Turns the bit in the last text of an element: its own, or that of its last
/// child. An OID stands before another element.
fn flip_last(random: &mut Random, node: &mut Node) {
    match &mut node.body {
        Body::Bytes(text) => *text = flipped(random, text.clone()),
        Body::Parts(children) => {
            if let Some(last) = children.last_mut() {
                flip_last(random, last);
            }
        }
    }
}

/// Turns the bit in the service or the domain of a record: mostly in letters.
fn flip_record(random: &mut Random, record: &mut [u8]) {
    let &[_, _, service, domain, ..] = &*record else {
        return;
    };
    let (start, length) = *random.pick(&[(SERVICE, service), (DOMAIN, domain)]);
    let Some(field) = record.get_mut(start..start + usize::from(length)) else {
        return;
    };
    let text = match random.below(4) {
        0 => flipped(random, field.to_vec()),
        _ => other_case(random, field.to_vec()),
    };
    field.copy_from_slice(&text);
}

/// The number of elements of a tree.
pub fn size(node: &Node) -> usize {
    1 + node.children().iter().map(size).sum::<usize>()
}

/// The element at this place, each parent before its children.
pub fn nth(node: &mut Node, mut place: usize) -> &mut Node {
    if place == 0 {
        return node;
    }
    place -= 1;
    let mut child = 0;
    while place >= size(&node.children()[child]) {
        place -= size(&node.children()[child]);
        child += 1;
    }
    nth(&mut node.children_mut()[child], place)
}

/// Changes one element: its tag, its length, its trailer or its body.
fn change(random: &mut Random, node: &mut Node) {
    match random.below(8) {
        0 => node.tag = *random.pick(&TAGS),
        1 => node.tag ^= 1 << random.below(8),
        2 => node.length = Length::Long(random.between(1, 4) as u8),
        3 => node.length = *random.pick(&[Length::Off(1), Length::Off(-1), Length::Indefinite]),
        4 => node.trailer = vec![*random.pick(&[0x00, 0x05, 0x30, 0x80]); random.between(1, 2)],
        _ => change_body(random, &mut node.body),
    }
}

fn change_body(random: &mut Random, body: &mut Body) {
    match body {
        Body::Bytes(content) => edit(random, content),
        Body::Parts(children) if children.is_empty() => children.push(bytes(0x05, &[])),
        Body::Parts(children) => {
            let (one, other) = (random.below(children.len()), random.below(children.len()));
            match random.below(5) {
                0 => drop(children.remove(one)),
                1 => children.insert(one, children[other].clone()),
                2 => children.swap(one, other),
                3 => children.insert(one, bytes(*random.pick(&TAGS), &[])),
                _ => children.clear(),
            }
        }
    }
}

/// Changes the bytes of one input.
pub fn case(random: &mut Random, case: &mut Case) {
    let input = match random.below(4) {
        0 => &mut case.san,
        1 => &mut case.subject,
        2 => return one_string(random, &mut case.constraints),
        _ => &mut case.references,
    };
    for _ in 0..random.between(1, 2) {
        edit(random, input);
    }
}

/// Changes the bytes of one issuer's string, and its length with them.
fn one_string(random: &mut Random, chain: &mut Chain) {
    let mut strings: Vec<Vec<u8>> = chain
        .strings()
        .iter()
        .map(|string| string.to_vec())
        .collect();
    if strings.is_empty() {
        strings.push(Vec::new());
    }
    let place = random.below(strings.len());
    for _ in 0..random.between(1, 2) {
        edit(random, &mut strings[place]);
    }
    *chain = Chain::new(strings);
}

/// One change of a byte string: a bit, a byte, a cut, a copy or a long length.
fn edit(random: &mut Random, input: &mut Vec<u8>) {
    if input.is_empty() {
        return input.push(random.byte());
    }
    let at = random.below(input.len());
    match random.below(12) {
        0 => input[at] ^= 1 << random.below(8),
        1 => input[at] = random.byte(),
        2 => input[at] = *random.pick(&[0x00, 0x2E, 0x7F, 0x80, 0xFF]),
        3 => input[at] = input[at].wrapping_add(1),
        4 => input.truncate(at),
        5 => input.push(random.byte()),
        6 => input.insert(at, random.byte()),
        7 => drop(input.remove(at)),
        8 => input.insert(at, *random.pick(&[0x81, 0x82])),
        9..=10 => input[at] ^= CASE_BIT,
        _ => {
            let end = random.between(at, input.len().min(at + 40));
            let copy = input[at..end].to_vec();
            drop(input.splice(at..at, copy));
        }
    }
}
