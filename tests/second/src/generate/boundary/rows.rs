//! Request 3/13: strings whose rows lie where a viewer's position decides.

use super::{trees, with, Taker};
use crate::tree::*;
use crate::Which;

/// Hands over the lines about the places of rows.
pub fn each(take: Taker) {
    headers(take);
    sets(take);
    sides(take);
    starts(take);
    crowds(take);
    strange(take);
}

/// A SAN, a subject or constraints with one name for each of these lengths of a
/// text. The constraints permit the first and exclude the rest.
fn string(input: usize, lengths: &[usize]) -> Vec<u8> {
    let texts = lengths.iter().map(|&length| vec![b'n'; length]);
    let tree = match input {
        0 => san(texts.map(|text| dns_name(&text)).collect()),
        1 => {
            let attribute = |text: Vec<u8>| attribute(&[0x55, 0x04, 0x0D], bytes(0x0C, &text));
            subject(texts.map(|text| rdn(vec![attribute(text)])).collect())
        }
        _ => {
            let mut subtrees = texts.map(|text| subtree(email(&text)));
            let permitted = subtrees.next().into_iter().collect();
            constraints(permitted, subtrees.collect())
        }
    };
    tree.write()
}

/// Three rows whose headers, and those of the sets and subtrees around them,
/// have two, three and four bytes.
fn headers(take: Taker) {
    const LENGTHS: [usize; 8] = [0, 1, 116, 127, 128, 244, 255, 256];
    for input in 0..3 {
        for first in LENGTHS {
            for second in LENGTHS {
                let case = with(input, string(input, &[first, second, 1]));
                take((format!("rows of {first} and {second} bytes"), case));
            }
        }
    }
}

/// Up to five attributes, cut into sets in every way.
fn sets(take: Taker) {
    let attributes = [
        attribute(&[0x55, 0x04, 0x02], bytes(0x0C, b"a")),
        common_name(0x0C, b"a.b"),
        common_name(0x1E, b"a.b"),
        attribute(&[0x55, 0x04, 0x0A], bytes(0x13, b"")),
        common_name(0x16, b"a.b.c"),
    ];
    for count in 1..=attributes.len() {
        // Bit n is a cut behind attribute n.
        for cuts in 0..1 << (count - 1) {
            let mut sets = vec![Vec::new()];
            for (place, attribute) in attributes[..count].iter().enumerate() {
                let last = sets.len() - 1;
                sets[last].push(attribute.clone());
                if cuts >> place & 1 == 1 {
                    sets.push(Vec::new());
                }
            }
            let sets = sets.into_iter().map(rdn).collect();
            let what = format!("{count} attributes, cuts {cuts:b}");
            take((what, with(1, subject(sets).write())));
        }
    }
}

/// Up to four subtrees on each side.
fn sides(take: Taker) {
    let bases = [
        srv_name(b"_m"),
        dns_name(b""),
        email(b"a@b"),
        srv_name(b"b"),
    ];
    let side = |count: usize| bases[..count].iter().cloned().map(subtree).collect();
    for permitted in 0..=bases.len() {
        for excluded in 0..=bases.len() {
            let both = constraints(side(permitted), side(excluded));
            let what = format!("{permitted} permitted and {excluded} excluded");
            take((what, with(2, both.write())));
        }
    }
}

/// A row that starts next to a power of two, behind one row and before another.
/// What stands before it has, without the first row's text, 4 to 23 bytes.
fn starts(take: Taker) {
    for (input, longest) in Which::ALL.map(Which::longest).into_iter().enumerate() {
        let powers = (3..).map(|bits| 1 << bits);
        for power in powers.take_while(|&power: &usize| power <= longest) {
            for before in power.saturating_sub(24)..=power - 3 {
                let case = with(input, string(input, &[before, 0, 1]));
                take((format!("row behind a text of {before}"), case));
            }
        }
    }
}

/// Strings of many rows, next to the limit and past it, with a longer name in
/// the first row, and in the last. The longest still have lengths of two bytes,
/// and 16 bits are too few for how long they are.
fn crowds(take: Taker) {
    for (input, longest) in Which::ALL.map(Which::longest).into_iter().enumerate() {
        let next = [longest - 1, longest, longest + 1, longest + 2];
        let past = [longest + 256, 2 * longest, 65_535, 65_536, 65_539];
        for size in next.into_iter().chain(past) {
            let bare = |count: usize| string(input, &vec![0; count]);
            let each = bare(201).len() - bare(200).len();
            let count = (size - 100) / each;
            for longer in [0, count - 1] {
                let mut lengths = vec![0; count];
                lengths[longer] = size - bare(count).len();
                let bytes = string(input, &lengths);
                take((format!("{count} rows, {size} bytes"), with(input, bytes)));
            }
        }
    }
}

/// Each string in the place of each other one, strings without a row, and
/// strings with bytes behind them.
fn strange(take: Taker) {
    let strings = trees().map(|tree| tree.write());
    for (input, string) in strings.iter().enumerate() {
        for other in &strings {
            take(("another string".to_string(), with(input, other.clone())));
        }
        for short in [b"".as_slice(), b"\x30\x00"] {
            take((
                "string without a row".to_string(),
                with(input, short.into()),
            ));
        }
        for behind in [b"\x00".as_slice(), b"\x30", b"\x30\x00", string] {
            let bytes = [string, behind].concat();
            take(("bytes behind a string".to_string(), with(input, bytes)));
        }
    }
}
