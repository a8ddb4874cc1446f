//! Drafts of cases: trees that can still be changed before they are written.

use super::crowd::{alike_set, wide_set};
use super::words::{near_miss, numbered, one_label, Pool};
use super::{Case, Chain, Random};
use crate::examples::domain_of;
use crate::records::kind::{CN, DNS, SRV, URI};
use crate::text::{has_two_labels, is_domain, is_scheme, is_service, LONGEST_DOMAIN};
use crate::tree::*;
use crate::{longest, MOST_ISSUERS};

/// Trees, each perhaps absent, and the records. There is one tree of constraints
/// for each issuer.
pub struct Draft {
    pub san: Option<Node>,
    pub subject: Option<Node>,
    pub constraints: Vec<Option<Node>>,
    pub references: Vec<Vec<u8>>,
}

impl Draft {
    pub fn write(&self) -> Case {
        let write = |tree: &Option<Node>| tree.as_ref().map(Node::write).unwrap_or_default();
        Case {
            san: write(&self.san),
            subject: write(&self.subject),
            constraints: Chain::new(self.constraints.iter().map(write)),
            references: self.references.concat(),
        }
    }

    /// A certificate of a few names and no SRVName constraints.
    pub fn plain(random: &mut Random, pool: &Pool) -> Self {
        let entries = (0..random.between(1, 6))
            .map(|_| entry(random, pool))
            .collect();
        Draft {
            san: Some(san(entries)),
            subject: small_subject(random, pool),
            constraints: match random.below(4) {
                0 => one_issuer(other_subtrees(random), Vec::new()),
                _ => Vec::new(),
            },
            references: references(random, pool, &[DNS, DNS, SRV, URI, URI, CN]),
        }
    }

    /// A certificate whose SAN is absent or seldom keeps a CN from counting.
    pub fn subject_only(random: &mut Random, pool: &Pool) -> Self {
        let absent = random.one_in(2);
        let mut entries: Vec<Node> = (0..random.between(1, 3))
            .map(|_| other_entry(random))
            .collect();
        match random.below(24) {
            0..=1 => entries.push(entry(random, pool)),
            2..=3 => entries.push(numbered_entry(random, pool)),
            _ => {}
        }
        let sets = (0..random.between(1, 4))
            .map(|_| set(random, pool))
            .collect();
        Draft {
            san: (!absent).then(|| san(entries)),
            subject: Some(subject(sets)),
            constraints: Vec::new(),
            references: references(random, pool, &[CN, CN, CN, CN, DNS, SRV]),
        }
    }

    /// A certificate with SRVNames under SRVName constraints.
    pub fn constrained(random: &mut Random, pool: &Pool) -> Self {
        let mut entries: Vec<Node> = (0..random.between(1, 3))
            .map(|_| srv_name(&srv_text(random, pool, 12)))
            .collect();
        for _ in 0..random.below(3) {
            entries.insert(random.below(entries.len() + 1), entry(random, pool));
        }
        let (permitted, excluded) = match random.below(6) {
            0..=2 => (subtrees(random, pool), Vec::new()),
            3..=4 => (Vec::new(), subtrees(random, pool)),
            _ => (subtrees(random, pool), subtrees(random, pool)),
        };
        Draft {
            san: Some(san(entries)),
            subject: small_subject(random, pool),
            constraints: one_issuer(permitted, excluded),
            references: references(random, pool, &[SRV, SRV, SRV, DNS, URI, CN]),
        }
    }

    /// A certificate of several names of all lengths in each string, for the
    /// positions of viewers: headers of two to four bytes, sets of several
    /// attributes, both sides.
    pub fn uneven(random: &mut Random, pool: &Pool) -> Self {
        let sets = several(random, 1, |random| {
            rdn(several(random, 1, |random| {
                let last = *random.pick(&[0x03, 0x0D]);
                attribute(&[0x55, 0x04, last], uneven(random, &[0x0C, 0x13, 0x1E]))
            }))
        });
        let side = |random: &mut Random, least| {
            several(random, least, |random| uneven_subtree(random, pool))
        };
        Draft {
            san: Some(san(several(random, 1, |random| uneven_name(random, pool)))),
            subject: Some(subject(sets)),
            constraints: one_issuer(side(random, 0), side(random, 1)),
            references: references(random, pool, &[DNS, SRV, CN]),
        }
    }

    /// A certificate with one input at its limit, or next to it.
    pub fn sized(random: &mut Random, pool: &Pool) -> Self {
        let mut draft = Draft::plain(random, pool);
        let more = random.below(4);
        match random.below(4) {
            0 => draft.san = Some(padded_san(longest::SAN - 2 + more, &pool.dns_id(random))),
            1 => {
                draft.subject = Some(padded_subject(
                    longest::SUBJECT - 2 + more,
                    &pool.dns_id(random),
                ))
            }
            2 => {
                let longest = padded_constraints(longest::CONSTRAINTS - 2 + more);
                draft.constraints = vec![None; random.below(MOST_ISSUERS)];
                let place = random.place(draft.constraints.len());
                draft.constraints.insert(place, Some(longest));
            }
            _ => {
                let mut bytes = reference(random, pool, DNS).repeat(17);
                bytes.truncate(*random.pick(&[5119, 5120, 5120, 5121, 5440]));
                draft.references = vec![bytes];
            }
        }
        draft
    }
}

/// The string of one issuer.
pub fn one_issuer(permitted: Vec<Node>, excluded: Vec<Node>) -> Vec<Option<Node>> {
    vec![Some(constraints(permitted, excluded))]
}

/// Up to four nodes.
fn several(random: &mut Random, least: usize, one: impl Fn(&mut Random) -> Node) -> Vec<Node> {
    let count = random.between(least, 4);
    (0..count).map(|_| one(random)).collect()
}

/// An element with up to 600 bytes in it, few as often as many.
fn uneven(random: &mut Random, tags: &[u8]) -> Node {
    bytes(*random.pick(tags), &vec![b'u'; random.spread(600)])
}

/// A name of any length that seldom matches.
fn uneven_name(random: &mut Random, pool: &Pool) -> Node {
    match random.below(4) {
        0 => srv_name(&pool.srv_id(random)),
        _ => uneven(random, &[0x81, 0x82, 0x86, 0x87, 0x88, 0xA4]),
    }
}

/// A subtree of any length that is read.
fn uneven_subtree(random: &mut Random, pool: &Pool) -> Node {
    subtree(match random.below(6) {
        0 => srv_name(&pool.srv_id(random)),
        1 => dns_name(&domain_of(random.spread(LONGEST_DOMAIN))),
        _ => uneven(random, &[0x81, 0x86, 0x87, 0x88, 0xA4]),
    })
}

/// A SAN of exactly this many bytes, with one dNSName at its end.
pub fn padded_san(size: usize, text: &[u8]) -> Node {
    let name = dns_name(text);
    let mut entries = padding(content_of(size) - name.write().len());
    entries.push(name);
    san(entries)
}

/// A subject of exactly this many bytes, with one CN and one long attribute.
pub fn padded_subject(size: usize, text: &[u8]) -> Node {
    let first = rdn(vec![common_name(0x0C, text)]);
    let set = content_of(size) - first.write().len();
    let value = content_of(content_of(content_of(set)) - 5);
    let long = rdn(vec![attribute(
        &[0x55, 0x04, 0x0D],
        bytes(0x0C, &vec![b'v'; value]),
    )]);
    subject(vec![first, long])
}

/// Constraints of exactly this many bytes.
pub fn padded_constraints(size: usize) -> Node {
    let room = content_of(content_of(size));
    let base = content_of(content_of(room));
    constraints(vec![subtree(ip_address(&vec![0x5A; base]))], Vec::new())
}

/// One to sixteen records, seldom none or more; each seldom a broken one, and
/// one of them in one case of 26 with a domain of one label, or with one that
/// ends in digits or nearly does.
pub fn references(random: &mut Random, pool: &Pool, kinds: &[u8]) -> Vec<Vec<u8>> {
    let count = match random.below(60) {
        0 => 0,
        1 => 17,
        2..=6 => 16,
        7..=14 => random.between(5, 15),
        15..=40 => random.between(2, 4),
        _ => 1,
    };
    let one = |random: &mut Random| {
        let kind = *random.pick(kinds);
        reference(random, pool, kind)
    };
    let mut records: Vec<Vec<u8>> = (0..count).map(|_| one(random)).collect();
    if count > 0 && random.one_in(26) {
        let kind = *random.pick(&[DNS, SRV, URI, CN]);
        let service = service(random, pool, kind);
        let domain = match random.below(2) {
            0 => one_label(pool, random),
            _ => {
                let asked = pool.asked(random);
                numbered(random, &asked)
            }
        };
        records[random.below(count)] = record(kind, &service, &domain);
    }
    records
}

fn reference(random: &mut Random, pool: &Pool, kind: u8) -> Vec<u8> {
    let service = service(random, pool, kind);
    let fits = |word: &[u8]| is_domain(word) && has_two_labels(word);
    let domain = mostly(fits, b"a.b", random, |random| pool.asked(random));
    if random.one_in(150) {
        return broken_record(random, kind, &service, &domain);
    }
    record(kind, &service, &domain)
}

/// The service or scheme of a record of this kind.
fn service(random: &mut Random, pool: &Pool, kind: u8) -> Vec<u8> {
    match kind {
        SRV => mostly(is_service, b"a", random, |random| pool.service(random)),
        URI => mostly(is_scheme, b"a", random, |random| pool.scheme(random)),
        _ => Vec::new(),
    }
}

/// A word that passes the test, save one in eight of those that do not; for
/// the rest another one.
fn mostly(
    test: fn(&[u8]) -> bool,
    other: &[u8],
    random: &mut Random,
    word: impl Fn(&mut Random) -> Vec<u8>,
) -> Vec<u8> {
    let word = word(random);
    if test(&word) || random.one_in(8) {
        return word;
    }
    other.to_vec()
}

/// A record that is, in nearly all cases, not readable.
fn broken_record(random: &mut Random, kind: u8, service: &[u8], domain: &[u8]) -> Vec<u8> {
    let mut bytes = record(kind, service, domain);
    match random.below(9) {
        0 => bytes[0] = *random.pick(&[0, 5, 255]),
        1 => bytes[1] = 1,
        2 => bytes[2] = bytes[2].wrapping_add(1),
        3 => bytes[3] = bytes[3].wrapping_add(1),
        4 => bytes[2] = bytes[2].wrapping_sub(1),
        5 => bytes[3] = bytes[3].wrapping_sub(1),
        6 => bytes[*random.pick(&[66, 319, 4 + service.len() % 63, 67 + domain.len() % 253])] ^= 1,
        7 => return record(kind, &near_miss(random, [service, b"-"].concat()), domain),
        _ => return record(kind, service, &near_miss(random, domain.to_vec())),
    }
    bytes
}

/// Any SAN entry.
fn entry(random: &mut Random, pool: &Pool) -> Node {
    match random.below(10) {
        0..=3 => dns_name(&dns_text(random, pool)),
        4..=5 => srv_name(&srv_text(random, pool, 4)),
        6..=7 => uri_name(&uri_text(random, pool)),
        _ => other_entry(random),
    }
}

/// A dNSName, an SRVName or a URI that ends in digits or nearly does, and so is
/// mostly no name of its form.
fn numbered_entry(random: &mut Random, pool: &Pool) -> Node {
    let domain = pool.dns_id(random);
    let domain = numbered(random, &domain);
    match random.below(4) {
        0 => srv_name(&[b"_m.", domain.as_slice()].concat()),
        1 => uri_name(&[b"h://", domain.as_slice()].concat()),
        _ => dns_name(&domain),
    }
}

pub fn dns_text(random: &mut Random, pool: &Pool) -> Vec<u8> {
    let text = pool.dns_id(random);
    match random.below(12) {
        0 => Vec::new(),
        1..=3 => near_miss(random, text),
        _ => text,
    }
}

/// An SRVName's text, `1` in `crooked` times a near miss or of wrong shape.
pub fn srv_text(random: &mut Random, pool: &Pool, crooked: usize) -> Vec<u8> {
    if !random.one_in(crooked) {
        return pool.srv_id(random);
    }
    let text = pool.crooked_srv(random);
    if random.one_in(2) {
        near_miss(random, text)
    } else {
        text
    }
}

fn uri_text(random: &mut Random, pool: &Pool) -> Vec<u8> {
    match random.below(7) {
        0..=1 => pool.crooked_uri(random),
        2 => {
            let text = pool.uri_id(random);
            near_miss(random, text)
        }
        _ => pool.uri_id(random),
    }
}

/// An entry that keeps no CN from counting: email, address or another form.
pub fn other_entry(random: &mut Random) -> Node {
    const FORMS: [u8; 8] = [0x81, 0x81, 0x87, 0x87, 0x88, 0xA3, 0xA4, 0xA5];
    const NEAR_OIDS: [&[u8]; 4] = [
        &[0x2B, 0x06, 0x01, 0x05, 0x05, 0x07, 0x08],
        &[0x2B, 0x06, 0x01, 0x05, 0x05, 0x07, 0x08, 0x09],
        &[0x2B, 0x06, 0x01, 0x05, 0x05, 0x07, 0x08, 0x07, 0x00],
        &[0x01],
    ];
    if random.one_in(5) {
        let inner = bytes(*random.pick(&[0x16, 0x0C, 0x30, 0x00, 0x02]), b"_m.b");
        let oid = *random.pick(&NEAR_OIDS);
        return other_name(oid, inner);
    }
    let length = match random.below(20) {
        0 => random.spread(300),
        _ => random.below(5),
    };
    let content = vec![*random.pick(b"a0\x7F"); length];
    bytes(*random.pick(&FORMS), &content)
}

/// A subject of few sets, perhaps of none.
pub fn small_subject(random: &mut Random, pool: &Pool) -> Option<Node> {
    let sets = (0..random.below(3)).map(|_| set(random, pool)).collect();
    Some(subject(sets))
}

/// One set: mostly of one attribute, mostly in order.
pub fn set(random: &mut Random, pool: &Pool) -> Node {
    match random.below(100) {
        0 => return wide_set(random, pool),
        1 => return alike_set(random),
        _ => {}
    }
    let count = *random.pick(&[1, 1, 1, 1, 2, 2, 3]);
    let attributes = (0..count).map(|_| any_attribute(random, pool)).collect();
    if random.one_in(20) {
        unsorted_rdn(attributes)
    } else {
        rdn(attributes)
    }
}

pub fn any_attribute(random: &mut Random, pool: &Pool) -> Node {
    const OTHER_OIDS: [&[u8]; 6] = [
        &[0x55, 0x04, 0x06],
        &[0x55, 0x04, 0x0A],
        &[0x55, 0x04, 0x02],
        &[0x55, 0x04],
        &[0x55, 0x04, 0x03, 0x00],
        &[0x2A, 0x86, 0x48, 0x86, 0xF7, 0x0D, 0x01, 0x09, 0x01],
    ];
    const TAGS: [u8; 12] = [
        0x0C, 0x0C, 0x0C, 0x0C, 0x13, 0x13, 0x16, 0x16, 0x14, 0x1E, 0x04, 0x30,
    ];
    let text = cn_text(random, pool);
    let tag = *random.pick(&TAGS);
    if random.one_in(3) {
        let oid = *random.pick(&OTHER_OIDS);
        attribute(oid, bytes(tag, &text))
    } else {
        common_name(tag, &text)
    }
}

/// A CN's value: a DNS-ID, a near miss, or one with a byte that no name has.
fn cn_text(random: &mut Random, pool: &Pool) -> Vec<u8> {
    let mut text = pool.dns_id(random);
    match random.below(18) {
        0 => text.extend(b"\0.example"),
        1 => text.push(*random.pick(b"\0 ")),
        2 => {
            let at = random.below(text.len());
            text[at] |= 0x80;
        }
        3 => text.extend("\u{E9}".bytes()),
        4 => text = near_miss(random, text),
        _ => {}
    }
    text
}

/// One to three subtrees of one side, SRVNames mostly.
pub fn subtrees(random: &mut Random, pool: &Pool) -> Vec<Node> {
    let mut subtrees = Vec::new();
    for _ in 0..random.between(1, 3) {
        if random.one_in(6) {
            subtrees.extend(other_subtrees(random));
        } else {
            subtrees.push(srv_subtree(random, pool));
        }
    }
    subtrees
}

/// An SRVName subtree in one of the three texts; seldom a broken text, or a
/// minimum or maximum.
pub fn srv_subtree(random: &mut Random, pool: &Pool) -> Node {
    let mut text = match random.below(3) {
        0 => [b"_", pool.service(random).as_slice()].concat(),
        1 => [
            b"_",
            pool.service(random).as_slice(),
            b".",
            &pool.around(random),
        ]
        .concat(),
        _ => pool.around(random),
    };
    match random.below(80) {
        0..=1 => text = near_miss(random, text),
        2 => text = numbered(random, &text),
        _ => {}
    }
    let mut node = subtree(srv_name(&text));
    if random.one_in(80) {
        node = parts(
            0x30,
            vec![srv_name(&text), bytes(*random.pick(&[0x80, 0x81]), &[0])],
        );
    }
    node
}

/// Subtrees of other forms, which are "read and passed over".
pub fn other_subtrees(random: &mut Random) -> Vec<Node> {
    let one = |random: &mut Random| match random.below(4) {
        0 => {
            let name = *random.pick(&[b"example".as_slice(), b"10.4.0.7"]);
            uri_name(name)
        }
        1 => uri_name(b".example"),
        2 => email(b""),
        _ => other_entry(random),
    };
    (0..random.between(1, 2))
        .map(|_| subtree(one(random)))
        .collect()
}
