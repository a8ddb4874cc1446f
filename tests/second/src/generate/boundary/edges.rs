//! Request 7/13: texts and fillers may be looked at eight or sixteen bytes at a
//! time, and such words have edges. One byte changed at each place of texts of
//! each length, of a record's fillers, and of domains.

use super::lengths::in_san;
use super::letters::changed_names;
use super::{base, excluded, labels_of, permitted, same, second_record, with};
use super::{Case, Line, Node, Taker};
use crate::records::kind::{CN, DNS, SRV, URI};
use crate::records::{DOMAIN, RECORD, SERVICE};
use crate::text::LONGEST_SERVICE;
use crate::tree::*;

/// The longest texts of these lines, and the longest domains.
const LONGEST_TEXT: usize = 40;
const LONGEST_BASE: usize = 70;

/// Letters and digits, next to each other never the same.
const LETTERS: &[u8; LONGEST_TEXT] = b"kAz9mQ7xLb3dGp0RtYw5cHjE2NsVf8uKa1eZi6oT";

/// Hands over the lines about single bytes of texts and fillers.
pub fn each(take: Taker) {
    for length in 1..=LONGEST_TEXT {
        let (word, domain) = (&LETTERS[..length], domain_of(length));
        for kind in [DNS, SRV, URI, CN] {
            changed_names(take, kind, b"m", &domain);
            changed_records(take, kind, &domain);
        }
        for kind in [SRV, URI] {
            changed_names(take, kind, word, b"a.b");
        }
        past_ascii(take, word);
        blocking(take, word);
    }
    fillers(take);
    domains(take);
}

/// A text of letters and digits; from three bytes on, a domain of two labels.
pub fn domain_of(length: usize) -> Vec<u8> {
    let mut text = LETTERS[..length].to_vec();
    if length >= 3 {
        text[length - 2..].copy_from_slice(b".b");
    }
    text
}

/// A record whose domain has another byte at one place than the name.
fn changed_records(take: Taker, kind: u8, domain: &[u8]) {
    for place in 0..domain.len() {
        let (what, mut case) = same(kind, b"m", domain);
        case.references[DOMAIN + place] = b'q';
        take((format!("{what}, the record's byte {place}"), case));
    }
}

/// A byte of 128 or more at each place of an email, dNSName, URI or SRVName, before
/// another entry and as the last, and in a restriction; and of a CN, where it is no
/// refusal.
fn past_ascii(take: Taker, word: &[u8]) {
    for place in 0..word.len() {
        let mut text = word.to_vec();
        text[place] |= 0x80;
        let what = format!("byte {place} of {} past ASCII", word.len());
        let names = [email, dns_name, uri_name, srv_name].map(|form| form(&text));
        for name in names {
            let last = san(vec![dns_name(b"a.b"), name.clone()]).write();
            take((
                what.clone(),
                Case {
                    san: last,
                    ..base()
                },
            ));
            take((what.clone(), with(2, permitted(name.clone()))));
            take((what.clone(), in_san(name)));
        }
        let (_, mut case) = same(CN, b"", &[word, b".b"].concat());
        let text = [&text, b".b".as_slice()].concat();
        case.subject = subject(vec![rdn(vec![common_name(0x13, &text)])]).write();
        take((format!("{what} in a CN"), case));
    }
}

/// A text of each length in a name that keeps a CN from counting, or does not.
fn blocking(take: Taker, word: &[u8]) {
    for name in [email, dns_name, uri_name, srv_name].map(|form| form(word)) {
        let case = Case {
            san: san(vec![name, ip_address(&[0; 16])]).write(),
            references: record(CN, b"", b"a.b"),
            ..base()
        };
        take((format!("CN beside a name of {} bytes", word.len()), case));
    }
}

/// A byte that is not zero at each place of a record's fillers, behind texts of
/// each length.
fn fillers(take: Taker) {
    for length in (3..=LONGEST_TEXT).chain([61, 62, 127, 252, 253]) {
        let service = vec![b's'; length.min(LONGEST_SERVICE)];
        for kind in [DNS, SRV, URI, CN] {
            let (_, case) = same(kind, &service, &labels_of(length));
            let service = SERVICE + usize::from(case.references[2]);
            for place in (service..DOMAIN).chain(DOMAIN + length..RECORD) {
                take(second_record(&case.references, place));
            }
        }
    }
}

/// "A label has letters, digits and hyphens, no hyphen at either end", "joined by
/// single dots", "the last label of a domain may not be all digits" (request 2/13):
/// a hyphen, a dot and another byte at each place of domains of each length, and
/// digits from each place on.
fn domains(take: Taker) {
    for length in 1..=LONGEST_BASE {
        let [short, long] = bases(length);
        for place in 0..length {
            bad_bytes(take, &short, place);
            // Long labels decide near 63 bytes alone.
            if length >= 60 {
                bad_bytes(take, &long, place);
            }
        }
    }
}

/// Domains of this length: of labels of six bytes, and of one byte and the rest.
fn bases(length: usize) -> [Vec<u8>; 2] {
    let text = |dot: fn(usize) -> bool| {
        let byte = |place: usize| match dot(place) && place + 1 < length {
            true => b'.',
            false => LETTERS[place % LONGEST_TEXT],
        };
        let mut text: Vec<u8> = (0..length).map(byte).collect();
        text[length - 1] = b'b';
        text
    };
    [text(|place| place % 7 == 6), text(|place| place == 1)]
}

/// One of three bytes at a place, or a dot and digits from there on.
fn bad_bytes(take: Taker, text: &[u8], place: usize) {
    let changed = [b'-', b'.', b'_'].map(|byte| {
        let mut text = text.to_vec();
        text[place] = byte;
        text
    });
    let mut digits = text.to_vec();
    digits[place..].fill(b'7');
    digits[place] = if place + 1 < text.len() { b'.' } else { b'7' };
    for text in changed.into_iter().chain([digits]) {
        roles(take, &text, place);
    }
}

/// A text that may be a domain: as a record's and the name's that it asks for, as a
/// dNSName and as an SRVName's domain under constraints, and as a restriction.
fn roles(take: Taker, text: &[u8], place: usize) {
    let kind = [DNS, SRV, URI, CN][place % 4];
    take(same(kind, b"m", text));
    let srv_id = srv_name(&[b"_m.", text].concat());
    take(held("dNSName", dns_name(text), dns_name(b"q")));
    take(held("SRVName", srv_id, srv_name(b"_q")));
    take(held("restriction", dns_name(b"a.b"), dns_name(text)));
}

/// A name under one excluded subtree.
fn held(what: &str, name: Node, subtree: Node) -> Line {
    let case = Case {
        san: san(vec![name]).write(),
        constraints: excluded(subtree).into(),
        ..base()
    };
    (format!("{what} that may be none"), case)
}
