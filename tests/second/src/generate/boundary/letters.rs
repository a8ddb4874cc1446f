//! Request 5/13: "Letters compare without case" in every place that compares
//! them. Names that are the same as what is asked for, or as a restriction, save
//! for bit 20 (hex) of one byte, for another byte, or for a byte more or less.

use super::{base, restricted, same, wildcard, Case, Line, Taker};
use crate::examples::LABEL;
use crate::generate::flips::CASE_BIT;
use crate::records::kind::{CN, DNS, SRV, URI};
use crate::records::{DOMAIN, SERVICE};
use crate::text::{srv_parts, uri_parts, Pair};
use crate::tree::*;

/// Hands over the lines about letters.
pub fn each(take: Taker) {
    let long = [LABEL.as_slice(), b".b"].concat();
    let all: [Pair; 4] = [
        (b"aZ-9k", b"k-Z.1s.b"),
        (b"xn--K", b"XN--p1.A-b"),
        (b"m", &long),
        (&LABEL[..62], b"a.b"),
    ];
    for (service, domain) in all {
        names(take, service, domain);
        records(take, service, domain);
        restrictions(take, service, domain);
        whole_texts(take, service, domain);
    }
    longest_texts(take);
    no_letters(take);
    every_pair(take);
    lengths(take);
    late_differences(take);
    longer_names(take);
    swapped(take);
    look_alikes(take);
}

/// The text with the bit turned in each place, and with another letter there.
fn changed(text: &[u8]) -> impl Iterator<Item = (String, Vec<u8>)> + '_ {
    let places = (0..text.len()).flat_map(|place| [(place, false), (place, true)]);
    places.map(move |(place, other)| {
        let mut changed = text.to_vec();
        changed[place] = match (other, text[place]) {
            (false, byte) => byte ^ CASE_BIT,
            (true, b'q' | b'Q') => b'z',
            (true, _) => b'q',
        };
        let what = if other { "another letter" } else { "bit 20" };
        (format!("{what} at {place}"), changed)
    })
}

/// The line with another text in its presented identifier.
fn with_text(mut line: Line, kind: u8, text: &[u8]) -> Line {
    match kind {
        CN => line.1.subject = subject(vec![rdn(vec![common_name(0x13, text)])]).write(),
        _ => line.1.san = san(vec![general_name(kind, text)]).write(),
    }
    line
}

/// Hands over a line for each change of a text in its presented identifier.
fn changes(take: Taker, line: &Line, kind: u8, text: &[u8]) {
    for (what, text) in changed(text) {
        let mut line = with_text(line.clone(), kind, &text);
        line.0 = format!("{}, {what}", line.0);
        take(line);
    }
}

/// A presented identifier of one kind with one byte changed.
pub fn changed_names(take: Taker, kind: u8, service: &[u8], domain: &[u8]) {
    let text = name_text(kind, service, domain);
    changes(take, &same(kind, service, domain), kind, &text);
}

/// A presented identifier of each kind with one byte changed, be it of its
/// service, its scheme or its marks; and the same with a wildcard.
fn names(take: Taker, service: &[u8], domain: &[u8]) {
    for kind in [DNS, SRV, URI, CN] {
        changed_names(take, kind, service, domain);
    }
    for kind in [DNS, CN] {
        let text = [b"*.", domain].concat();
        changes(take, &wildcard(kind, domain), kind, &text);
    }
}

/// The bit turned in each byte of a record's texts.
fn records(take: Taker, service: &[u8], domain: &[u8]) {
    for kind in [DNS, SRV, URI, CN] {
        let line = same(kind, service, domain);
        let service = usize::from(line.1.references[2]);
        let places = (SERVICE..SERVICE + service).chain(DOMAIN..DOMAIN + domain.len());
        for place in places {
            let (mut what, mut case) = line.clone();
            case.references[place] ^= CASE_BIT;
            what += &format!(", bit 20 at {place} of the record");
            take((what, case));
        }
    }
}

/// A restriction in each of the three forms with one byte changed, and an
/// SRVName with one byte changed below the longest of them.
fn restrictions(take: Taker, service: &[u8], domain: &[u8]) {
    let name = name_text(SRV, service, domain);
    for form in [&name[..], &name[..=service.len()], domain] {
        for (_, form) in changed(form) {
            restricted(&name, &form).into_iter().for_each(&mut *take);
        }
    }
    for (_, text) in changed(&name) {
        restricted(&text, &name).into_iter().for_each(&mut *take);
    }
}

/// One service or scheme and domain as presented identifier of every kind, for a
/// reference with others, and below a restriction with others.
fn pair(take: Taker, presented: Pair, asked: Pair) {
    for kind in [DNS, SRV, URI, CN] {
        let text = name_text(kind, presented.0, presented.1);
        take(with_text(same(kind, asked.0, asked.1), kind, &text));
    }
    for kind in [DNS, CN] {
        let text = [b"*.", presented.1].concat();
        take(with_text(wildcard(kind, asked.1), kind, &text));
    }
    let [name, restriction] = [presented, asked].map(|words| name_text(SRV, words.0, words.1));
    restricted(&name, &restriction).into_iter().for_each(take);
}

/// Texts as they are, in capitals and in small letters, in all pairs.
fn whole_texts(take: Taker, service: &[u8], domain: &[u8]) {
    let texts = |text: &[u8]| {
        [
            text.to_vec(),
            text.to_ascii_uppercase(),
            text.to_ascii_lowercase(),
        ]
    };
    let (services, domains) = (texts(service), texts(domain));
    let both = || services.iter().zip(&domains);
    for presented in both() {
        for asked in both() {
            pair(take, (presented.0, presented.1), (asked.0, asked.1));
        }
    }
}

/// A scheme of 63 bytes, and a domain of 253 bytes in a dNSName; for some places
/// of that domain, an SRVName and a restriction.
fn longest_texts(take: Taker) {
    changed_names(take, URI, &LABEL, b"a.b");
    let domain = [&LABEL[..], &LABEL, &LABEL, &LABEL[..61]].join(&b'.');
    changed_names(take, DNS, b"", &domain);
    let name = name_text(SRV, b"m", &domain);
    for (_, form) in changed(&domain).step_by(9) {
        restricted(&name, &form).into_iter().for_each(&mut *take);
    }
}

/// Labels that have no letter in places 0, 7, 8, 15 and 16 nor in the last, and
/// schemes with each byte that is neither letter nor digit.
fn no_letters(take: Taker) {
    let label: Vec<u8> = b"1-90a".iter().copied().cycle().take(63).collect();
    names(take, b"m", &[b"1.", label.as_slice()].concat());
    changed_names(take, SRV, &label[..58], b"a.b");
    changed_names(take, URI, &[b"k", &label[1..]].concat(), b"a.b");
    changed_names(take, URI, b"k+Z.9-", b"a.b");
}

/// Where a byte stands in a name: the name's kind, and what is around the byte.
const AROUND: [(u8, &str, &str); 8] = [
    (DNS, "q", "q.b"),
    (DNS, "*.q", "q.b"),
    (SRV, "_q", "q.a.b"),
    (SRV, "_m.q", "q.b"),
    (URI, "q", "q://a.b"),
    (URI, "m://q", "q.b"),
    (CN, "q", "q.b"),
    (CN, "*.q", "q.b"),
];

/// The same in a name, and in a restriction that it lies in.
const INSIDE: [[(&str, &str); 2]; 3] = [
    [("_q", "q.a.b"), ("_q", "q")],
    [("_q", "q.a.b"), ("_q", "q.b")],
    [("_m.a.q", "q.b"), ("q", "q.b")],
];

fn around((before, behind): (&str, &str), byte: u8) -> Vec<u8> {
    [before.as_bytes(), &[byte], behind.as_bytes()].concat()
}

/// For each byte of a label, names that each have one of all bytes in its place
/// that are not the same: none of them matches. And restrictions, as far as such
/// bytes may stand there: none of them holds the name.
fn every_pair(take: Taker) {
    for byte in LABEL {
        let others = |other: &u8| !other.eq_ignore_ascii_case(&byte);
        for (kind, before, behind) in AROUND {
            let most = if kind == CN { 255 } else { 127 };
            let texts = (0..=most).filter(others);
            let texts: Vec<Vec<u8>> = texts.map(|other| around((before, behind), other)).collect();
            let references = asking(kind, &around((before, behind), byte));
            for texts in texts.chunks(128) {
                let what = format!("bytes other than {byte:02X}, kind {kind}");
                take((what, crowd(kind, texts, &references)));
            }
        }
        for [name, restriction] in INSIDE {
            let others = LABEL.into_iter().filter(others);
            let side = others.map(|other| subtree(srv_name(&around(restriction, other))));
            let side: Vec<Node> = side.collect();
            for (permitted, excluded) in [(side.clone(), Vec::new()), (Vec::new(), side)] {
                let case = Case {
                    san: san(vec![dns_name(b"a.b"), srv_name(&around(name, byte))]).write(),
                    constraints: constraints(permitted, excluded).write().into(),
                    ..base()
                };
                take((format!("restrictions without {byte:02X}"), case));
            }
        }
    }
}

/// The record that asks for the name of this text, with a label for a wildcard.
fn asking(kind: u8, text: &[u8]) -> Vec<u8> {
    let (service, domain) = match kind {
        SRV => srv_parts(text).unwrap_or_default(),
        URI => uri_parts(text).unwrap_or_default(),
        _ => (b"".as_slice(), text),
    };
    let label: &[u8] = if domain.starts_with(b"*") { b"a" } else { b"" };
    record(kind, service, &[label, &domain[label.len()..]].concat())
}

/// All of these texts as names of one kind.
fn crowd(kind: u8, texts: &[Vec<u8>], references: &[u8]) -> Case {
    let mut case = Case {
        references: references.to_vec(),
        ..base()
    };
    if kind == CN {
        let sets = texts.iter().map(|text| rdn(vec![common_name(0x0C, text)]));
        (case.san, case.subject) = (Vec::new(), subject(sets.collect()).write());
    } else {
        let entries = texts.iter().map(|text| general_name(kind, text));
        case.san = san(entries.collect()).write();
    }
    case
}

/// Two words, as labels of a domain and as services or schemes.
fn words(take: Taker, one: &[u8], other: &[u8]) {
    let domains = [one, other].map(|word| [word, b".b"].concat());
    pair(take, (b"m", &domains[0]), (b"m", &domains[1]));
    pair(take, (one, b"a.b"), (other, b"a.b"));
}

/// Words of which one has a byte less than the other, at its end or before it,
/// and words of the same length.
fn lengths(take: Taker) {
    for length in [2, 8, 9, 16, 17, 62, 63] {
        let whole = &LABEL[..length];
        for less in [&whole[1..], &whole[..length - 1]] {
            words(take, whole, less);
            words(take, less, whole);
        }
        words(take, whole, &whole.to_ascii_lowercase());
    }
}

/// Words in which every letter is in the other case, and one is another letter.
fn late_differences(take: Taker) {
    for place in [1, 7, 8, 15, 16, 31, 61] {
        let mut word = LABEL[..62].to_ascii_uppercase();
        let asked = word.to_ascii_lowercase();
        word[place] = if asked[place] == b'q' { b'Z' } else { b'Q' };
        words(take, &word, &asked);
    }
}

/// Names that go on behind what is asked for: with zero bytes, spaces or letters,
/// as many as a length of fewer bits does not show.
fn longer_names(take: Taker) {
    for more in [1, 8, 16, 64, 128, 256] {
        for byte in [b'\0', b' ', b'a'] {
            let behind = vec![byte; more];
            let [service, domain] = [b"m".as_slice(), b"a.b"].map(|text| [text, &behind].concat());
            pair(take, (&service, b"a.b"), (b"m", b"a.b"));
            pair(take, (b"m", &domain), (b"m", b"a.b"));
        }
    }
}

/// Words that have the same bytes in another order or the same sum of them, or
/// that differ in their last label alone.
fn swapped(take: Taker) {
    const WORDS: [(&str, &str); 6] = [
        ("ab", "ba"),
        ("a1", "1a"),
        ("Zab", "baz"),
        ("az", "by"),
        ("a.bb", "ab.b"),
        ("a.b.c.d.e", "a.b.c.d.f"),
    ];
    for (one, other) in WORDS {
        words(take, one.as_bytes(), other.as_bytes());
    }
}

/// Letters and other bytes of a domain, and what is like them in Unicode or in
/// other sets of characters.
const LOOK_ALIKES: [(&str, &[u8]); 17] = [
    ("k", "\u{212A}".as_bytes()),
    ("K", "\u{212A}".as_bytes()),
    ("s", "\u{17F}".as_bytes()),
    ("S", "\u{17F}".as_bytes()),
    ("i", "\u{130}".as_bytes()),
    ("I", "\u{131}".as_bytes()),
    ("ss", "\u{DF}".as_bytes()),
    ("a", "\u{C1}".as_bytes()),
    ("a", "\u{FF41}".as_bytes()),
    ("A", "\u{FF41}".as_bytes()),
    ("1", "\u{FF11}".as_bytes()),
    (".", "\u{3002}".as_bytes()),
    ("-", "\u{2010}".as_bytes()),
    ("a", b"\xC1"),
    ("A", b"\xE1"),
    ("1", b"\xB1"),
    ("-", b"\xAD"),
];

/// CNs with one of these in a label, at either end of it and inside.
fn look_alikes(take: Taker) {
    for (asked, alike) in LOOK_ALIKES {
        for (before, behind) in [("", "x.b"), ("x", "x.b"), ("x", ".b"), ("x.x", "x")] {
            let text = |byte: &[u8]| [before.as_bytes(), byte, behind.as_bytes()].concat();
            let [asked, alike] = [asked.as_bytes(), alike].map(text);
            for tag in [0x0C, 0x13, 0x16] {
                let (_, mut case) = same(CN, b"", &asked);
                case.subject = subject(vec![rdn(vec![common_name(tag, &alike)])]).write();
                take((format!("CN like a name, tag {tag:02X}"), case));
            }
            let wild = [b"*.", alike.as_slice()].concat();
            take(with_text(wildcard(CN, &asked), CN, &wild));
        }
    }
}
