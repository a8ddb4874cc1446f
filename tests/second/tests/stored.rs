//! The stored output of the programs `vectors`, `paged` and `witnessed`, line by
//! line from this implementation.

use second::examples::{J, THREE_ATTRIBUTES, THREE_SUBTREES, TWO_ENTRIES};
use second::records::kind::{CN, DNS, SRV, URI};
use second::text::{
    has_two_labels, is_dns_subtree, is_domain, is_scheme, is_service, is_srv_subtree, lies_in,
    same_text, srv_id, uri_parts,
};
use second::tree::{dns_name, parts, record, san, srv_name, subtree, uri_name, Node};
use second::{answer, judge, verdict, Row, Viewer, Which};
use std::fs;

/// A file beside the source of one of the programs.
fn file(name: &str) -> Vec<u8> {
    let path = format!("{}/../../crates/{name}", env!("CARGO_MANIFEST_DIR"));
    fs::read(&path).unwrap_or_else(|error| panic!("{path}: {error}"))
}

/// Holds the lines to a stored output.
fn stored(program: &str, lines: &[Vec<u8>]) {
    let stored = file(&format!("{program}/stdout"));
    let stored: Vec<&[u8]> = stored.split_inclusive(|&byte| byte == b'\n').collect();
    for (number, line) in lines.iter().enumerate() {
        let line = [line.as_slice(), b"\n"].concat();
        let there = stored.get(number).copied().unwrap_or_default();
        let show = String::from_utf8_lossy;
        assert_eq!(show(there), show(&line), "{program}, line {}", number + 1);
        assert_eq!(there, line, "{program}, line {}", number + 1);
    }
    assert_eq!(stored.len(), lines.len(), "{program}: lines");
}

/// Whether a SAN of this one name matches this one reference; never where the
/// record is refused.
fn matches(name: Node, kind: u8, service: &[u8], domain: &[u8]) -> bool {
    let fits = service.len() <= 63 && domain.len() <= 253;
    let names = san(vec![name]).write();
    let verdict = verdict(&names, &J, &[], &[], &record(kind, service, domain));
    fits && verdict.answer == answer::MATCH
}

/// A DNS-ID matches the domain in which `*` is a label of one letter. No record
/// asks for a domain of one label, and yet that is a DNS-ID: "presented names
/// without a wildcard may keep one label" (request 1/13).
fn is_dns_id(text: &[u8]) -> bool {
    match text {
        [b'*', b'.', rest @ ..] => matches(dns_name(text), DNS, b"", &[b"a.", rest].concat()),
        _ if has_two_labels(text) => matches(dns_name(text), DNS, b"", text),
        _ => is_domain(text),
    }
}

/// A URI-ID matches the scheme before its first colon and some domain in it, or
/// has a domain of one label, for which no record asks.
fn is_uri_id(text: &[u8]) -> bool {
    uri_parts(text).is_some_and(|(scheme, domain)| match has_two_labels(domain) {
        true => matches(uri_name(text), URI, scheme, domain),
        false => is_scheme(scheme) && is_domain(domain),
    })
}

/// Whether a DNS-ID breaks a string of one dNSName subtree on this side.
fn breaks(name: &[u8], side: u8, subtree_text: &[u8]) -> bool {
    let subtrees = parts(side, vec![subtree(dns_name(subtree_text))]);
    let string = parts(0x30, vec![subtrees]).write();
    let names = san(vec![dns_name(name)]).write();
    let references = record(DNS, b"", b"a.b");
    let verdict = verdict(&names, &J, &string, &[string.len()], &references);
    verdict.answer == answer::CONSTRAINTS_BROKEN
}

/// What stands before the first space, and what stands behind it.
fn cut(text: &[u8]) -> (&[u8], &[u8]) {
    match text.iter().position(|&byte| byte == b' ') {
        Some(at) => (&text[..at], &text[at + 1..]),
        None => (text, b""),
    }
}

/// The rule of a line of `vectors`, by its letter.
fn holds(rule: u8, text: &[u8]) -> bool {
    let (first, rest) = cut(text);
    let (second, third) = cut(rest);
    match rule {
        b'd' => is_domain(text),
        b's' => is_service(text),
        b'h' => is_scheme(text),
        b'n' => is_dns_id(text),
        b'N' => matches(dns_name(rest), DNS, b"", first),
        b'r' => srv_id(text).is_some(),
        b'R' => matches(srv_name(third), SRV, first, second),
        b'u' => is_uri_id(text),
        b'U' => matches(uri_name(third), URI, first, second),
        b'x' => is_srv_subtree(text),
        b'X' => srv_id(rest).is_some_and(|pair| lies_in(pair, first)),
        b'T' => same_text(first, rest),
        b'y' => is_dns_subtree(text),
        b'Y' => !breaks(rest, 0xA0, first),
        b'Z' => breaks(rest, 0xA1, first),
        _ => panic!("no rule has the letter {rule}"),
    }
}

/// The answer of the record reader, as one digit.
fn reader(references: &[u8]) -> u8 {
    b'0' + second::record(references, 0).answer as u8
}

/// The answers of a record with each byte one more in turn, 64 to a line.
fn changes(good: &[u8]) -> Vec<Vec<u8>> {
    let changed = |at: usize| {
        let mut bytes = good.to_vec();
        bytes[at] = bytes[at].wrapping_add(1);
        reader(&bytes)
    };
    let answers: Vec<u8> = (0..good.len()).map(changed).collect();
    answers.chunks(64).map(<[u8]>::to_vec).collect()
}

#[test]
fn vectors() {
    let input = file("vectors/stdin");
    let vectors = input.split(|&byte| byte == b'\n');
    let mut lines: Vec<Vec<u8>> = vectors
        .filter(|line| line.len() >= 2)
        .map(|line| {
            let digit = b'0' + u8::from(holds(line[0], &line[2..]));
            [&[digit, b' '], line].concat()
        })
        .collect();
    for (kind, service) in [(DNS, ""), (SRV, "m"), (URI, "m"), (CN, "")] {
        lines.extend(changes(&record(kind, service.as_bytes(), b"a.b")));
    }
    let many = record(DNS, b"", b"a.b").repeat(17);
    let sizes = [0, 320, 5119, 5120, 5121, 5440];
    lines.push(sizes.map(|size| reader(&many[..size])).to_vec());
    stored("vectors", &lines);
}

/// Four numbers of a row.
fn numbers(row: &Row) -> String {
    format!("{} {} {} {}", row.kind, row.start, row.length, row.group)
}

/// A title, and a string that a program spells out.
type Spelled = (&'static str, Which, &'static [u8]);

/// Strings without a name, in `paged`.
const WITHOUT_NAMES: [Spelled; 6] = [
    ("30 00 as a SAN", Which::San, b"\x30\x00"),
    ("30 00 as a subject", Which::Subject, b"\x30\x00"),
    ("30 00 as constraints", Which::Constraints, b"\x30\x00"),
    ("no SAN", Which::San, b""),
    ("no subject", Which::Subject, b""),
    ("no constraints", Which::Constraints, b""),
];

/// More names than one, in `paged`.
const PAGED: [Spelled; 4] = [
    ("two entries", Which::San, &TWO_ENTRIES),
    ("three attributes", Which::Subject, &THREE_ATTRIBUTES),
    ("three subtrees", Which::Constraints, &THREE_SUBTREES),
    ("empty names", Which::San, b"\x30\x04\x82\x00\x82\x00"),
];

/// Strings that are refused, in `paged`.
const REFUSED: [Spelled; 2] = [
    ("a byte after the SAN", Which::San, b"\x30\x02\x82\x00\x00"),
    ("a subject as a SAN", Which::San, &THREE_ATTRIBUTES),
];

/// One step: a row and the position after it, or the end and where it is.
fn step(viewer: &mut Viewer) -> String {
    match viewer.step() {
        Some(row) => format!("{} then {}", numbers(&row), viewer.position()),
        None => format!("end {}", viewer.position()),
    }
}

/// An opening's answer, and five steps from it.
fn five_steps(title: &str, which: Which, bytes: &[u8]) -> Vec<u8> {
    let (answer, mut viewer) = Viewer::open(bytes, which);
    let steps = [(); 5].map(|()| step(&mut viewer)).join(", ");
    format!("{title}: {answer}; {steps}").into_bytes()
}

/// The start of the row that is shown from each position up to two behind the
/// string.
fn every_position(title: &str, which: Which, bytes: &[u8]) -> Vec<u8> {
    let last = bytes.len() + 2;
    let starts = (0..=last).map(|at| match Viewer::at(bytes, which, at).step() {
        Some(row) => row.start.to_string(),
        None => "-".to_string(),
    });
    let starts: Vec<String> = starts.collect();
    format!("{title}, from 0 to {last}: {}", starts.join(" ")).into_bytes()
}

#[test]
fn paged() {
    let spelled = PAGED.iter().chain(&WITHOUT_NAMES).chain(&REFUSED);
    let spelled = spelled.flat_map(|&(title, which, bytes)| {
        let paged = five_steps(title, which, bytes);
        [paged, every_position(title, which, bytes)]
    });
    let far = [u32::MAX as usize, 1 << 63, usize::MAX].map(|at| {
        let mut viewer = Viewer::at(&TWO_ENTRIES, Which::San, at);
        format!("two entries from {at}: {}", step(&mut viewer)).into_bytes()
    });
    let lines: Vec<Vec<u8>> = spelled.chain(far).collect();
    stored("paged", &lines);
}

const ABC: &[u8] = b"\x30\x10\x31\x0E\x30\x0C\x06\x03\x55\x04\x03\x0C\x05a.b.c";
const SRV_NAME: &[u8] =
    b"\x30\x18\xA0\x16\x06\x08\x2B\x06\x01\x05\x05\x07\x08\x07\xA0\x0A\x16\x08_m.a.b.c";
const TWO_SETS: &[u8] = b"\x30\x1A\x31\x08\x30\x06\x06\x01\x2A\x0C\x01\x62\x31\x0E\x30\x0C\x06\x03\x55\x04\x03\x13\x05*.b.c";
const PERMITTED: &[u8] =
    b"\x30\x16\xA0\x14\x30\x12\xA0\x10\x06\x08\x2B\x06\x01\x05\x05\x07\x08\x07\xA0\x04\x16\x02_n";

const DNS_NAME: &[u8] = b"\x30\x07\x82\x05a.b.c";
/// The dNSName subtrees `c` and `d`, permitted, and `d`, excluded.
const PERMITTED_C: &[u8] = b"\x30\x07\xA0\x05\x30\x03\x82\x01c";
const PERMITTED_D: &[u8] = b"\x30\x07\xA0\x05\x30\x03\x82\x01d";
const EXCLUDED_D: &[u8] = b"\x30\x07\xA1\x05\x30\x03\x82\x01d";

/// A line of `witnessed`: title, SAN, subject and constraint strings.
type Witnessed = (
    &'static str,
    &'static [u8],
    &'static [u8],
    &'static [&'static [u8]],
);

const WITNESSED: [Witnessed; 12] = [
    ("dNSName", DNS_NAME, ABC, &[]),
    ("wildcard", b"\x30\x07\x82\x05*.b.c", ABC, &[]),
    (
        "second name",
        b"\x30\x0E\x82\x05x.b.c\x82\x05A.B.C",
        ABC,
        &[],
    ),
    ("SRVName", SRV_NAME, ABC, &[]),
    ("URI", b"\x30\x0B\x86\x09m://a.b.c", ABC, &[]),
    ("CN", b"", ABC, &[]),
    ("CN of the second set", b"\x30\x03\x81\x01@", TWO_SETS, &[]),
    ("mismatch", b"\x30\x07\x82\x05x.b.c", ABC, &[]),
    ("unreadable", b"\x30\x00", ABC, &[]),
    ("constraints broken", SRV_NAME, ABC, &[PERMITTED]),
    ("two issuers", DNS_NAME, ABC, &[PERMITTED_C, EXCLUDED_D]),
    (
        "third issuer's constraints broken",
        DNS_NAME,
        ABC,
        &[PERMITTED_C, b"", PERMITTED_D],
    ),
];

#[test]
fn witnessed() {
    let kinds = [(DNS, ""), (SRV, "m"), (URI, "m"), (CN, "")];
    let references = kinds.map(|(kind, service)| record(kind, service.as_bytes(), b"a.b.c"));
    let references = references.concat();
    let lines: Vec<Vec<u8>> = WITNESSED
        .iter()
        .map(|(title, san, subject, strings)| {
            let lengths: Vec<usize> = strings.iter().map(|string| string.len()).collect();
            let outcome = judge(san, subject, &strings.concat(), &lengths, &references);
            let (v, text) = (outcome.verdict, outcome.text);
            // the fourth reference is the CN's, whose text lies in the subject
            let holder = if v.reference == 3 { subject } else { san };
            let (start, length) = (text.start as usize, text.length as usize);
            let six = v.numbers().map(|number| number.to_string()).join(" ");
            let before = format!("{title}: {six}; {start} {length}; \"");
            [before.as_bytes(), &holder[start..start + length], b"\""].concat()
        })
        .collect();
    stored("witnessed", &lines);
}
