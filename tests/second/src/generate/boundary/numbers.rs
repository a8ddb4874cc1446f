//! Request 2/13: "the last label of a domain may not be all digits", in every
//! place that has a domain.

use super::{
    base, constrained, every_role, excluded, labels_of, permitted, put, same, small, wildcard,
    Case, Taker,
};
use crate::longest;
use crate::records::kind::{CN, DNS, SRV, URI};
use crate::tree::*;

/// Labels of digits alone.
const NUMBERS: &str = "0 1 2 3 4 5 6 7 8 9 00 07 10 99 0123456789";
/// Labels with a byte that is no digit.
const NEAR: &str = "7b b7 0x7 7-7 0a a0 9Z Z9 9z 0A 1--1 7b7 xn--7 b";
/// What is no label at all.
const NO_LABELS: &str = "-7 7- 7/ /7 7:7 7_7 7* *";

/// Hands over the lines about labels of digits.
pub fn each(take: Taker) {
    let words = [NUMBERS, NEAR, NO_LABELS].map(|words| words.split(' '));
    let words = words.into_iter().flatten().map(|word| word.into());
    for label in words.chain(long_labels()) {
        for text in texts(&label) {
            names(take, &text);
            uris(take, &text);
            srv_names(take, &text);
            restrictions(take, &text);
            records(take, &text);
        }
        ports(take, &label);
    }
    every_byte(take);
    lengths(take);
    places(take);
    order(take);
}

/// Labels of 62 to 64 digits, and of 63 bytes with one that is no digit.
fn long_labels() -> Vec<Vec<u8>> {
    let mut labels: Vec<Vec<u8>> = [62, 63, 64].map(|length| vec![b'9'; length]).into();
    for (place, byte) in [(0, b'a'), (31, b'-'), (62, b'z')] {
        let mut label = vec![b'0'; 63];
        label[place] = byte;
        labels.push(label);
    }
    labels
}

/// Texts of one to four labels with this one last, first and in the middle.
fn texts(label: &[u8]) -> [Vec<u8>; 6] {
    let around: [(&str, &str); 6] = [
        ("", ""),
        ("a.", ""),
        ("10.4.0.", ""),
        ("", ".a"),
        ("", ".7"),
        ("a.", ".b"),
    ];
    around.map(|(before, behind)| [before.as_bytes(), label, behind.as_bytes()].concat())
}

/// The text as a name and a record of every kind, and as a name for another
/// record; and a CN that it keeps from counting, or not.
fn names(take: Taker, text: &[u8]) {
    every_role(take, b"m", text);
    for (kind, service) in [(DNS, ""), (SRV, "m"), (URI, "m"), (CN, "")] {
        let mut line = same(kind, b"m", text);
        line.1.references = record(kind, service.as_bytes(), b"a.b");
        take(line);
    }
    let mut line = wildcard(DNS, text);
    line.1.references = record(DNS, b"", b"a.b.c");
    take(line);
    let texts = [b"".as_slice(), b"*.", b"_m.", b"m://"].map(|before| [before, text].concat());
    let [domain, wildcard, srv, uri] = &texts;
    for name in [
        dns_name(domain),
        dns_name(wildcard),
        srv_name(srv),
        uri_name(uri),
        email(domain),
    ] {
        let references = [record(CN, b"", b"a.b")];
        take(small("CN beside a name", name, &references));
    }
}

/// The text as a URI's host, between other parts.
fn uris(take: Taker, text: &[u8]) {
    let around: [(&str, &str); 6] = [
        ("x://", ":7"),
        ("x://", ":"),
        ("x://u@", ""),
        ("x://7:7@", ":10/7"),
        ("x://", "/7"),
        ("x://", "?a.b"),
    ];
    for (before, behind) in around {
        let name = uri_name(&[before.as_bytes(), text, behind.as_bytes()].concat());
        take(small("host", name, &[record(URI, b"x", text)]));
    }
}

/// The label as a port and as a user, of a URI whose host is a domain.
fn ports(take: Taker, label: &[u8]) {
    for (before, behind) in [("x://a.b:", ""), ("x://a.7b:", "/"), ("x://", "@a.b")] {
        let name = uri_name(&[before.as_bytes(), label, behind.as_bytes()].concat());
        let references = [record(URI, b"x", b"a.b"), record(URI, b"x", b"a.7b")];
        take(small("port or user", name, &references));
    }
}

/// One subtree, permitted and excluded.
fn sides(base: Node) -> [Vec<u8>; 2] {
    [permitted(base.clone()), excluded(base)]
}

/// The text as the domain of an SRVName behind a name that matches, under
/// restrictions that are readable, one of another form among them.
fn srv_names(take: Taker, text: &[u8]) {
    let restrictions = [
        ("m", srv_name(b"_m")),
        ("m", srv_name(b"_n")),
        ("7", srv_name(b"_7")),
        ("m", uri_name(b"10.4.0.7")),
    ];
    for (service, restriction) in restrictions {
        for constraints in sides(restriction) {
            let name = [b"_", service.as_bytes(), b".", text].concat();
            let case = Case {
                san: san(vec![dns_name(b"a.b"), srv_name(&name)]).write(),
                constraints: constraints.into(),
                ..base()
            };
            take(("SRVName under a restriction".to_string(), case));
        }
    }
}

/// The text in SRVName restrictions, for names that lie below it, for another
/// and for none; in a dNSName restriction; and in forms that are "read and passed
/// over".
fn restrictions(take: Taker, text: &[u8]) {
    let with_service = [b"_m.", text].concat();
    let below = srv_name(&[b"_m.x.", text].concat());
    for restriction in [text, &with_service] {
        for constraints in sides(srv_name(restriction)) {
            for names in [vec![], vec![srv_name(b"_m.a.b")], vec![below.clone()]] {
                let names = [vec![dns_name(b"a.b")], names].concat();
                let case = Case {
                    san: san(names).write(),
                    constraints: constraints.clone().into(),
                    ..base()
                };
                take(("restriction".to_string(), case));
            }
        }
    }
    for other in [dns_name(text), uri_name(text), email(text)] {
        let case = Case {
            constraints: permitted(other).into(),
            ..base()
        };
        take(("restriction that is no SRVName".to_string(), case));
    }
}

/// The text in a record of every kind before and behind good ones, each of
/// which matches.
fn records(take: Taker, text: &[u8]) {
    for (kind, service) in [(DNS, ""), (SRV, "m"), (URI, "m"), (CN, "")] {
        for (place, count) in [(0, 2), (1, 2), (15, 16)] {
            among_records(take, (place, count), kind, service, text);
        }
    }
}

/// One record with this text, among good ones.
fn among_records(
    take: Taker,
    (place, count): (usize, usize),
    kind: u8,
    service: &str,
    text: &[u8],
) {
    let mut records = vec![base().references; count];
    records[place] = record(kind, service.as_bytes(), text);
    let case = Case {
        references: records.concat(),
        ..base()
    };
    take((format!("record {place} of {count}, kind {kind}"), case));
}

/// Every byte value as a last label, and before, behind and between digits.
fn every_byte(take: Taker) {
    for value in 0..=255 {
        for label in [
            vec![value],
            vec![value, b'7'],
            vec![b'0', value],
            vec![b'9', value, b'9'],
        ] {
            let text = [b"a.", label.as_slice()].concat();
            take(same(DNS, b"", &text));
            take(constrained(b"m", &text).swap_remove(0));
        }
    }
}

/// Domains of 250 to 254 bytes whose last label is all digits, or not.
fn lengths(take: Taker) {
    for length in 250..=254 {
        for last in [
            b"7".as_slice(),
            b"10",
            b"7b",
            &[b'9'; 62],
            &[b'9'; 63],
            &[b'z'; 63],
        ] {
            let before = labels_of(length - last.len() - 1);
            every_role(take, b"m", &[before.as_slice(), b".", last].concat());
        }
    }
}

/// A record, a restriction and an SRVName that end in digits, or nearly do, at
/// several places among others that do not.
fn places(take: Taker) {
    for count in [1, 2, 3, 4, 16] {
        for place in 0..count {
            for (kind, service) in [(DNS, ""), (SRV, "7"), (URI, "x7"), (CN, "")] {
                for text in [b"7b.7".as_slice(), b"7.7b"] {
                    among_records(take, (place, count), kind, service, text);
                }
            }
        }
    }
    for before in [1, 2, 7, 8, 63, 64, 255, 256] {
        for text in [b"_m.a.7".as_slice(), b"_m.a.7b", b"_7.7", b"_7.7b"] {
            behind(take, before, text);
        }
    }
}

/// This text as the last of many SRVNames and as the last of many restrictions,
/// permitted and excluded.
fn behind(take: Taker, before: usize, text: &[u8]) {
    let many = |idle: Node, last: Node| [vec![idle; before], vec![last]].concat();
    let what = format!("behind {before}");
    let case = Case {
        san: san(many(srv_name(b"_m.a.b"), srv_name(text))).write(),
        constraints: excluded(srv_name(b"_n")).into(),
        ..base()
    };
    take((what.clone(), case));
    let side = || many(subtree(srv_name(b"_7")), subtree(srv_name(text)));
    for (permitted, excluded) in [(side(), vec![]), (vec![], side())] {
        let case = Case {
            san: san(vec![dns_name(b"a.b"), srv_name(b"_7.a.b")]).write(),
            constraints: constraints(permitted, excluded).write().into(),
            ..base()
        };
        take((what.clone(), case));
    }
}

/// "7 for any of the four inputs, then 6, 3, 4, 5, 2": a record, a restriction
/// and an SRVName that end in digits, each beside each other refusal.
fn order(take: Taker) {
    for bad in 0..8 {
        let mut case = base();
        case.san = san(vec![dns_name(b"a.b"), srv_name(b"_m.10.4.0.7")]).write();
        let texts: [&[u8]; 2] = [b"_m", b"_m.10.4.0.7"];
        let text = texts[usize::from(bad & 1 != 0)];
        case.constraints = permitted(srv_name(text)).into();
        if bad & 2 != 0 {
            case.references.extend(record(DNS, b"", b"10.4.0.7"));
        }
        if bad & 4 != 0 {
            case.san = san(vec![dns_name(b"a.b"), srv_name(b"_m.a.b")]).write();
        }
        take(("digits in several places".to_string(), case.clone()));
        for (input, length) in [(0, 2), (1, 2), (2, 2), (3, 2), (0, longest::SAN + 1)] {
            let mut worse = case.clone();
            put(&mut worse, input, vec![0x30; length]);
            take(("digits, and another refusal".to_string(), worse));
        }
    }
}
