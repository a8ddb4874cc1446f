//! The desk examples and the old faults of document 01, and the examples of
//! requests 1/13 to 3/13 and 6/13, as one numbered table. P1 to P16 are the
//! document's numbers; D1 on are the desk examples without a number, in order; F1
//! to F5 the old faults, in order; L1 on the examples of request 1/13, about
//! labels; A1 on those of request 2/13, about addresses; V1 on strings for the
//! viewer of request 3/13; I1 on those of request 6/13, about issuers and
//! dNSName subtrees.

pub mod issuers;

use crate::generate::{Case, Chain};
use crate::records::kind::{CN, DNS, SRV, URI};
use crate::tree::{
    common_name, constraints, dns_name, email, rdn, record, san, srv_name, subject, subtree,
    uri_name, Node,
};

/// One line of the table: inputs, and the six numbers of the verdict.
#[derive(Clone)]
pub struct Example {
    pub number: String,
    pub case: Case,
    pub verdict: [u32; 6],
}

/// "S is `30 05 82 03 61 2E 62`"
pub const S: [u8; 7] = [0x30, 0x05, 0x82, 0x03, 0x61, 0x2E, 0x62];

/// "J is `30 0E 31 0C 30 0A 06 03 55 04 03 0C 03 61 2E 62`"
pub const J: [u8; 16] = [
    0x30, 0x0E, 0x31, 0x0C, 0x30, 0x0A, 0x06, 0x03, 0x55, 0x04, 0x03, 0x0C, 0x03, 0x61, 0x2E, 0x62,
];

/// A label of 63 bytes: every byte that a label may have, once.
pub const LABEL: [u8; 63] = *b"AbCdEfGhIjKlMnOpQrStUvWxYz0123456789-aBcDeFgHiJkLmNoPqRsTuVwXyZ";

/// A SAN of the dNSNames `a.b` and `b.c`.
pub const TWO_ENTRIES: [u8; 12] = *b"\x30\x0A\x82\x03a.b\x82\x03b.c";

/// A subject of two sets: another attribute and the CN `a.b`; a CN whose tag is
/// none of the three.
pub const THREE_ATTRIBUTES: [u8; 38] = *b"\x30\x24\x31\x16\x30\x08\x06\x03\x55\x04\x0A\x0C\x01o\
    \x30\x0A\x06\x03\x55\x04\x03\x0C\x03a.b\x31\x0A\x30\x08\x06\x03\x55\x04\x03\x1E\x01x";

/// Constraints of both sides: the SRVName `_m` is permitted, the dNSName `a.b`
/// and the SRVName `b` are excluded.
pub const THREE_SUBTREES: [u8; 52] = *b"\x30\x32\
    \xA0\x14\x30\x12\xA0\x10\x06\x08\x2B\x06\x01\x05\x05\x07\x08\x07\xA0\x04\x16\x02_m\
    \xA1\x1A\x30\x05\x82\x03a.b\
    \x30\x11\xA0\x0F\x06\x08\x2B\x06\x01\x05\x05\x07\x08\x07\xA0\x03\x16\x01b";

/// RFC 4985, section 4: restriction, name, and whether the name is inside.
const RFC_4985: [(&str, &str, bool); 11] = [
    ("example.com", "_mail.example.com", true),
    ("example.com", "_ntp.example.com", true),
    ("example.com", "_mail.1.example.com", true),
    ("_mail", "_mail.example.com", true),
    ("_mail", "_mail.1example.com", true),
    ("_mail.example.com", "_mail.example.com", true),
    ("_mail.example.com", "_mail.1.example.com", true),
    ("example.com", "_mail.1example.com", false),
    ("_mail", "_ntp.example.com", false),
    ("_mail.example.com", "_mail.1example.com", false),
    ("_mail.example.com", "_ntp.example.com", false),
];

/// The whole table.
pub fn table() -> Vec<Example> {
    let mut table = restrictions();
    table.extend(wildcards());
    table.extend(written_out());
    table.extend(sizes());
    table.extend(old_faults());
    table.extend(short_wildcards());
    table.extend(one_label_records());
    table.extend(one_label_names());
    table.extend(addresses());
    table.extend(next_to_addresses());
    table.extend(address_records());
    table.extend(address_srv_names());
    table.extend(address_restrictions());
    table.extend(viewed());
    table.extend(issuers::table());
    table
}

fn example(number: &str, case: Case, verdict: [u32; 6]) -> Example {
    Example {
        number: number.to_string(),
        case,
        verdict,
    }
}

/// "Where none is named, the subject is J and constraints are absent."
fn case(san: Vec<u8>, references: Vec<u8>) -> Case {
    Case {
        san,
        subject: J.to_vec(),
        constraints: Chain::default(),
        references,
    }
}

/// A verdict with zeros after its answer.
fn bare(answer: u32) -> [u32; 6] {
    [answer, 0, 0, 0, 0, 0]
}

/// The reference that an SRVName's text asks for.
fn srv_reference(name: &str) -> Vec<u8> {
    let (service, domain) = name[1..].split_once('.').expect("a service and a domain");
    record(SRV, service.as_bytes(), domain.as_bytes())
}

/// A SAN of one SRVName under one permitted restriction.
fn restricted(restriction: &str, name: &str) -> Case {
    let permitted = vec![subtree(srv_name(restriction.as_bytes()))];
    Case {
        constraints: constraints(permitted, Vec::new()).write().into(),
        ..case(
            san(vec![srv_name(name.as_bytes())]).write(),
            srv_reference(name),
        )
    }
}

/// P1 to P11.
fn restrictions() -> Vec<Example> {
    let numbered = RFC_4985.iter().enumerate();
    let lines = numbered.map(|(index, (restriction, name, inside))| {
        let case = restricted(restriction, name);
        let length = case.san.len() as u32 - 2;
        let verdict = if *inside {
            [0, 0, 0, 2, length, 0]
        } else {
            bare(2)
        };
        example(&format!("P{}", index + 1), case, verdict)
    });
    lines.collect()
}

/// A SAN of one dNSName and one DNS reference.
fn dns(number: &str, presented: &str, reference: &str, matches: bool) -> Example {
    let san = san(vec![dns_name(presented.as_bytes())]).write();
    let length = presented.len() as u32 + 2;
    let verdict = if matches {
        [0, 0, 0, 2, length, 0]
    } else {
        bare(1)
    };
    example(
        number,
        case(san, record(DNS, b"", reference.as_bytes())),
        verdict,
    )
}

/// P12 to P15.
fn wildcards() -> Vec<Example> {
    vec![
        dns("P12", "*.branch.example", "desk.branch.example", true),
        dns("P13", "*.branch.example", "x.desk.branch.example", false),
        dns("P14", "*.branch.example", "branch.example", false),
        dns("P15", "bar.*.example", "bar.foo.example", false),
    ]
}

/// Document 01's SRVName `_m.b`.
const OLD_SRV_SAN: [u8; 22] = [
    0x30, 0x14, 0xA0, 0x12, 0x06, 0x08, 0x2B, 0x06, 0x01, 0x05, 0x05, 0x07, 0x08, 0x07, 0xA0, 0x06,
    0x16, 0x04, 0x5F, 0x6D, 0x2E, 0x62,
];

/// Request 1/13: "the m, `b` example of 01 must be rerun with reference and
/// name `b.c`".
const SRV_SAN: [u8; 24] = [
    0x30, 0x16, 0xA0, 0x14, 0x06, 0x08, 0x2B, 0x06, 0x01, 0x05, 0x05, 0x07, 0x08, 0x07, 0xA0, 0x08,
    0x16, 0x06, 0x5F, 0x6D, 0x2E, 0x62, 0x2E, 0x63,
];

const SRV_CONSTRAINTS: [u8; 24] = [
    0x30, 0x16, 0xA0, 0x14, 0x30, 0x12, 0xA0, 0x10, 0x06, 0x08, 0x2B, 0x06, 0x01, 0x05, 0x05, 0x07,
    0x08, 0x07, 0xA0, 0x04, 0x16, 0x02, 0x5F, 0x6D,
];

/// P16, and the examples that the document writes out in bytes.
fn written_out() -> Vec<Example> {
    let cn = record(CN, b"", b"a.b");
    let dns = record(DNS, b"", b"a.b");
    let long_form = vec![0x30, 0x81, 0x05, 0x82, 0x03, 0x61, 0x2E, 0x62];
    let mut table = vec![
        example(
            "P16",
            case(S.to_vec(), record(DNS, b"", b"A.B")),
            [0, 0, 0, 2, 5, 0],
        ),
        example("D1", case(Vec::new(), cn.clone()), [0, 0, 0, 4, 12, 0]),
        example("D2", case(vec![0x30, 0x02, 0x82, 0x00], cn), bare(1)),
        example("D3", case(long_form, dns.clone()), bare(3)),
        example("D4", case(vec![0x30, 0x00], dns), bare(3)),
    ];
    let [alone, kept, broken] = under_constraints(&SRV_SAN, b"b.c");
    table.push(example("D5", alone, [0, 0, 0, 2, 22, 0]));
    table.push(example("D6", kept, [0, 0, 0, 2, 22, 0]));
    table.push(example("D7", broken, bare(2)));
    let [alone, kept, broken] = under_constraints(&OLD_SRV_SAN, b"b");
    table.push(example("D5: one label", alone, bare(6)));
    table.push(example("D6: one label", kept, bare(6)));
    table.push(example("D7: one label", broken, bare(6)));
    table
}

/// An SRV reference of service m: without constraints, with the document's,
/// and "With the last byte 6E".
fn under_constraints(san: &[u8], domain: &[u8]) -> [Case; 3] {
    let alone = case(san.to_vec(), record(SRV, b"m", domain));
    let kept = Case {
        constraints: SRV_CONSTRAINTS.to_vec().into(),
        ..alone.clone()
    };
    let mut broken = kept.clone();
    broken.constraints.bytes[23] = 0x6E;
    [alone, kept, broken]
}

/// A domain of this many bytes, in labels of at most 50.
pub fn domain_of(length: usize) -> Vec<u8> {
    (1..=length)
        .map(|place| {
            if place % 50 == 0 && place < length {
                b'.'
            } else {
                b'd'
            }
        })
        .collect()
}

/// "Labels of 63 and 64 bytes, domains of 253 and 254, 16 and 17 records,
/// lengths 127/128 and 255/256." A record with such a label needs another one
/// since request 1/13.
fn sizes() -> Vec<Example> {
    let above = |length| [vec![b'l'; length].as_slice(), b".b"].concat();
    let mut table = vec![
        same_domain("D8: label of 63", &above(63), [0, 0, 0, 2, 67, 0]),
        same_domain("D8: label of 64", &above(64), bare(6)),
        same_domain("D8: label of 63 alone", &[b'l'; 63], bare(6)),
        same_domain("D8: domain of 253", &domain_of(253), [0, 0, 0, 4, 256, 0]),
        same_domain("D8: domain of 254", &domain_of(254), bare(6)),
    ];
    for (count, verdict) in [(16, [0, 0, 0, 2, 5, 0]), (17, bare(7))] {
        let references = record(DNS, b"", b"a.b").repeat(count);
        table.push(example(
            &format!("D8: {count} records"),
            case(S.to_vec(), references),
            verdict,
        ));
    }
    for (length, start) in [(127, 132), (128, 134), (255, 262), (256, 264)] {
        let entries = vec![email(&vec![b'e'; length]), dns_name(b"a.b")];
        let case = case(san(entries).write(), record(DNS, b"", b"a.b"));
        table.push(example(
            &format!("D8: length {length}"),
            case,
            [0, 0, 1, start, 5, 0],
        ));
    }
    table
}

/// The same text as presented name and as reference.
fn same_domain(number: &str, text: &[u8], verdict: [u32; 6]) -> Example {
    let san = san(vec![dns_name(text)]).write();
    example(number, case(san, record(DNS, b"", text)), verdict)
}

/// "Old faults that may not come back", save the last, which is one of the
/// listing.
fn old_faults() -> Vec<Example> {
    let mut faults = vec![example(
        "F1",
        restricted("host.branch.example", "_m.1host.branch.example"),
        bare(2),
    )];
    let inside = restricted("host.branch.example", "_m.www.host.branch.example");
    let length = inside.san.len() as u32 - 2;
    faults.push(example("F1: inside", inside, [0, 0, 0, 2, length, 0]));
    let cut = Case {
        subject: subject(vec![rdn(vec![common_name(0x0C, b"a.b\0.c")])]).write(),
        ..case(Vec::new(), record(CN, b"", b"a.b"))
    };
    faults.push(example("F2", cut, bare(1)));
    faults.push(example(
        "F3",
        excused(vec![dns_name(b"a.b"), srv_name(b"_n.b")]),
        [2, 0, 1, 0, 0, 0],
    ));
    faults.push(example(
        "F3: no SRV-ID",
        excused(vec![srv_name(b"a.b"), dns_name(b"a.b")]),
        bare(2),
    ));
    let san = san(vec![dns_name(b"c.d"), dns_name(b"a.b")]).write();
    let references = [record(DNS, b"", b"a.b"), record(DNS, b"", b"c.d")].concat();
    faults.push(example("F4", case(san, references), [0, 0, 1, 7, 5, 0]));
    faults
}

/// A DNS reference that matches, and constraints that permit only service m.
fn excused(entries: Vec<Node>) -> Case {
    Case {
        constraints: SRV_CONSTRAINTS.to_vec().into(),
        ..case(san(entries).write(), record(DNS, b"", b"a.b"))
    }
}

/// A subject whose only attribute is a CN of this value.
fn named(value: &str) -> Vec<u8> {
    subject(vec![rdn(vec![common_name(0x0C, value.as_bytes())])]).write()
}

/// No SAN, one CN and one CN reference.
fn cn(number: &str, value: &str, reference: &str, verdict: [u32; 6]) -> Example {
    let case = Case {
        subject: named(value),
        ..case(Vec::new(), record(CN, b"", reference.as_bytes()))
    };
    example(number, case, verdict)
}

/// "From now on a wildcard needs at least two labels after it, in DNS-ID and
/// CN-ID [...] A dNSName that is no longer a DNS-ID still blocks the CN."
fn short_wildcards() -> Vec<Example> {
    let short = || san(vec![dns_name(b"*.b")]).write();
    let blocked = case(short(), record(CN, b"", b"a.b"));
    let behind = san(vec![dns_name(b"*.b"), dns_name(b"a.b")]).write();
    vec![
        dns("L1", "*.example", "branch.example", false),
        dns("L2", "*.b", "a.b", false),
        dns("L3", "*.b.c", "a.b.c", true),
        dns("L4", "*.b.c", "b.c", false),
        example("L5", blocked, bare(1)),
        example(
            "L6",
            case(behind, record(DNS, b"", b"a.b")),
            [0, 0, 1, 7, 5, 0],
        ),
        cn("L7", "*.b", "a.b", bare(1)),
        cn("L8", "*.b.c", "a.b.c", [0, 0, 0, 4, 14, 0]),
        cn("L9", "*.b.c", "b.c", bare(1)),
    ]
}

/// "a reference record whose domain has one label is refused with 6", whatever
/// its kind, and one such record beside good ones refuses all.
fn one_label_records() -> Vec<Example> {
    let kinds = [
        (DNS, "", dns_name(b"b")),
        (SRV, "m", srv_name(b"_m.b")),
        (URI, "m", uri_name(b"m://b")),
        (CN, "", email(b"")),
    ];
    let mut table = Vec::new();
    for (kind, service, name) in kinds {
        for (place, references) in among_good(record(kind, service.as_bytes(), b"b")) {
            let case = Case {
                san: san(vec![name.clone()]).write(),
                subject: named("b"),
                constraints: Chain::default(),
                references,
            };
            table.push(example(&format!("L10: kind {kind} {place}"), case, bare(6)));
        }
    }
    table
}

/// A record alone, before a good one and behind one.
fn among_good(bad: Vec<u8>) -> [(&'static str, Vec<u8>); 3] {
    let good = record(DNS, b"", b"a.b");
    [
        ("alone", bad.clone()),
        ("first", [bad.clone(), good.clone()].concat()),
        ("last", [good, bad].concat()),
    ]
}

/// "Restrictions and presented names without a wildcard may keep one label".
fn one_label_names() -> Vec<Example> {
    let under = |restriction: &[u8]| Case {
        constraints: constraints(vec![subtree(srv_name(restriction))], Vec::new())
            .write()
            .into(),
        ..case(OLD_SRV_SAN.to_vec(), record(DNS, b"", b"a.b"))
    };
    vec![
        example("L11", under(b"b"), bare(1)),
        example("L12", under(b"_m.b"), bare(1)),
        example("L13", under(b"c"), bare(2)),
        dns("L14", "b", "a.b", false),
    ]
}

/// Request 2/13: "A certificate with dNSName `10.4.0.7` matched a kiosk whose
/// server was set by address. [...] the last label of a domain may not be all
/// digits." A name that is none matches nothing and still blocks the CN.
fn addresses() -> Vec<Example> {
    let names = [
        ("A1", dns_name(b"10.4.0.7"), DNS, "", "10.4.0.7"),
        ("A2", dns_name(b"a.7"), DNS, "", "a.7"),
        ("A3", dns_name(b"7"), DNS, "", "7"),
        ("A4", dns_name(b"*.a.7"), DNS, "", "x.a.7"),
        ("A5", uri_name(b"x://10.4.0.7"), URI, "x", "10.4.0.7"),
        ("A6", srv_name(b"_m.10.4.0.7"), SRV, "m", "10.4.0.7"),
    ];
    let mut table = Vec::new();
    for (number, name, kind, service, domain) in names {
        let asked = |domain: &str| record(kind, service.as_bytes(), domain.as_bytes());
        let asked = [
            ("the address", asked(domain), 6),
            ("another name", asked("a.b"), 1),
            ("CN", record(CN, b"", b"a.b"), 1),
        ];
        for (what, references, answer) in asked {
            let case = case(san(vec![name.clone()]).write(), references);
            table.push(example(&format!("{number}: {what}"), case, bare(answer)));
        }
    }
    let srv = san(vec![srv_name(b"_m.10.4.0.7")]).write();
    let references = record(DNS, b"", b"a.b");
    table.push(example("A6: DNS", case(srv, references), bare(1)));
    table.push(cn("A7", "10.4.0.7", "10.4.0.7", bare(6)));
    table.push(cn("A8", "10.4.0.7", "a.b", bare(1)));
    table.push(cn("A9", "*.a.7", "x.a.7", bare(6)));
    table
}

/// "Add cases `10.4.0.7`, `4.example` and `a.7b`": of these the latter two are
/// domains still, and so are others whose last label has one byte that is no
/// digit. A port is no label.
fn next_to_addresses() -> Vec<Example> {
    let ending = |before: usize, last: &[u8]| [domain_of(before).as_slice(), b".", last].concat();
    vec![
        dns("A10", "4.example", "4.example", true),
        dns("A11", "a.7b", "a.7b", true),
        dns("A12", "*.4.example", "x.4.example", true),
        dns("A13", "a.0x7", "A.0X7", true),
        dns("A14", "7.7-7", "7.7-7", true),
        dns("A15", "*.0.b7", "10.0.B7", true),
        cn("A16", "4.example", "4.example", [0, 0, 0, 4, 18, 0]),
        cn("A17", "a.7b", "a.7b", [0, 0, 0, 4, 13, 0]),
        cn("A18", "*.4.7b", "a.4.7b", [0, 0, 0, 4, 15, 0]),
        uri("A19", "x://4.example", "4.example", [0, 0, 0, 2, 15, 0]),
        uri("A20", "x://a.7b", "a.7b", [0, 0, 0, 2, 10, 0]),
        uri("A21", "x://a.b:7", "a.b", [0, 0, 0, 2, 11, 0]),
        uri("A22", "x://7@4.7b:10/7", "4.7b", [0, 0, 0, 2, 17, 0]),
        uri("A23", "x://a.7:7", "a.7", bare(6)),
        same_domain("A24", &ending(189, &[b'9'; 63]), bare(6)),
        same_domain("A25", &ending(251, b"9"), bare(6)),
        same_domain("A26", &ending(189, &mostly_nines()), [0, 0, 0, 4, 256, 0]),
        same_domain("A27", &ending(251, b"z"), [0, 0, 0, 4, 256, 0]),
    ]
}

/// A label of 63 bytes, the last of which alone is no digit.
fn mostly_nines() -> [u8; 63] {
    let mut label = [b'9'; 63];
    label[62] = b'z';
    label
}

/// A SAN of one URI and one URI reference of scheme x.
fn uri(number: &str, text: &str, domain: &str, verdict: [u32; 6]) -> Example {
    let san = san(vec![uri_name(text.as_bytes())]).write();
    example(
        number,
        case(san, record(URI, b"x", domain.as_bytes())),
        verdict,
    )
}

/// "This holds for [...] records (6)", whatever the kind, and one such record
/// beside good ones refuses all.
fn address_records() -> Vec<Example> {
    let mut table = Vec::new();
    for (kind, service) in [(DNS, ""), (SRV, "m"), (URI, "m"), (CN, "")] {
        for domain in ["10.4.0.7", "a.7", "a.b.10"] {
            let bad = record(kind, service.as_bytes(), domain.as_bytes());
            for (place, references) in among_good(bad) {
                let number = format!("A28: kind {kind}, {domain} {place}");
                table.push(example(&number, case(S.to_vec(), references), bare(6)));
            }
        }
        for domain in ["4.example", "a.7b"] {
            let references = record(kind, service.as_bytes(), domain.as_bytes());
            let number = format!("A29: kind {kind}, {domain}");
            table.push(example(&number, case(S.to_vec(), references), bare(1)));
        }
    }
    table
}

/// A SAN of one SRVName under one permitted restriction, for an SRV reference
/// and the reference DNS `a.b`.
fn srv(number: &str, name: &str, permitted: &str, asked: &str, verdict: [u32; 6]) -> Example {
    let (service, domain) = asked.split_once('.').expect("a service and a domain");
    let references = [
        record(SRV, service.as_bytes(), domain.as_bytes()),
        record(DNS, b"", b"a.b"),
    ];
    let side = vec![subtree(srv_name(permitted.as_bytes()))];
    let case = Case {
        constraints: constraints(side, Vec::new()).write().into(),
        ..case(
            san(vec![srv_name(name.as_bytes())]).write(),
            references.concat(),
        )
    };
    example(number, case, verdict)
}

/// "This holds for [...] SRVNames (no SRV-ID, so 2 where SRVName subtrees
/// exist)." A service may be all digits.
fn address_srv_names() -> Vec<Example> {
    let excluded = Case {
        constraints: constraints(Vec::new(), vec![subtree(srv_name(b"_n"))])
            .write()
            .into(),
        ..case(
            san(vec![dns_name(b"a.b"), srv_name(b"_m.7")]).write(),
            record(DNS, b"", b"a.b"),
        )
    };
    vec![
        srv("A30", "_m.10.4.0.7", "_m", "m.a.b", bare(2)),
        srv("A31", "_m.a.7", "_m", "m.a.b", bare(2)),
        example("A32", excluded, [2, 0, 1, 0, 0, 0]),
        srv(
            "A33",
            "_m.4.example",
            "_m",
            "m.4.example",
            [0, 0, 0, 2, 28, 0],
        ),
        srv("A34", "_m.a.7b", "7b", "m.A.7B", [0, 0, 0, 2, 23, 0]),
        srv("A35", "_7.a.b", "_7", "7.a.b", [0, 0, 0, 2, 22, 0]),
        srv("A36", "_7.a.b", "_7.b", "7.a.b", [0, 0, 0, 2, 22, 0]),
        srv("A37", "_7.4.example", "_7", "7.a.b", bare(1)),
    ]
}

/// "This holds for [...] restriction texts (5)". Request 6/13 asks the same of a
/// dNSName. Restrictions of other forms are "read and passed over" as before.
fn address_restrictions() -> Vec<Example> {
    let under = |number: &str, base: Node, verdict: [u32; 6]| {
        let sides = [("permitted", 0), ("excluded", 1)];
        sides.map(|(side, excluded)| {
            let mut subtrees = [Vec::new(), Vec::new()];
            subtrees[excluded].push(subtree(base.clone()));
            let [permitted, excluded] = subtrees;
            let case = Case {
                constraints: constraints(permitted, excluded).write().into(),
                ..case(S.to_vec(), record(DNS, b"", b"a.b"))
            };
            example(&format!("{number} {side}"), case, verdict)
        })
    };
    let kept = [0, 0, 0, 2, 5, 0];
    [
        under("A38: 10.4.0.7", srv_name(b"10.4.0.7"), bare(5)),
        under("A38: 7", srv_name(b"7"), bare(5)),
        under("A38: _m.7", srv_name(b"_m.7"), bare(5)),
        under("A38: _7.a.7", srv_name(b"_7.a.7"), bare(5)),
        under("A39: _7", srv_name(b"_7"), kept),
        under("A39: 4.example", srv_name(b"4.example"), kept),
        under("A39: _m.a.7b", srv_name(b"_m.a.7b"), kept),
        under("A40: dNSName", dns_name(b"10.4.0.7"), bare(5)),
        under("A40: URI", uri_name(b"x://10.4.0.7"), kept),
    ]
    .concat()
}

/// Request 3/13 names no bytes. These are strings of several rows, of none, and
/// some that are refused, for the desk to page through. Since request 6/13 the
/// excluded dNSName `a.b` is broken by a dNSName there.
fn viewed() -> Vec<Example> {
    let all = Case {
        subject: THREE_ATTRIBUTES.to_vec(),
        constraints: THREE_SUBTREES.to_vec().into(),
        ..case(TWO_ENTRIES.to_vec(), record(DNS, b"", b"b.c"))
    };
    let no_san = Case {
        san: Vec::new(),
        references: record(CN, b"", b"a.b"),
        ..all.clone()
    };
    let of_subject = |subject: &[u8]| Case {
        subject: subject.to_vec(),
        ..all.clone()
    };
    let of_constraints = |constraints: &[u8]| Case {
        constraints: constraints.to_vec().into(),
        ..all.clone()
    };
    let of_san = |san: &[u8]| Case {
        san: san.to_vec(),
        ..all.clone()
    };
    let second_entry = [0, 0, 1, 7, 5, 0];
    vec![
        example("V1", all.clone(), bare(2)),
        example("V2", no_san, [0, 0, 0, 14, 12, 0]),
        example("V3", of_subject(b"\x30\x00"), bare(2)),
        example("V4", of_constraints(b"\x30\x00"), bare(5)),
        example("V5", of_subject(b""), bare(4)),
        example("V6", of_constraints(b""), second_entry),
        example("V7", of_san(b"\x30\x04\x82\x00\x82\x00"), bare(2)),
        example("V8", of_san(b"\x30\x02\x82\x00\x00"), bare(3)),
        example("V9", of_san(&THREE_ATTRIBUTES), bare(3)),
        example("V10", of_subject(&THREE_SUBTREES), bare(4)),
        example("V11", of_constraints(&TWO_ENTRIES), bare(5)),
    ]
}
