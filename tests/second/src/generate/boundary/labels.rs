//! Request 1/13: one label and two, after a wildcard, in a record, in a
//! presented name and in a restriction.

use super::{base, constrained, mixed, permitted, put, same, small, wildcard, Case, Taker};
use crate::longest;
use crate::records::kind::{CN, DNS, SRV, URI};
use crate::records::MOST_RECORDS;
use crate::tree::*;

/// Labels that may stand alone.
const LABELS: [&[u8]; 6] = [b"b", b"B", b"0x", b"example", b"xn--p1ai", b"a-b"];

/// Hands over the lines about the number of labels.
pub fn each(take: Taker) {
    let long = [vec![b'l'; 63], mixed(63), mixed(62)];
    for label in LABELS.into_iter().chain(long.iter().map(Vec::as_slice)) {
        wildcards(take, label);
        records(take, label);
        names(take, label);
    }
    places(take);
    several(take);
    order(take);
}

/// One to three labels that end in this one.
fn domains(label: &[u8]) -> [Vec<u8>; 3] {
    [b"".as_slice(), b"c.", b"d.c."].map(|before| [before, label].concat())
}

/// "a wildcard needs at least two labels after it, in DNS-ID and CN-ID": for
/// references with as many labels as the name, with one less and one more, and
/// for one that differs in a label behind the wildcard.
fn wildcards(take: Taker, label: &[u8]) {
    for rest in domains(label) {
        for kind in [DNS, CN] {
            take(wildcard(kind, &rest));
            let whole = [b"a.", rest.as_slice()].concat();
            let below = [b"x.a.", rest.as_slice()].concat();
            let other = [rest.as_slice(), b"x"].concat();
            for reference in [rest.clone(), below, other, whole.to_ascii_uppercase()] {
                let mut line = wildcard(kind, &rest);
                line.1.references = record(kind, b"", &reference);
                take(line);
            }
        }
        blocked(take, &rest);
    }
}

/// "A dNSName that is no longer a DNS-ID still blocks the CN": behind an entry
/// that does not, and before one.
fn blocked(take: Taker, rest: &[u8]) {
    let wildcard = || dns_name(&[b"*.", rest].concat());
    for entries in [
        vec![wildcard()],
        vec![wildcard(), email(b"")],
        vec![ip_address(b""), wildcard()],
    ] {
        let case = Case {
            san: san(entries).write(),
            references: record(CN, b"", b"a.b"),
            ..base()
        };
        take(("CN beside a wildcard".to_string(), case));
    }
}

/// "a reference record whose domain has one label is refused with 6": alone,
/// and beside others; and the same with two labels and with three. A name that
/// the record asks for is always there, so that a record let through matches.
fn records(take: Taker, label: &[u8]) {
    const PLACES: [(usize, usize); 7] =
        [(0, 1), (0, 2), (1, 2), (1, 3), (0, 16), (7, 16), (15, 16)];
    for domain in domains(label) {
        for kind in [DNS, SRV, URI, CN] {
            for (place, count) in PLACES {
                let mut line = same(kind, b"m", &domain);
                let mut records = vec![same(kind, b"m", b"a.b").1.references; count];
                records[place] = line.1.references;
                line.1.references = records.concat();
                line.0 = format!("{} as record {place} of {count}", line.0);
                take(line);
            }
        }
    }
}

/// "Restrictions and presented names without a wildcard may keep one label":
/// for records that such names do not match.
fn names(take: Taker, label: &[u8]) {
    for domain in domains(label) {
        let below = [b"a.", domain.as_slice()].concat();
        for (kind, service) in [(DNS, ""), (SRV, "m"), (URI, "m"), (CN, "")] {
            let mut line = same(kind, b"m", &domain);
            line.1.references = record(kind, service.as_bytes(), &below);
            take(line);
        }
        let name = srv_name(&[b"_m.", below.as_slice()].concat());
        let references = [record(SRV, b"m", &below)];
        for restriction in [domain.clone(), [b"_m.", domain.as_slice()].concat()] {
            let side = || vec![subtree(srv_name(&restriction))];
            for (permitted, excluded) in [(side(), Vec::new()), (Vec::new(), side())] {
                let mut line = small("name below a restriction", name.clone(), &references);
                line.1.constraints = constraints(permitted, excluded).write().into();
                take(line);
            }
        }
        constrained(b"m", &domain).into_iter().for_each(&mut *take);
    }
}

/// A record of one label at each place among good ones of all kinds, each of
/// which matches.
fn places(take: Taker) {
    let kinds = [(DNS, ""), (SRV, "m"), (URI, "m"), (CN, "")];
    let good = |place: usize| {
        let (kind, service) = kinds[place % 4];
        record(kind, service.as_bytes(), b"a.b")
    };
    let names = vec![srv_name(b"_m.a.b"), uri_name(b"m://a.b"), dns_name(b"a.b")];
    for (kind, service) in kinds {
        for count in 1..=MOST_RECORDS {
            for place in 0..count {
                let mut records: Vec<Vec<u8>> = (0..count).map(good).collect();
                records[place] = record(kind, service.as_bytes(), b"b");
                let case = Case {
                    san: san(names.clone()).write(),
                    references: records.concat(),
                    ..base()
                };
                take((format!("one label, record {place} of {count}"), case));
            }
        }
    }
}

/// Wildcards over one label and over two, and names without one, in all pairs:
/// in a SAN, and in the sets of a subject.
fn several(take: Taker) {
    const TEXTS: [&[u8]; 7] = [b"*.b", b"*.C", b"*.b.C", b"*.c.b", b"a.b", b"A.b.c", b"b"];
    const ASKED: [&[u8]; 4] = [b"a.B", b"b.c", b"a.b.c", b"a.c.b"];
    for first in TEXTS {
        for second in TEXTS {
            for asked in ASKED {
                let pair = [first, second];
                let case = Case {
                    san: san(pair.map(dns_name).into()).write(),
                    references: [record(DNS, b"", b"x.b"), record(DNS, b"", asked)].concat(),
                    ..base()
                };
                take(("two dNSNames".to_string(), case));
                let sets = pair.map(|text| rdn(vec![common_name(0x16, text)]));
                let case = Case {
                    san: Vec::new(),
                    subject: subject(sets.into()).write(),
                    references: [record(CN, b"", b"x.b"), record(CN, b"", asked)].concat(),
                    ..base()
                };
                take(("two CNs".to_string(), case));
            }
        }
    }
}

/// "7 for any of the four inputs, then 6, 3, 4, 5, 2": a record of one label
/// beside each other reason for a refusal.
fn order(take: Taker) {
    for (input, length) in [(0, 2), (1, 2), (2, 2), (0, longest::SAN + 1)] {
        let mut case = base();
        case.references.extend(record(DNS, b"", b"b"));
        put(&mut case, input, vec![0x30; length]);
        take(("one label, and another refusal".to_string(), case));
    }
    let mut broken = base();
    broken.san = san(vec![srv_name(b"_n.b")]).write();
    broken.constraints = permitted(srv_name(b"_m")).into();
    broken.references = record(SRV, b"n", b"b");
    take(("one label, and a broken name".to_string(), broken));
    for more in [0, 1] {
        let mut references = record(DNS, b"", b"b").repeat(17);
        references.truncate(longest::REFERENCES + more);
        take((
            format!("records of one label, {more} past the limit"),
            Case {
                references,
                ..base()
            },
        ));
    }
}
