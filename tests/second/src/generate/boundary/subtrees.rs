//! Request 6/13: dNSName subtrees. Every small text as one, names below, beside
//! and above one, and what a wildcard breaks.

use super::{base, excluded, labels_of, mixed, permitted, texts, Case, Taker};
use crate::examples::{domain_of, LABEL};
use crate::generate::flips::CASE_BIT;
use crate::generate::words::{deep_domain, joined};
use crate::records::kind::{CN, DNS, URI};
use crate::tree::*;

/// Hands over the lines about dNSName subtrees.
pub fn each(take: Taker) {
    small_texts(take);
    small_domains(take);
    lengths(take);
    letters(take);
    every_byte(take);
    no_dns_ids(take);
    far(take);
    two_sides(take);
    other_names(take);
}

/// A dNSName behind another one, under one subtree, permitted and excluded. The
/// first name matches.
fn restricted(take: Taker, name: &[u8], subtree: &[u8]) {
    for string in [permitted(dns_name(subtree)), excluded(dns_name(subtree))] {
        let case = Case {
            san: san(vec![srv_name(b"_m.b"), dns_name(name)]).write(),
            constraints: string.into(),
            references: record(DNS, b"", b"a.b.c"),
            ..base()
        };
        take((
            format!("{} bytes under {}", name.len(), subtree.len()),
            case,
        ));
    }
}

/// Every small text as a subtree, for a name that lies in many of them and for a
/// wildcard; and every small text as a name, in a subtree and outside.
fn small_texts(take: Taker) {
    for text in texts(b"a.-*0", 4) {
        restricted(take, b"a.a.0a", &text);
        restricted(take, b"*.a.a", &text);
        restricted(take, &text, b"a");
    }
    for text in texts(b"aA._", 4) {
        restricted(take, b"A.a.a", &text);
        restricted(take, &text, b"");
        restricted(take, &text, b"q.r");
    }
}

/// Every domain of up to three labels out of three, and each with a wildcard,
/// under every such domain of up to four.
fn small_domains(take: Taker) {
    let mut domains: Vec<Vec<Vec<u8>>> =
        vec![[b"a".as_slice(), b"b", b"ab"].map(<[u8]>::to_vec).into()];
    for _ in 0..3 {
        let longest = &domains[domains.len() - 1];
        let longer = longest.iter().flat_map(|domain| {
            let joined = |label: &[u8]| [label, b".", domain].concat();
            [joined(b"a"), joined(b"B"), joined(b"ab")]
        });
        let longer = longer.collect();
        domains.push(longer);
    }
    let subtrees: Vec<&Vec<u8>> = domains.iter().flatten().collect();
    for name in domains[..3].iter().flatten().step_by(2) {
        let wildcard = [b"*.", name.as_slice()].concat();
        for subtree in &subtrees {
            // Domains that end otherwise have little to tell.
            if subtree.last() == name.last() {
                restricted(take, name, subtree);
                restricted(take, &wildcard, subtree);
            }
        }
    }
}

/// Subtrees and names of every length near a limit, and wildcards next to 253
/// bytes with a subtree one label longer.
fn lengths(take: Taker) {
    const LENGTHS: [usize; 18] = [
        1, 2, 49, 50, 61, 62, 63, 64, 65, 126, 127, 128, 129, 251, 252, 253, 254, 255,
    ];
    for length in LENGTHS {
        for domain in [vec![b'l'; length], mixed(length), labels_of(length)] {
            let below = [b"x.", domain.as_slice()].concat();
            let wildcard = [b"*.", domain.as_slice()].concat();
            restricted(take, &domain, &domain);
            restricted(take, &below, &domain);
            restricted(take, &domain, &below);
            restricted(take, &wildcard, &domain);
            restricted(take, &wildcard, &below);
        }
    }
    for length in 185..=253 {
        // A wildcard over a domain of this many bytes, and labels of one to 63.
        let domain = domain_of(length);
        let wildcard = [b"*.", domain.as_slice()].concat();
        for label in [1, 2, 252_usize.saturating_sub(length), 253 - length, 63, 64] {
            let subtree = [&vec![b'w'; label], b".".as_slice(), &domain].concat();
            restricted(take, &wildcard, &subtree);
        }
    }
    for length in [3, 50, 100, 186, 187, 188, 189, 190] {
        let domain = labels_of(length);
        let wildcard = [b"*.", domain.as_slice()].concat();
        for label in [1, 2, 31, 32, 61, 62, 63, 64] {
            restricted(take, &wildcard, &joined(mixed(label), &domain));
        }
    }
    for length in [249, 250, 251, 252] {
        let domain = labels_of(length);
        let wildcard = [b"*.", domain.as_slice()].concat();
        for label in [b"x".as_slice(), b"X9", b"9", b"xyz"] {
            restricted(take, &wildcard, &joined(label.to_vec(), &domain));
            let capitals = domain.to_ascii_uppercase();
            restricted(take, &wildcard, &joined(label.to_vec(), &capitals));
        }
    }
    for labels in [2, 3, 4, 8, 9, 16, 17, 63, 64, 65, 126, 127] {
        let name = deep_domain(labels);
        let wildcard = [b"*", &name[1..]].concat();
        for last in [1, 2, labels - 1, labels, labels + 1] {
            restricted(take, &name, &deep_domain(last));
            restricted(take, &wildcard, &deep_domain(last));
            restricted(take, &wildcard, &[b"x", &deep_domain(last)[1..]].concat());
        }
    }
}

/// The text with bit 20 (hex) turned in each place, and with another letter
/// there.
fn changed(text: &[u8]) -> Vec<Vec<u8>> {
    let change = |place: usize| {
        let mut turned = text.to_vec();
        turned[place] ^= CASE_BIT;
        let mut other = text.to_vec();
        other[place] = if text[place] == b'q' { b'z' } else { b'q' };
        [turned, other]
    };
    (0..text.len()).flat_map(change).collect()
}

/// "Letters compare without case, label by label": subtrees that are the same as
/// the name, as its last labels, or as one label and what a wildcard leaves, save
/// for one byte; and names with one byte changed.
fn letters(take: Taker) {
    let long = [&LABEL[..], b".b"].concat();
    for domain in [b"k-Z.1s.b".as_slice(), b"XN--p1.A-b", &long] {
        let below = [b"x.", domain].concat();
        let wildcard = [b"*.", domain].concat();
        for other in changed(domain) {
            restricted(take, domain, &other);
            restricted(take, &below, &other);
            restricted(take, &wildcard, &other);
            restricted(take, &wildcard, &[b"y.", other.as_slice()].concat());
            restricted(take, &other, domain);
            restricted(take, &[b"*.", other.as_slice()].concat(), &below);
        }
        for name in [domain, &below, &wildcard] {
            for subtree in [domain.to_ascii_uppercase(), below.to_ascii_lowercase()] {
                restricted(take, name, &subtree);
                restricted(take, &name.to_ascii_uppercase(), &subtree);
            }
        }
    }
}

/// Every byte in a subtree and in a name, at either end of a label and before it.
fn every_byte(take: Taker) {
    for value in 0..=255 {
        for place in 0..4 {
            let mut text = *b"ab.c";
            text[place] = value;
            restricted(take, b"x.ab.c", &text);
            restricted(take, &text, b"c");
        }
        restricted(take, &[b"x", &[value][..], b"a.b"].concat(), b"a.b");
        restricted(take, &[&[value][..], b".a.b"].concat(), b"a.b");
        restricted(take, &[&[value][..], b".a.b"].concat(), b"x.a.b");
        restricted(take, &[&[value][..], b".a.b"].concat(), b"y.x.a.b");
    }
}

/// "With any dNSName subtree in a string, a dNSName that is no DNS-ID breaks it",
/// on either side and whatever stands beside it; without one it breaks nothing.
fn no_dns_ids(take: Taker) {
    const TEXTS: [&str; 20] = [
        "", "*", "*.", "*.b", "*.*.b", "*.a.7", "10.4.0.7", "7", "a.b.", ".a.b", "a..b", "x.*.a.b",
        "a*.a.b", "*a.a.b", "**.a.b", "_m.b", "-a.b", "a-.b", "a.b ", "a_b.c",
    ];
    let strings = [
        permitted(dns_name(b"")),
        permitted(dns_name(b"b")),
        excluded(dns_name(b"q.r")),
        permitted(srv_name(b"_m")),
        excluded(srv_name(b"_n")),
        excluded(email(b"")),
        constraints(
            vec![subtree(srv_name(b"_m"))],
            vec![subtree(dns_name(b"q"))],
        )
        .write(),
    ];
    for text in TEXTS {
        for string in &strings {
            for references in [record(DNS, b"", b"a.b"), record(CN, b"", b"a.b")] {
                let case = Case {
                    san: san(vec![dns_name(text.as_bytes())]).write(),
                    constraints: string.clone().into(),
                    references,
                    ..base()
                };
                take((format!("{text} is no DNS-ID"), case));
            }
        }
    }
}

/// A subtree that decides behind many that do not, and a name that breaks it
/// behind many that do not.
fn far(take: Taker) {
    const BEFORE: [usize; 20] = [
        1, 2, 3, 7, 8, 9, 15, 16, 31, 32, 63, 64, 127, 128, 255, 256, 257, 512, 700, 1_600,
    ];
    for before in BEFORE {
        for idle in [dns_name(b"i.z"), srv_name(b"_i"), email(b"")] {
            if before * idle.write().len() > 12_000 {
                continue;
            }
            for text in [
                b"b".as_slice(),
                b"a.b",
                b"x.a.b",
                b"y.x.a.b",
                b"ab",
                b"",
                b".b",
            ] {
                let mut side = vec![subtree(idle.clone()); before];
                side.push(subtree(dns_name(text)));
                let wide = vec![subtree(dns_name(b""))];
                for (one, other) in [(side.clone(), vec![]), (vec![], side.clone()), (wide, side)] {
                    let case = Case {
                        san: san(vec![email(b""), dns_name(b"*.a.b")]).write(),
                        constraints: constraints(one, other).write().into(),
                        references: record(DNS, b"", b"x.a.b"),
                        ..base()
                    };
                    take((format!("dNSName subtree behind {before}"), case));
                }
            }
        }
        for idle in [dns_name(b"x.b"), srv_name(b"_m.b"), email(b"")] {
            if before * idle.write().len() > 16_000 {
                continue;
            }
            for last in [b"c".as_slice(), b"*.b", b"*.x.b", b"X.B"] {
                let mut entries = vec![idle.clone(); before];
                entries.push(dns_name(last));
                for string in [permitted(dns_name(b"b")), excluded(dns_name(b"a.x.b"))] {
                    let case = Case {
                        san: san(entries.clone()).write(),
                        constraints: string.into(),
                        references: record(DNS, b"", b"x.b"),
                        ..base()
                    };
                    take((format!("dNSName behind {before}"), case));
                }
            }
        }
    }
}

/// Permitted and excluded subtrees of both forms beside each other.
fn two_sides(take: Taker) {
    let bases = || {
        let dns = ["", "b", "a.b", "x.a.b", "c"].map(|text| dns_name(text.as_bytes()));
        let srv = ["_m", "b", "_n"].map(|text| srv_name(text.as_bytes()));
        dns.into_iter()
            .chain(srv)
            .map(|base| vec![subtree(base)])
            .chain([Vec::new()])
    };
    for one in bases() {
        for two in bases() {
            for other in bases() {
                if one.is_empty() && two.is_empty() && other.is_empty() {
                    continue;
                }
                let side = [one.clone(), two.clone()].concat();
                let case = Case {
                    san: san(vec![
                        dns_name(b"*.a.b"),
                        srv_name(b"_m.a.b"),
                        dns_name(b"a.b"),
                    ])
                    .write(),
                    constraints: constraints(side, other).write().into(),
                    ..base()
                };
                take(("both sides, both forms".to_string(), case));
            }
        }
    }
}

/// "The CN stays free", and URIs and other forms do, with and without a dNSName
/// beside them.
fn other_names(take: Taker) {
    for string in [
        excluded(dns_name(b"")),
        permitted(dns_name(b"c")),
        excluded(dns_name(b"a.b")),
    ] {
        for entries in [
            vec![],
            vec![email(b"a.b")],
            vec![ip_address(b"a.b")],
            vec![uri_name(b"h://a.b")],
            vec![uri_name(b"a.b")],
            vec![uri_name(b"h://a.b"), dns_name(b"a.c")],
            vec![
                other_name(&[0x2A], bytes(0x16, b"a.b")),
                uri_name(b"h://a.b"),
            ],
        ] {
            for (kind, service) in [(DNS, ""), (URI, "h"), (CN, "")] {
                let case = Case {
                    san: match entries.is_empty() {
                        true => Vec::new(),
                        false => san(entries.clone()).write(),
                    },
                    constraints: string.clone().into(),
                    references: record(kind, service.as_bytes(), b"a.b"),
                    ..base()
                };
                take(("names that are free".to_string(), case));
            }
        }
    }
}
