//! A fixed table of cases: every limit, every tag, every small text.

pub mod edges;
mod far;
mod issuers;
mod labels;
mod lengths;
mod letters;
mod many;
mod numbers;
mod rows;
mod subtrees;
mod uris;
pub mod writers;

use super::draft::{padded_constraints, padded_san, padded_subject};
use super::mutate::{nth, size};
use super::words::deep_domain;
use super::{Case, Chain};
use crate::examples::{domain_of, J, S};
use crate::longest;
use crate::records::kind::{CN, DNS, SRV, URI};
use crate::records::RECORD;
use crate::tree::*;

/// A case and what it is a case of.
pub type Line = (String, Case);

/// Takes the lines of the table one by one.
type Taker<'t> = &'t mut dyn FnMut(Line);

/// Hands over the whole table, line by line.
pub fn each(take: Taker) {
    longest_inputs(take);
    record_counts(take);
    record_fillers(take);
    name_lengths(take);
    label_counts(take);
    entry_counts(take);
    answer_order(take);
    broken_names(take);
    sets(take);
    every_tag(take);
    every_length(take);
    every_child(take);
    every_bit(take);
    every_byte(take);
    small_texts(take);
    edges::each(take);
    far::each(take);
    issuers::each(take);
    labels::each(take);
    lengths::each(take);
    letters::each(take);
    many::each(take);
    numbers::each(take);
    rows::each(take);
    subtrees::each(take);
    uris::each(take);
}

/// S, J and the DNS reference `a.b`.
fn base() -> Case {
    let references = record(DNS, b"", b"a.b");
    Case {
        san: S.to_vec(),
        subject: J.to_vec(),
        constraints: Chain::default(),
        references,
    }
}

/// Each input one byte below its limit, at it, and past it.
fn longest_inputs(take: Taker) {
    for more in 0..4 {
        let what = |input: &str| format!("{input} of its limit - 1 + {more}");
        let san = padded_san(longest::SAN - 1 + more, b"a.b").write();
        take((what("SAN"), Case { san, ..base() }));
        let subject = padded_subject(longest::SUBJECT - 1 + more, b"a.b").write();
        let references = record(CN, b"", b"a.b");
        take((
            what("subject"),
            Case {
                san: Vec::new(),
                subject,
                references,
                ..base()
            },
        ));
        let constraints = padded_constraints(longest::CONSTRAINTS - 1 + more)
            .write()
            .into();
        take((
            what("constraints"),
            Case {
                constraints,
                ..base()
            },
        ));
        let mut references = base().references.repeat(17);
        references.truncate(longest::REFERENCES - 1 + more);
        take((
            what("references"),
            Case {
                references,
                ..base()
            },
        ));
    }
}

/// 0 to 17 records, and totals next to them.
fn record_counts(take: Taker) {
    let mut references = Vec::new();
    for count in 0..=17 {
        take((
            format!("{count} records"),
            Case {
                references: references.clone(),
                ..base()
            },
        ));
        references.push(0);
        take((
            format!("{count} records and a byte"),
            Case {
                references: references.clone(),
                ..base()
            },
        ));
        references.pop();
        references.extend(record(DNS, b"", if count == 15 { b"a.b" } else { b"c.d" }));
    }
}

/// Records of every kind with texts of no bytes, of few and of as many as fit,
/// as they are and with one byte changed at either end of a text or a filler.
fn record_fillers(take: Taker) {
    for kind in [DNS, SRV, URI, CN] {
        for service in [0, 1, 61, 62, 63] {
            for domain in [0, 1, 3, 127, 200, 252, 253] {
                let record = record(kind, &vec![b's'; service], &labels_of(domain));
                let (service, domain) = (4 + service, 67 + domain);
                for place in [1, service - 1, service, 66, domain - 1, domain, 319, 320] {
                    take(second_record(&record, place));
                }
            }
        }
    }
}

/// A domain of this many bytes, of two labels or more where they fit.
fn labels_of(length: usize) -> Vec<u8> {
    let mut domain = domain_of(length);
    if (3..=50).contains(&length) {
        domain[1] = b'.';
    }
    domain
}

/// A second record, with the byte at this place changed if it has that many.
fn second_record(record: &[u8], place: usize) -> Line {
    let mut references = [base().references.as_slice(), record].concat();
    if let Some(byte) = references[RECORD..].get_mut(place) {
        *byte ^= 1;
    }
    let what = format!("record {:?}, changed at {place}", &record[..4]);
    let case = Case {
        references,
        ..base()
    };
    (what, case)
}

/// Texts of every length near a limit, in every role.
fn name_lengths(take: Taker) {
    const LENGTHS: [usize; 18] = [
        1, 2, 49, 50, 61, 62, 63, 64, 65, 126, 127, 128, 129, 251, 252, 253, 254, 255,
    ];
    for length in LENGTHS {
        for label in [vec![b'l'; length], mixed(length)] {
            let below = [b"x.", label.as_slice()].concat();
            let above = [label.as_slice(), b".x"].concat();
            for domain in [&label, &labels_of(length), &below, &above] {
                every_role(take, b"s", domain);
            }
            take(same(SRV, &label, b"a.b"));
            take(same(URI, &label, b"a.b"));
            constrained(&label, b"a.b").into_iter().for_each(&mut *take);
        }
    }
    for (service, domain) in [(62, 253), (62, 254), (63, 253), (63, 254), (64, 253)] {
        every_role(take, &mixed(service), &domain_of(domain));
    }
}

/// A word of this many bytes: letters, a digit at the end, hyphens.
fn mixed(length: usize) -> Vec<u8> {
    let mut word: Vec<u8> = b"k-Zb".iter().copied().cycle().take(length - 1).collect();
    word.push(b'9');
    word
}

/// One service or scheme, and one domain, in every role.
fn every_role(take: Taker, service: &[u8], domain: &[u8]) {
    for kind in [DNS, SRV, URI, CN] {
        take(same(kind, service, domain));
    }
    for kind in [DNS, CN] {
        take(wildcard(kind, domain));
    }
    constrained(service, domain).into_iter().for_each(take);
}

/// Domains of many labels, and names far below a restriction.
fn label_counts(take: Taker) {
    const LABELS: [usize; 15] = [2, 3, 4, 8, 9, 16, 17, 20, 21, 63, 64, 65, 126, 127, 128];
    for labels in LABELS {
        every_role(take, b"s", &deep_domain(labels));
        let name = [b"_s.", deep_domain(labels).as_slice()].concat();
        for last in [1, 2, labels - 1, labels + 1] {
            let last = deep_domain(last);
            let other = [b"x.", last.as_slice()].concat();
            for domain in [last, other] {
                restricted(&name, &domain).into_iter().for_each(&mut *take);
            }
        }
    }
}

/// The same name as reference and as presented identifier.
fn same(kind: u8, service: &[u8], domain: &[u8]) -> Line {
    let entry = match kind {
        CN => email(b""),
        _ => general_name(kind, &name_text(kind, service, domain)),
    };
    let subject = subject(vec![rdn(vec![common_name(0x13, domain)])]).write();
    let service = if matches!(kind, SRV | URI) {
        service
    } else {
        b""
    };
    let references = record(kind, service, domain);
    let what = format!(
        "kind {kind}, lengths {} and {}",
        service.len(),
        domain.len()
    );
    (
        what,
        Case {
            san: san(vec![entry]).write(),
            subject,
            references,
            ..base()
        },
    )
}

/// A wildcard above the domain, in a dNSName or in a CN, for a reference one
/// label below it.
fn wildcard(kind: u8, domain: &[u8]) -> Line {
    let mut line = same(kind, b"", &[b"*.", domain].concat());
    line.0 = format!("wildcard, kind {kind}, length {}", domain.len());
    line.1.references = record(kind, b"", &[b"a.", domain].concat());
    line
}

/// The same SRVName as presented identifier, and in each form as permitted and
/// as excluded subtree.
fn constrained(service: &[u8], domain: &[u8]) -> Vec<Line> {
    let full = [b"_", service, b".", domain].concat();
    let forms = [
        full.clone(),
        full[..1 + service.len()].to_vec(),
        domain.to_vec(),
    ];
    let forms = forms.iter().filter(|form| !form.is_empty());
    forms.flat_map(|form| restricted(&full, form)).collect()
}

/// An SRVName behind a dNSName, under one restriction, permitted and excluded.
fn restricted(name: &[u8], restriction: &[u8]) -> Vec<Line> {
    let side = vec![subtree(srv_name(restriction))];
    let sides = [(side.clone(), Vec::new()), (Vec::new(), side)];
    let line = |(permitted, excluded)| {
        let case = Case {
            san: san(vec![dns_name(b"a.b"), srv_name(name)]).write(),
            constraints: constraints(permitted, excluded).write().into(),
            ..base()
        };
        let what = format!("subtree of {} bytes for {}", restriction.len(), name.len());
        (what, case)
    };
    sides.map(line).into()
}

/// SANs of few entries, of 511 to 513, and of as many as fit.
fn entry_counts(take: Taker) {
    for count in [0, 1, 2, 511, 512, 513, 600, 8188, 8189, 8190, 8191] {
        let entries = vec![dns_name(b""); count];
        take((
            format!("{count} entries"),
            Case {
                san: san(entries).write(),
                ..base()
            },
        ));
    }
}

/// Each input right, unreadable or too long, in all combinations.
fn answer_order(take: Taker) {
    let mut broken = vec![base()];
    broken[0].san = san(vec![dns_name(b"a.b"), srv_name(b"_n.b")]).write();
    broken[0].constraints = permitted(srv_name(b"_m")).into();
    for input in 0..4 {
        for case in broken.clone() {
            for length in [2, longest::SAN + 1] {
                let mut worse = case.clone();
                put(&mut worse, input, vec![0x30; length]);
                broken.push(worse);
            }
        }
    }
    broken
        .into_iter()
        .for_each(|case| take(("order of answers".to_string(), case)));
}

/// All SANs of four SRVNames, each of them one that keeps the constraints or
/// one of three that break them.
fn broken_names(take: Taker) {
    let texts: [&[u8]; 4] = [b"_m.b.c", b"_n.b.c", b"_m.x.b.c", b"m"];
    let permitted = vec![subtree(dns_name(b"d")), subtree(srv_name(b"_m.c"))];
    let excluded = vec![subtree(srv_name(b"X.b.c"))];
    for number in 0..256 {
        let entry = |place: u32| srv_name(texts[number >> (2 * place) & 3]);
        let case = Case {
            san: san((0..4).map(entry).collect()).write(),
            constraints: constraints(permitted.clone(), excluded.clone())
                .write()
                .into(),
            references: record(SRV, b"m", b"b.c"),
            ..base()
        };
        take((format!("broken names {number}"), case));
    }
}

/// Puts these bytes in the place of one of the four inputs.
fn put(case: &mut Case, input: usize, bytes: Vec<u8>) {
    match input {
        0 => case.san = bytes,
        1 => case.subject = bytes,
        2 => case.constraints = bytes.into(),
        _ => case.references = bytes,
    }
}

/// A string that permits one subtree, and one that excludes it.
fn permitted(base: Node) -> Vec<u8> {
    constraints(vec![subtree(base)], Vec::new()).write()
}

fn excluded(base: Node) -> Vec<u8> {
    constraints(Vec::new(), vec![subtree(base)]).write()
}

/// All sets of up to three attributes, under SANs that keep a CN from counting
/// and SANs that do not.
fn sets(take: Taker) {
    let absent = Vec::new();
    let names = [
        dns_name(b""),
        uri_name(b""),
        srv_name(b"x"),
        email(b"a@b"),
        ip_address(b""),
    ];
    let sans = names.map(|name| san(vec![name]).write());
    for san in sans.into_iter().chain([absent]) {
        for set in small_sets() {
            let what = format!("set of {}", set.len());
            let first = rdn(vec![common_name(0x16, b"\0")]);
            let case = Case {
                san: san.clone(),
                subject: subject(vec![first, unsorted_rdn(set)]).write(),
                references: [record(CN, b"", b"c.d"), record(CN, b"", b"a.b")].concat(),
                ..base()
            };
            take((what, case));
        }
    }
}

/// All rows of up to three attributes out of five, in any order.
fn small_sets() -> Vec<Vec<Node>> {
    let attributes = [
        common_name(0x0C, b"a.b"),
        common_name(0x13, b"c.d"),
        common_name(0x14, b"a.b"),
        common_name(0x1E, b""),
        attribute(&[0x55, 0x04, 0x0A], bytes(0x0C, b"a.b")),
    ];
    let places = texts(&[0, 1, 2, 3, 4], 3);
    let set = |places: &Vec<u8>| {
        let chosen = places.iter().map(|&place| &attributes[usize::from(place)]);
        chosen.cloned().collect()
    };
    places.iter().map(set).collect()
}

/// One tree for each certificate string, with every kind of element in it.
fn trees() -> [Node; 3] {
    let other = || other_name(&[0x2A, 0x03], bytes(0x0C, b"x"));
    let entries = vec![
        email(b"a@b"),
        dns_name(b"a.b"),
        other(),
        srv_name(b"_m.a.b"),
        uri_name(b"h://a.b"),
        ip_address(b""),
    ];
    let country = attribute(&[0x55, 0x04, 0x06], bytes(0x13, b"AQ"));
    let sets = vec![
        rdn(vec![country.clone()]),
        rdn(vec![country, common_name(0x0C, b"a.b")]),
    ];
    let permitted = vec![
        subtree(srv_name(b"_m")),
        subtree(other()),
        subtree(dns_name(b"b")),
    ];
    let excluded = vec![subtree(srv_name(b"_m.x.b")), subtree(ip_address(&[0; 8]))];
    [
        san(entries),
        subject(sets),
        constraints(permitted, excluded),
    ]
}

/// A case of those trees, with one of them replaced by these bytes.
fn with(input: usize, bytes: Vec<u8>) -> Case {
    let [san, subject, constraints] = trees();
    let references = [
        record(CN, b"", b"a.b"),
        record(SRV, b"m", b"a.b"),
        record(URI, b"h", b"a.b"),
    ]
    .concat();
    let mut case = Case {
        san: san.write(),
        subject: subject.write(),
        constraints: constraints.write().into(),
        references,
    };
    if input == 1 {
        // A CN counts only without the other names.
        case.san = Vec::new();
    }
    put(&mut case, input, bytes);
    case
}

/// Changes each element of each tree in each of `count` ways.
fn sweep(take: Taker, what: &str, count: usize, change: impl Fn(&mut Node, usize)) {
    for (input, tree) in trees().iter().enumerate() {
        for place in 0..size(tree) {
            for way in 0..count {
                let mut changed = tree.clone();
                change(nth(&mut changed, place), way);
                take((
                    format!("{what} {way}, element {place}"),
                    with(input, changed.write()),
                ));
            }
        }
    }
}

fn every_tag(take: Taker) {
    sweep(take, "tag", 256, |node, way| node.tag = way as u8);
}

/// Every wrong form of a length, and bytes after the content.
fn every_length(take: Taker) {
    let forms = [
        Length::Long(1),
        Length::Long(2),
        Length::Long(3),
        Length::Long(4),
        Length::Indefinite,
        Length::Off(1),
        Length::Off(-1),
        Length::Off(127),
    ];
    sweep(take, "length", forms.len(), |node, way| {
        node.length = forms[way]
    });
    sweep(take, "trailer", 3, |node, way| {
        node.trailer = vec![[0x00, 0x05, 0x82][way]; 2];
    });
    long_contents(take);
}

/// Contents on both sides of 127 and of 255 bytes, with every length.
fn long_contents(take: Taker) {
    for content in [126, 127, 128, 129, 254, 255, 256, 257] {
        for tag in [0x81, 0x82, 0x86, 0x87] {
            let mut name = bytes(tag, &vec![b'e'; content]);
            for form in [
                Length::Shortest,
                Length::Long(1),
                Length::Long(2),
                Length::Long(3),
            ] {
                name.length = form;
                let entries = vec![name.clone(), dns_name(b"a.b")];
                let case = Case {
                    san: san(entries).write(),
                    ..base()
                };
                take((format!("content of {content}"), case));
            }
        }
    }
}

/// Each child left out, doubled, or put first; each content emptied.
fn every_child(take: Taker) {
    sweep(take, "children", 19, |node, way| match &mut node.body {
        Body::Bytes(content) => content.truncate(way % 3),
        Body::Parts(children) if way < 18 => {
            let child = (way % 6).min(children.len() - 1);
            match way / 6 {
                0 => drop(children.remove(child)),
                1 => children.insert(child, children[child].clone()),
                _ => children.swap(0, child),
            }
        }
        Body::Parts(children) => children.clear(),
    });
}

/// Each bit of each input turned, and each byte left out.
fn every_bit(take: Taker) {
    for input in 0..4 {
        let written = if input < 3 {
            trees()[input].write()
        } else {
            with(0, Vec::new()).references
        };
        for place in 0..written.len() {
            for bit in 0..8 {
                let mut changed = written.clone();
                changed[place] ^= 1 << bit;
                take((format!("bit {bit} of byte {place}"), with(input, changed)));
            }
            let cut = written[..place].to_vec();
            take((format!("cut at byte {place}"), with(input, cut)));
            let shorter = [&written[..place], &written[place + 1..]].concat();
            take((format!("without byte {place}"), with(input, shorter)));
        }
    }
}

/// Each byte value in each place of a name, in reference and presented
/// identifier alike, and in one of them alone.
fn every_byte(take: Taker) {
    for value in 0..=255 {
        for place in 0..3 {
            let mut text = *b"abc";
            text[place] = value;
            for kind in [DNS, SRV, URI, CN] {
                take(same(kind, &text, b"a.b"));
                // One label, or two where the byte is a dot.
                take(same(kind, b"s", &text));
            }
            take(wildcard(DNS, &text));
            take(wildcard(CN, &text));
            constrained(&text, b"a.b").into_iter().for_each(&mut *take);
            constrained(b"s", &text).into_iter().for_each(&mut *take);
            byte_in_a_label(take, b"", &text, b".d");
            byte_in_a_label(take, b"d.", &text, b"");
        }
    }
}

/// A domain with a byte changed in a label: in reference and presented
/// identifier, in the latter alone, and both ways behind a wildcard.
fn byte_in_a_label(take: Taker, before: &[u8], text: &[u8; 3], behind: &[u8]) {
    let domain = [before, text, behind].concat();
    let asked = [before, b"abc", behind].concat();
    for kind in [DNS, SRV, URI, CN] {
        let mut line = same(kind, b"s", &domain);
        take(line.clone());
        line.1.references = same(kind, b"s", &asked).1.references;
        take(line);
    }
    for kind in [DNS, CN] {
        let mut line = wildcard(kind, &domain);
        take(line.clone());
        line.1.references = wildcard(kind, &asked).1.references;
        take(line);
    }
}

/// All texts over an alphabet, up to a length.
fn texts(alphabet: &[u8], longest: usize) -> Vec<Vec<u8>> {
    let mut texts = vec![Vec::new()];
    let mut from = 0;
    for _ in 0..longest {
        let to = texts.len();
        for text in from..to {
            for &byte in alphabet {
                texts.push([texts[text].as_slice(), &[byte]].concat());
            }
        }
        from = to;
    }
    texts
}

/// Every small text as a name of each kind, and as a subtree.
fn small_texts(take: Taker) {
    for text in texts(b"aA.-*0", 5) {
        let references = SMALL_DOMAINS.map(|domain| record(DNS, b"", domain));
        take(small("small dNSName", dns_name(&text), &references));
    }
    for text in texts(b"a.*0", 5) {
        let references = SMALL_DOMAINS.map(|domain| record(CN, b"", domain));
        let mut line = small("small CN", email(b""), &references);
        line.1.subject = subject(vec![rdn(vec![common_name(0x16, &text)])]).write();
        take(line);
    }
    small_uris(take);
    small_srv_names(take);
}

/// What the small texts are asked for; each has the two labels that a record
/// needs, and ends in a letter.
const SMALL_DOMAINS: [&[u8]; 4] = [b"a.a", b"0.a", b"a.0.a", b"0.a.a"];

/// Every small text as the authority of a URI. The letter stands for a domain
/// of two labels, so that there is room for other parts beside it.
fn small_uris(take: Taker) {
    for text in texts(b"a:@/.0?#", 4) {
        let references = [record(URI, b"a", b"a.a"), record(URI, b"a", b"0.a.a")];
        let mut name = b"A://".to_vec();
        for byte in text {
            match byte {
                b'a' => name.extend(b"a.a"),
                _ => name.push(byte),
            }
        }
        take(small("small URI", uri_name(&name), &references));
    }
}

/// Every small text as an SRVName, alone and under a subtree, and as a subtree.
fn small_srv_names(take: Taker) {
    let references = [record(SRV, b"a", b"a.a"), record(SRV, b"a", b"0.a")];
    for text in texts(b"_a.0", 6).into_iter().skip(1) {
        take(small("small SRVName", srv_name(&text), &references));
    }
    for text in texts(b"_a.-0", 5).into_iter().skip(1) {
        let name = srv_name(&text);
        let mut line = small("small SRVName under a subtree", name, &references);
        line.1.constraints = permitted(srv_name(b"a")).into();
        take(line);
        let mut line = small("small subtree", srv_name(b"_a.0.a"), &references);
        line.1.constraints = permitted(srv_name(&text)).into();
        take(line);
    }
}

/// A SAN of one entry, for these references.
fn small(what: &str, entry: Node, references: &[Vec<u8>]) -> Line {
    let case = Case {
        san: san(vec![entry]).write(),
        references: references.concat(),
        ..base()
    };
    (what.to_string(), case)
}
