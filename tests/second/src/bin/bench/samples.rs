//! The certificates and references that are measured.

use second::examples::domain_of;
use second::generate::{Case, Chain};
use second::longest;
use second::records::kind::{CN, DNS, SRV, URI};
use second::tree::*;

/// Which pair of a sample matches: the first reference and the first name, the
/// last reference and the last name, or none.
#[derive(Clone, Copy, Debug, PartialEq, Eq)]
pub enum Hit {
    First,
    Last,
    Never,
}

/// Which names a sample has.
#[derive(Clone, Copy, PartialEq, Eq)]
pub enum Form {
    Hosts,
    Tills,
    Mixed,
}

impl Form {
    pub const ALL: [Form; 3] = [Form::Hosts, Form::Tills, Form::Mixed];

    pub fn title(self) -> &'static str {
        match self {
            Form::Hosts => "hosts: dNSNames such as desk-0007.graz.branch.example",
            Form::Tills => "tills: dNSNames such as till-0007.branch-03.shop.example",
            Form::Mixed => "mixed kinds: the hosts as dNSNames, SRVNames and URIs",
        }
    }

    /// The kind of the name or reference at an index.
    pub fn kind(self, index: usize) -> u8 {
        match self {
            Form::Hosts | Form::Tills => DNS,
            Form::Mixed => [DNS, SRV, URI, DNS][index % 4],
        }
    }

    /// A domain of 28 to 32 bytes, another one for each number.
    pub fn domain(self, number: usize) -> Vec<u8> {
        let town = ["ulm", "graz", "leeds", "ottawa", "bilbao", "uppsala"][number % 6];
        let branch = number / 2 % 100;
        let domain = match self {
            Form::Tills => format!("till-{number:04}.branch-{branch:02}.shop.example"),
            _ => format!("desk-{number:04}.{town}.branch.example"),
        };
        domain.into_bytes()
    }

    /// The domain that matches, as it is asked for and as it is presented.
    fn asked(self) -> [&'static [u8]; 2] {
        match self {
            Form::Tills => [
                b"TILL-9999.Branch-99.shop.example",
                b"till-9999.branch-99.shop.example",
            ],
            _ => [
                b"TILL-0001.Linz.branch.example",
                b"till-0001.linz.branch.example",
            ],
        }
    }
}

/// The service or scheme of a name or reference of this kind.
pub fn service(kind: u8) -> &'static [u8] {
    match kind {
        SRV => b"imaps",
        URI => b"https",
        _ => b"",
    }
}

pub fn text(kind: u8, domain: &[u8]) -> Vec<u8> {
    name_text(kind, service(kind), domain)
}

fn entry(kind: u8, domain: &[u8]) -> Node {
    general_name(kind, &text(kind, domain))
}

/// A certificate of this many names, checked for this many references.
pub fn sample(names: usize, references: usize, hit: Hit, form: Form) -> Case {
    let (name, reference) = match hit {
        Hit::First => (0, 0),
        _ => (names - 1, references - 1),
    };
    let [asked, presented] = form.asked();
    let hit_kind = form.kind(name);
    let entries = (0..names).map(|index| entry(form.kind(index), &form.domain(index)));
    let mut entries: Vec<Node> = entries.collect();
    entries[name] = entry(hit_kind, presented);
    let mut records: Vec<Vec<u8>> = (0..references).map(|index| asking(form, index)).collect();
    if hit != Hit::Never {
        records[reference] = record(hit_kind, service(hit_kind), asked);
    }
    certificate(entries, records)
}

/// A record that no name of a sample matches.
pub fn asking(form: Form, index: usize) -> Vec<u8> {
    let kind = form.kind(index);
    record(kind, service(kind), &form.domain(5000 + index))
}

/// As many dNSNames as fit into a SAN of this size, and their number.
pub fn sized(size: usize, references: usize) -> (usize, Case) {
    let names = (0..1_000).map(|number| dns_name(&Form::Hosts.domain(number)));
    // The outer header has four bytes.
    let entries = filled(names, size - 4);
    let records = (0..references).map(|index| asking(Form::Hosts, index));
    (entries.len(), certificate(entries, records.collect()))
}

/// A SAN, or a subject, full of names of one kind, and 16 references of that kind,
/// none of which matches.
pub fn full(kind: u8, name: impl Fn(usize) -> Vec<u8>, asked: impl Fn(usize) -> Vec<u8>) -> Case {
    let references = (0..16).map(|index| record(kind, service(kind), &asked(index)));
    let texts = (0..9_000).map(|number| text(kind, &name(number)));
    if kind == CN {
        let sets = texts.map(|text| rdn(vec![common_name(0x0C, &text)]));
        let mut case = certificate(Vec::new(), references.collect());
        case.san = Vec::new();
        case.subject = subject(filled(sets, longest::SUBJECT - 4)).write();
        return case;
    }
    let entries = filled(
        texts.map(|text| general_name(kind, &text)),
        longest::SAN - 4,
    );
    certificate(entries, references.collect())
}

/// As many elements as fit.
pub fn filled(nodes: impl Iterator<Item = Node>, room: usize) -> Vec<Node> {
    let mut used = 0;
    let mut full = false;
    let fits = |node: &Node| {
        used += node.write().len();
        full = used > room;
        !full
    };
    let nodes = nodes.take_while(fits).collect();
    assert!(full, "more would fit");
    nodes
}

/// A certificate of these entries and of a subject of three sets, under one issuer
/// without constraints.
pub fn certificate(entries: Vec<Node>, records: Vec<Vec<u8>>) -> Case {
    let one = |last: u8, text: &[u8]| rdn(vec![attribute(&[0x55, 0x04, last], bytes(0x0C, text))]);
    let sets = vec![
        one(0x06, b"AT"),
        one(0x0A, b"Branch Example"),
        one(0x03, b"till-0001.linz.branch.example"),
    ];
    let case = Case {
        san: san(entries).write(),
        subject: subject(sets).write(),
        constraints: Chain::new([b""]),
        references: records.concat(),
    };
    assert!(
        case.san.len() <= longest::SAN,
        "a SAN of {} bytes",
        case.san.len()
    );
    case
}

pub fn form_name(form: u8) -> &'static str {
    match form {
        SRV => "SRVNames",
        URI => "URIs",
        CN => "CNs",
        _ => "dNSNames",
    }
}

/// The bytes of the shortest name of a form: `a`, or `_a.b`.
pub fn shortest(form: u8) -> usize {
    match form {
        SRV => 4,
        _ => 1,
    }
}

/// A text of so many bytes. Texts of the same length are alike save for their
/// first label, or, where they have one byte or four, for a letter.
fn sized_text(form: u8, size: usize, first: &str) -> Vec<u8> {
    let before: &[u8] = if form == SRV { b"_m." } else { b"" };
    let room = size - before.len();
    let domain = match room {
        1 => first.as_bytes()[..1].to_vec(),
        20 | 17 => {
            let label = &first[..room - 14];
            format!("{label}.kiosk.example").into_bytes()
        }
        _ => [first.as_bytes(), b".", &domain_of(room - first.len() - 1)].concat(),
    };
    [before, &domain].concat()
}

/// Names of so many bytes. The first label is not that of any subtree.
pub fn names(form: u8, size: usize) -> impl Iterator<Item = Node> {
    (0..).map(move |number| general_name(form, &sized_text(form, size, &label('n', number))))
}

/// Subtrees of so many bytes; the shortest of an SRVName is a domain alone, of one
/// byte.
pub fn subtrees(form: u8, size: usize) -> impl Iterator<Item = Node> {
    let text = move |number: usize| match size {
        4 => b"c".to_vec(),
        _ => sized_text(form, size, &label('s', number)),
    };
    (0..).map(move |number| subtree(general_name(form, &text(number))))
}

/// A label of six bytes, another one for each number.
fn label(first: char, number: usize) -> String {
    format!("{first}{:05}", number % 100_000)
}
