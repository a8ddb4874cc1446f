//! One name that decides, behind a fixed number of names that do not.

use super::{base, nth, permitted, put, size, Body, Case, Length, Node, Taker};
use crate::records::kind::{CN, DNS, SRV, URI};
use crate::tree::*;

/// How many names stand before the one that decides.
const BEFORE: [usize; 22] = [
    2, 3, 4, 7, 8, 9, 15, 16, 31, 32, 63, 64, 65, 120, 121, 127, 128, 255, 256, 257, 300, 400,
];
/// The same, for names of a few bytes in a SAN.
const FAR_BEFORE: [usize; 10] = [511, 512, 1023, 1024, 2047, 2048, 4095, 4096, 8000, 8160];

/// Hands over the lines about places far behind.
pub fn each(take: Taker) {
    for before in BEFORE.into_iter().chain(FAR_BEFORE) {
        entries(take, before);
    }
    for before in BEFORE.into_iter().chain([600, 700]) {
        kept_names(take, before);
        subtrees(take, before);
    }
    for before in BEFORE {
        sets(take, before);
        attributes(take, before);
        alike(take, before);
        spoilt(take, before);
    }
}

/// This many idle nodes, and one behind them.
fn behind(idle: &Node, before: usize, last: Node) -> Vec<Node> {
    let mut nodes = vec![idle.clone(); before];
    nodes.push(last);
    nodes
}

/// An entry of two bytes that matches nothing.
fn idle_entry() -> Node {
    ip_address(b"")
}

/// A set of nine bytes without a CN.
fn idle_set() -> Node {
    rdn(vec![idle_attribute()])
}

/// The shortest attribute.
fn idle_attribute() -> Node {
    attribute(&[0x01], bytes(0x0C, b""))
}

/// A name of each kind that matches, that keeps a CN from counting, that makes
/// the SAN unreadable, or that breaks the constraints.
fn entries(take: Taker, before: usize) {
    let narrow = permitted(srv_name(b"_n"));
    let names = [
        (dns_name(b"a.b"), DNS, Vec::new()),
        (srv_name(b"_m.a.b"), SRV, Vec::new()),
        (uri_name(b"m://a.b"), URI, Vec::new()),
        (dns_name(b""), CN, Vec::new()),
        (srv_name(b"m"), CN, Vec::new()),
        (uri_name(b""), CN, Vec::new()),
        (email(b""), CN, Vec::new()),
        (email(&[b'e'; 300]), CN, Vec::new()),
        (email(b"a@\x80"), DNS, Vec::new()),
        (dns_name(b"a.\x80"), DNS, Vec::new()),
        (uri_name(b"m://\x80"), URI, Vec::new()),
        (srv_name(b"_m.b"), SRV, narrow),
    ];
    for (name, kind, constraints) in names {
        let service: &[u8] = if matches!(kind, SRV | URI) { b"m" } else { b"" };
        let case = Case {
            san: san(behind(&idle_entry(), before, name)).write(),
            constraints: constraints.into(),
            references: record(kind, service, b"a.b"),
            ..base()
        };
        take((format!("kind {kind} behind {before} entries"), case));
    }
}

/// An SRVName that breaks the constraints, behind others that keep them.
fn kept_names(take: Taker, before: usize) {
    for last in [b"_n.b.c".as_slice(), b"_m.b", b"_m.b.c.", b"_m.b.c"] {
        let case = Case {
            san: san(behind(&srv_name(b"_m.b.c"), before, srv_name(last))).write(),
            constraints: permitted(srv_name(b"_M.C")).into(),
            references: record(SRV, b"m", b"b.c"),
            ..base()
        };
        take((format!("SRVName behind {before} that are kept"), case));
    }
}

/// A subject for the CN reference `a.b`, without a SAN.
fn in_subject(take: Taker, what: &str, sets: Vec<Node>) {
    let case = Case {
        san: Vec::new(),
        subject: subject(sets).write(),
        references: record(CN, b"", b"a.b"),
        ..base()
    };
    take((what.to_string(), case));
}

/// A CN behind sets without one.
fn sets(take: Taker, before: usize) {
    for tag in [0x0C, 0x13, 0x16, 0x1E] {
        let last = rdn(vec![common_name(tag, b"A.b")]);
        let sets = behind(&idle_set(), before, last);
        in_subject(take, &format!("CN behind {before} sets"), sets);
    }
}

/// One CN, two CNs, or two attributes in wrong order, at the end of a set.
fn attributes(take: Taker, before: usize) {
    let (one, two) = (common_name(0x0C, b"a.b"), common_name(0x0C, b"a.c"));
    for last in [
        vec![one.clone()],
        vec![one.clone(), two.clone()],
        vec![two, one],
    ] {
        let set = [vec![idle_attribute(); before], last].concat();
        in_subject(
            take,
            &format!("set of {before} and a CN"),
            vec![unsorted_rdn(set)],
        );
    }
}

/// Two attributes that part at one byte behind many equal ones, in order and
/// not.
fn alike(take: Taker, before: usize) {
    let one = |last: u8| {
        let text = [vec![b'v'; before].as_slice(), &[last]].concat();
        attribute(&[0x55, 0x04, 0x0D], bytes(0x0C, &text))
    };
    for set in [[0x7F, 0x80], [0x80, 0x7F], [b'a', b'b'], [b'b', b'a']] {
        let set = unsorted_rdn(set.map(one).into());
        let sets = vec![rdn(vec![common_name(0x0C, b"a.b")]), set];
        in_subject(take, &format!("attributes alike for {before} bytes"), sets);
    }
}

/// A restriction that decides, behind others that hold no name and behind
/// other forms; permitted, excluded, and excluded behind permitted ones.
fn subtrees(take: Taker, before: usize) {
    let idle = [srv_name(b"_i"), srv_name(b"i.b"), email(b"")].map(subtree);
    let wide = || vec![subtree(srv_name(b"b"))];
    for idle in &idle {
        for text in [b"_m".as_slice(), b"b", b"_m.b", b"x.b"] {
            let side = || behind(idle, before, subtree(srv_name(text)));
            let sides = [
                (side(), Vec::new()),
                (Vec::new(), side()),
                (wide(), side()),
                (side(), side()),
            ];
            for (permitted, excluded) in sides {
                let case = Case {
                    san: san(vec![dns_name(b"c.d"), srv_name(b"_M.a.B")]).write(),
                    constraints: constraints(permitted, excluded).write().into(),
                    references: record(SRV, b"m", b"a.b"),
                    ..base()
                };
                take((format!("restriction behind {before}"), case));
            }
        }
    }
}

/// A name with one element written in another way, which mostly makes its
/// string unreadable.
fn spoilt(take: Taker, before: usize) {
    let names = [
        (idle_entry(), srv_name(b"_m.b")),
        (idle_set(), rdn(vec![common_name(0x0C, b"a.b")])),
        (subtree(idle_entry()), subtree(srv_name(b"_m"))),
    ];
    for (input, (idle, name)) in names.iter().enumerate() {
        for place in 0..size(name) {
            for way in 0..4 {
                let mut last = name.clone();
                spoil(nth(&mut last, place), way);
                let mut case = base();
                put(&mut case, input, string(input, behind(idle, before, last)));
                take((format!("element {place} spoilt behind {before}"), case));
            }
        }
    }
}

/// The SAN, the subject or the constraints that hold these.
fn string(input: usize, names: Vec<Node>) -> Vec<u8> {
    let tree = match input {
        0 => san(names),
        1 => subject(names),
        _ => constraints(names, Vec::new()),
    };
    tree.write()
}

/// Changes an element in one of four ways.
fn spoil(node: &mut Node, way: usize) {
    match (way, &mut node.body) {
        (0, _) => node.length = Length::Long(1),
        (1, _) => node.length = Length::Off(1),
        (2, _) => node.trailer = vec![0],
        (_, Body::Bytes(content)) => content[0] |= 0x80,
        (_, Body::Parts(_)) => node.tag ^= 0x40,
    }
}
