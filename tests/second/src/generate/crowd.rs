//! Drafts in which one name decides, at any place among many that do not.

use super::draft::*;
use super::words::Pool;
use super::Random;
use crate::records::kind::{CN, DNS, SRV, URI};
use crate::tree::*;

/// Room for idle entries in a SAN and idle sets in a subject, so that the
/// names that decide still fit.
const SAN_ROOM: usize = 16_000;
const SUBJECT_ROOM: usize = 3_900;
/// Most idle subtrees of one side, so that two sides fit.
const MOST_SUBTREES: usize = 320;

impl Draft {
    /// A certificate of up to 600 entries, up to 100 sets and up to 180
    /// subtrees, many of which may decide.
    pub fn bulk(random: &mut Random, pool: &Pool) -> Self {
        let mut entries = mixed_entries(random, pool);
        if random.one_in(2) {
            let name = dns_name(&pool.dns_id(random));
            insert(random, &mut entries, name);
        }
        let sets = (0..random.below(101)).map(|_| set(random, pool)).collect();
        let permitted = (0..random.between(1, 60))
            .flat_map(|_| subtrees(random, pool))
            .collect();
        Draft {
            san: (!entries.is_empty()).then(|| san(entries)),
            subject: Some(subject(sets)),
            constraints: match random.below(3) {
                0 => one_issuer(permitted, Vec::new()),
                _ => Vec::new(),
            },
            references: references(random, pool, &[DNS, DNS, DNS, CN]),
        }
    }

    /// One entry that may match, or may keep a CN from counting, among up to
    /// 8,000 that do neither.
    pub fn far_name(random: &mut Random, pool: &Pool) -> Self {
        let kind = *random.pick(&[DNS, SRV, URI, CN]);
        let name = match kind {
            DNS => dns_name(&pool.dns_id(random)),
            SRV => srv_name(&pool.srv_id(random)),
            URI => uri_name(&pool.uri_id(random)),
            _ => bytes(*random.pick(&[0x81, 0x82, 0x86, 0x87]), b"x"),
        };
        let idle = idle_entry(random);
        let mut entries = crowd(random, idle, SAN_ROOM);
        insert(random, &mut entries, name);
        Draft {
            san: Some(san(entries)),
            subject: small_subject(random, pool),
            constraints: Vec::new(),
            references: references(random, pool, &[kind]),
        }
    }

    /// One or two names of a form that may break the constraints among up to
    /// 8,000 entries that do not.
    pub fn far_broken(random: &mut Random, pool: &Pool) -> Self {
        let form = *random.pick(&[DNS, SRV]);
        let kept = presented(random, pool, form);
        let idle = match random.below(2) {
            0 => general_name(form, &kept),
            _ => idle_entry(random),
        };
        let mut entries = crowd(random, idle, SAN_ROOM);
        for _ in 0..random.between(1, 2) {
            let name = match form {
                DNS => dns_name(&dns_text(random, pool)),
                _ => srv_name(&srv_text(random, pool, 2)),
            };
            insert(random, &mut entries, name);
        }
        let around = kept.splitn(2, |&byte| byte == b'.').nth(random.below(2));
        let around = match around {
            Some(text) if text != b"*" => text,
            _ => b"a",
        };
        let around = subtree(general_name(form, around));
        let (permitted, excluded) = match random.below(4) {
            0 => (Vec::new(), vec![idle_subtree(random, form)]),
            1 => (vec![around], vec![form_subtree(random, pool, form)]),
            _ => (vec![around], Vec::new()),
        };
        Draft {
            san: Some(san(entries)),
            subject: small_subject(random, pool),
            constraints: one_issuer(permitted, excluded),
            references: references(random, pool, &[form]),
        }
    }

    /// One subtree of a form that may decide in each side, among many that hold
    /// no name.
    pub fn far_subtree(random: &mut Random, pool: &Pool) -> Self {
        let form = *random.pick(&[DNS, SRV]);
        let side = |random: &mut Random| crowded_side(random, pool, form);
        let (permitted, excluded) = match random.below(3) {
            0 => (side(random), Vec::new()),
            1 => (Vec::new(), side(random)),
            _ => (side(random), side(random)),
        };
        let entries = (0..random.between(1, 3))
            .map(|_| general_name(form, &presented(random, pool, form)))
            .collect();
        Draft {
            san: Some(san(entries)),
            subject: small_subject(random, pool),
            constraints: one_issuer(permitted, excluded),
            references: references(random, pool, &[form]),
        }
    }

    /// One or two sets of any form among up to 433 without a CN.
    pub fn far_set(random: &mut Random, pool: &Pool) -> Self {
        let idle = rdn(vec![attribute(&[0x55], bytes(0x0C, b""))]);
        let mut sets = crowd(random, idle, SUBJECT_ROOM);
        for _ in 0..random.between(1, 2) {
            let one = set(random, pool);
            insert(random, &mut sets, one);
        }
        Draft {
            san: random.one_in(3).then(|| san(vec![idle_entry(random)])),
            subject: Some(subject(sets)),
            constraints: Vec::new(),
            references: references(random, pool, &[CN]),
        }
    }
}

/// Puts a node at any place.
fn insert(random: &mut Random, nodes: &mut Vec<Node>, node: Node) {
    nodes.insert(random.place(nodes.len()), node);
}

/// The node as often as it may fit into the room, small numbers as often as
/// large ones.
fn crowd(random: &mut Random, node: Node, room: usize) -> Vec<Node> {
    let most = room / node.write().len();
    vec![node; random.spread(most)]
}

/// Up to 600 entries: none that matches often, or none that keeps a CN from
/// counting, or all forms.
fn mixed_entries(random: &mut Random, pool: &Pool) -> Vec<Node> {
    let count = random.below(601);
    let mix = random.below(3);
    let one = |random: &mut Random| match (mix, random.below(12)) {
        (0, 0..=5) => dns_name(b"n.example"),
        (1, 0..=3) => dns_name(&pool.dns_id(random)),
        (1, 4) => srv_name(b"_m.b"),
        _ => other_entry(random),
    };
    (0..count).map(|_| one(random)).collect()
}

/// An entry of two or three bytes that matches nothing and breaks nothing.
fn idle_entry(random: &mut Random) -> Node {
    bytes(
        *random.pick(&[0x81, 0x87, 0xA4]),
        &vec![b'i'; random.below(2)],
    )
}

/// The text of a name that is held against subtrees of its form.
fn presented(random: &mut Random, pool: &Pool, form: u8) -> Vec<u8> {
    match form {
        DNS => pool.dns_id(random),
        _ => srv_text(random, pool, 12),
    }
}

/// A subtree of a form that may hold a name of the pool.
fn form_subtree(random: &mut Random, pool: &Pool, form: u8) -> Node {
    match form {
        DNS => subtree(dns_name(&pool.around(random))),
        _ => srv_subtree(random, pool),
    }
}

/// Subtrees that hold no name, and at any place among them one that may.
fn crowded_side(random: &mut Random, pool: &Pool, form: u8) -> Vec<Node> {
    let mut side: Vec<Node> = (0..random.spread(MOST_SUBTREES))
        .map(|_| idle_subtree(random, form))
        .collect();
    let one = form_subtree(random, pool, form);
    insert(random, &mut side, one);
    side
}

/// A subtree that holds no name of a pool: of another form, or of words that
/// no pool has.
fn idle_subtree(random: &mut Random, form: u8) -> Node {
    const TEXTS: [&[u8]; 4] = [b"_idle", b"idle.a", b"_idle.a", b"_idle.idle"];
    const DOMAINS: [&[u8]; 3] = [b"idle", b"idle.a", b"q.idle"];
    let texts = if form == DNS { &DOMAINS[..] } else { &TEXTS };
    let text = *random.pick(texts);
    subtree(match random.below(6) {
        0 => dns_name(b"idle"),
        1 => other_entry(random),
        _ => general_name(form, text),
    })
}

/// A set of many attributes, with none, one or two CNs, in order or with two
/// neighbours swapped.
pub fn wide_set(random: &mut Random, pool: &Pool) -> Node {
    let mut attributes: Vec<Node> = (0..random.spread(60))
        .map(|_| attribute(&[0x55, 0x04], bytes(0x0C, &vec![b'w'; random.below(24)])))
        .collect();
    for _ in 0..random.between(1, 2) {
        attributes.push(any_attribute(random, pool));
    }
    attributes.sort_by_cached_key(Node::write);
    if attributes.len() > 1 && random.one_in(4) {
        let place = random.below(attributes.len() - 1);
        attributes.swap(place, place + 1);
    }
    unsorted_rdn(attributes)
}

/// Two attributes that are alike up to their last byte, in either order.
pub fn alike_set(random: &mut Random) -> Node {
    let text = vec![b'v'; random.spread(600)];
    let mut one = || {
        let text = [text.as_slice(), &[random.byte()]].concat();
        attribute(&[0x55, 0x04, 0x0D], bytes(0x0C, &text))
    };
    unsorted_rdn(vec![one(), one()])
}
