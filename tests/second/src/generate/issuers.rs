//! Constraint strings of several issuers (request 6/13), with subtrees that are
//! drawn from the names of the certificate: such as hold the names, and such as
//! nearly do.

use super::draft::*;
use super::flips::{other_byte, other_case};
use super::words::{joined, near_miss, numbered, Pool};
use super::{Chain, Random};
use crate::records::kind::{CN, DNS, SRV, URI};
use crate::text::{dns_breaks, is_dns_id, lies_in, srv_id, Pair};
use crate::tree::*;
use crate::MOST_ISSUERS;

/// More names than this are held by the empty text alone.
const FEW_NAMES: usize = 6;

/// A name that constraints are about: its kind and its text.
type Presented = (u8, Vec<u8>);

impl Draft {
    /// A certificate of dNSNames, mostly, under the constraints of none to nine
    /// issuers.
    pub fn issued(random: &mut Random, pool: &Pool) -> Self {
        let crooked = random.one_in(6);
        let names: Vec<Presented> = (0..random.between(1, 4))
            .map(|_| match random.below(8) {
                0..=1 => (SRV, srv_text(random, pool, 24)),
                2 if crooked => (DNS, dns_text(random, pool)),
                _ => (DNS, pool.dns_id(random)),
            })
            .collect();
        let mut entries: Vec<Node> = names
            .iter()
            .map(|(kind, text)| general_name(*kind, text))
            .collect();
        if random.one_in(3) {
            entries.insert(random.place(entries.len()), other_entry(random));
        }
        let count = match random.below(20) {
            0 => 0,
            1..=6 => 1,
            7..=10 => 2,
            11..=14 => random.between(3, 7),
            15..=18 => MOST_ISSUERS,
            _ => MOST_ISSUERS + 1,
        };
        Draft {
            san: Some(san(entries)),
            subject: small_subject(random, pool),
            constraints: strings(random, &names, count),
            references: references(random, pool, &[DNS, DNS, DNS, SRV, URI, CN]),
        }
    }
}

/// Puts the strings of more issuers before, between and behind those of a draft:
/// mostly such as its names keep.
pub fn more(random: &mut Random, draft: &mut Draft) {
    let names = draft.san.as_ref().map(names).unwrap_or_default();
    let most = if random.one_in(4) { 7 } else { 2 };
    for _ in 0..random.between(1, most) {
        let string = match random.below(6) {
            0..=2 => None,
            3 => Some(constraints(other_subtrees(random), Vec::new())),
            _ => Some(holding(random, &names).write(random)),
        };
        let place = random.place(draft.constraints.len());
        draft.constraints.insert(place, string);
    }
}

/// The dNSNames and SRVNames of a SAN; of many the first.
fn names(san: &Node) -> Vec<Presented> {
    let name = |entry: &Node| match (entry.tag, &entry.body) {
        (0x82, Body::Bytes(text)) => Some((DNS, text.clone())),
        (0xA0, Body::Parts(parts)) => match &parts.last()?.children().first()?.body {
            Body::Bytes(text) => Some((SRV, text.clone())),
            Body::Parts(_) => None,
        },
        _ => None,
    };
    let names = san.children().iter().filter_map(name);
    names.take(FEW_NAMES + 1).collect()
}

/// The strings of so many issuers: mostly one of them hangs on one of the names,
/// and the names keep the others; now and then more of them do.
fn strings(random: &mut Random, names: &[Presented], count: usize) -> Vec<Option<Node>> {
    let last = count.saturating_sub(1);
    let deciding = random.place(last).max(random.place(last));
    let several = random.one_in(4);
    let string = |issuer: usize| match random.below(6) {
        _ if issuer == deciding => Some(decided(random, names).write(random)),
        0..=1 if several => Some(decided(random, names).write(random)),
        0..=1 => None,
        _ => Some(holding(random, names).write(random)),
    };
    (0..count).map(string).collect()
}

/// The subtrees of a string that hangs on one of the names.
fn decided(random: &mut Random, names: &[Presented]) -> Sides {
    let mut sides = holding(random, names);
    let (kind, text) = random.pick(names);
    let near = near(random, *kind, text);
    match random.below(3) {
        0 => {
            sides.permitted.retain(|_| random.one_in(2));
            sides.permitted.push(near);
        }
        _ => sides.excluded.push(near),
    }
    sides
}

/// The subtrees of one string.
#[derive(Default)]
struct Sides {
    permitted: Vec<Node>,
    excluded: Vec<Node>,
}

impl Sides {
    /// The string, with subtrees of other forms now and then; never without any.
    fn write(mut self, random: &mut Random) -> Node {
        for side in [&mut self.permitted, &mut self.excluded] {
            if random.one_in(6) {
                let others = other_subtrees(random);
                let place = random.place(side.len());
                drop(side.splice(place..place, others));
            }
        }
        if self.permitted.is_empty() && self.excluded.is_empty() {
            self.permitted.push(subtree(dns_name(b"")));
        }
        constraints(self.permitted, self.excluded)
    }
}

/// Permitted subtrees around each name of a form, and excluded ones beside some.
/// No string of a form is kept by a name that is none of its kind.
fn holding(random: &mut Random, names: &[Presented]) -> Sides {
    let mut sides = Sides::default();
    if names.len() > FEW_NAMES {
        return sides;
    }
    for form in [DNS, SRV] {
        let of_form = names.iter().filter(|(kind, _)| *kind == form);
        let texts: Vec<&[u8]> = of_form.map(|(_, text)| text.as_slice()).collect();
        if texts.iter().any(|text| words(form, text).is_none()) {
            continue;
        }
        let permitted = random.below(5) < 3;
        for text in &texts {
            if permitted {
                let place = random.place(sides.permitted.len());
                sides.permitted.insert(place, around(random, form, text));
            }
            let beside = beside(random, form, text);
            if random.one_in(3) && !texts.iter().any(|text| breaks(form, text, &beside)) {
                sides.excluded.push(subtree(general_name(form, &beside)));
            }
        }
    }
    sides
}

/// Whether a name breaks an excluded subtree of its form.
fn breaks(form: u8, name: &[u8], subtree: &[u8]) -> bool {
    match form {
        SRV => srv_id(name).is_some_and(|name| lies_in(name, subtree)),
        _ => dns_breaks(name, subtree),
    }
}

/// Service and domain of a name, without the star of a wildcard, if it is a name
/// of its kind.
fn words(kind: u8, text: &[u8]) -> Option<Pair<'_>> {
    match kind {
        SRV => srv_id(text),
        _ => is_dns_id(text).then(|| (&b""[..], text.strip_prefix(b"*.").unwrap_or(text))),
    }
}

/// A subtree that a name lies in.
fn around(random: &mut Random, kind: u8, text: &[u8]) -> Node {
    let (service, domain) = words(kind, text).unwrap_or((b"m", b"a.b"));
    let last = last_labels(random, domain);
    restriction(random, kind, service, last)
}

/// The last labels of a domain: all of them, or fewer.
fn last_labels<'a>(random: &mut Random, domain: &'a [u8]) -> &'a [u8] {
    let labels = domain.split(|&byte| byte == b'.').count();
    let left = random.below(labels);
    let mut parts = domain.splitn(left + 1, |&byte| byte == b'.');
    parts.nth(left).unwrap_or(domain)
}

/// A subtree of one of the forms that a name may have: for a dNSName the domain,
/// or no text at all; for an SRVName the service, the domain or both.
fn restriction(random: &mut Random, kind: u8, service: &[u8], domain: &[u8]) -> Node {
    let text = match (kind, random.below(6)) {
        (SRV, 0..=1) => [b"_", service].concat(),
        (SRV, 2..=3) => name_text(SRV, service, domain),
        (DNS, 0) => Vec::new(),
        _ => domain.to_vec(),
    };
    let text = other_case(random, text);
    subtree(general_name(kind, &text))
}

/// The text of a subtree that is like a name, but mostly does not hold it.
fn beside(random: &mut Random, kind: u8, text: &[u8]) -> Vec<u8> {
    let (service, domain) = words(kind, text).unwrap_or((b"m", b"a.b"));
    let parent = domain.splitn(2, |&byte| byte == b'.').nth(1);
    let domain = match random.below(6) {
        0 => b"idle.a".to_vec(),
        1 => [b"x", domain].concat(),
        2 => joined(b"q".to_vec(), parent.unwrap_or(b"idle")),
        3 => joined(b"x".to_vec(), domain),
        4 => [domain, b"x"].concat(),
        _ => joined(b"y.x".to_vec(), domain),
    };
    let text = match kind {
        SRV if random.one_in(2) => name_text(SRV, service, &domain),
        _ => domain,
    };
    other_case(random, text)
}

/// A subtree that is near a name: the same, one label up or down or two, one
/// beside it, one that ends inside of a label, or no text at all; in one of 24 a
/// text that is mostly no restriction.
fn near(random: &mut Random, kind: u8, text: &[u8]) -> Node {
    let (service, domain) = words(kind, text).unwrap_or((b"m", b"a.b"));
    let parent = domain.splitn(2, |&byte| byte == b'.').nth(1);
    let parent = parent.unwrap_or_default();
    let near = match random.below(13) {
        0..=1 => domain.to_vec(),
        2 => parent.to_vec(),
        3 => last_labels(random, domain).to_vec(),
        4..=5 => joined(b"x".to_vec(), domain),
        6 => joined(b"y.x".to_vec(), domain),
        7 => joined(b"q".to_vec(), parent),
        8 => [b"x", domain].concat(),
        9 if domain.get(1).is_some_and(u8::is_ascii_alphanumeric) => domain[1..].to_vec(),
        10..=11 => other_byte(random, domain.to_vec()),
        12 => Vec::new(),
        _ => domain.to_vec(),
    };
    let near = match kind {
        SRV if random.one_in(3) => return restriction(random, SRV, service, &near),
        SRV if near.is_empty() => [b"_", service].concat(),
        _ if random.one_in(24) => crooked(random, near),
        _ => near,
    };
    let near = other_case(random, near);
    subtree(general_name(kind, &near))
}

/// A text that is mostly no restriction.
fn crooked(random: &mut Random, text: Vec<u8>) -> Vec<u8> {
    match random.below(6) {
        0 => joined(Vec::new(), &text),
        1 => [text.as_slice(), b"."].concat(),
        2 => joined(b"*".to_vec(), &text),
        3 => numbered(random, &text),
        4 if !text.is_empty() => near_miss(random, text),
        _ => b"10.4.0.7".to_vec(),
    }
}

/// Spoils the lengths: their count, their sum, their bytes or where they cut.
pub fn spoil_lengths(random: &mut Random, chain: &mut Chain) {
    let lengths = &mut chain.lengths;
    let one = 2 * random.below((lengths.len() / 2).max(1));
    match random.below(14) {
        0 => drop(lengths.pop()),
        1 => lengths.push(0),
        2 => lengths.insert(0, 0),
        3 => lengths.chunks_exact_mut(2).for_each(|pair| pair.swap(0, 1)),
        4 => change(lengths, one, 1),
        5 => change(lengths, one, -1),
        6 => change(lengths, one, *random.pick(&[256, -256])),
        7 => lengths.truncate(lengths.len().saturating_sub(2)),
        8 => lengths.extend([0, random.byte()]),
        9 => lengths.extend([0; 2 * MOST_ISSUERS]),
        10 => {
            // The same sum, cut at another place.
            change(lengths, one, 1);
            change(lengths, one + 2, -1);
        }
        11 => lengths.clear(),
        12 => {
            // The right sum, less what 16 bits hold.
            let place = 2 * random.place(lengths.len() / 2);
            drop(lengths.splice(place..place, [0x40, 0].repeat(4)));
        }
        _ => chain.bytes.push(random.byte()),
    }
    if random.one_in(8) {
        // Nine of them, or more, need not have another sum.
        lengths_of_nine(chain);
    }
}

/// Adds a number to the length at this place, if there is one.
fn change(lengths: &mut [u8], place: usize, by: i32) {
    if let Some(pair) = lengths.get_mut(place..place + 2) {
        let length = i32::from(pair[0]) << 8 | i32::from(pair[1]);
        pair.copy_from_slice(&((length + by) as u16).to_be_bytes());
    }
}

/// Nine lengths, with the right sum if that has two bytes.
fn lengths_of_nine(chain: &mut Chain) {
    chain.lengths = vec![0; 2 * MOST_ISSUERS];
    chain
        .lengths
        .extend((chain.bytes.len() as u16).to_be_bytes());
}
