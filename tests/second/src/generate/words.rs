//! Texts of names: domains, services and schemes that fit each other, and near
//! misses.

use super::flips::{flipped, other_case};
use super::Random;
use crate::examples::domain_of;
use crate::text::has_two_labels;

const LABELS: [&str; 14] = [
    "a", "b", "desk", "branch", "example", "0x", "xn--p1ai", "ab--c", "a-b", "www", "host", "com",
    "k9", "Z",
];
/// Labels of digits alone, which end no domain (request 2/13).
const NUMBERS: [&str; 8] = ["7", "7", "10", "10", "0", "9", "1", "0123456789"];
/// Labels that are digits save one byte.
const NEAR_NUMBERS: [&str; 8] = ["7b", "7b", "b7", "0x7", "7-7", "1a0", "Z9", "8--8"];
/// Addresses, and texts like them.
const ADDRESSES: [&str; 8] = [
    "10.4.0.7",
    "10.4.0.7",
    "192.0.2.1",
    "4.7",
    "1.2.3.4.5",
    "10.4.0.7b",
    "10.4.0x7.b7",
    "a.4.0.7",
];
const SERVICES: [&str; 6] = ["m", "mail", "ntp", "xmpp-server", "s1", "9"];
const SCHEMES: [&str; 7] = ["http", "https", "sip", "ldap+x", "a.b-c", "h", "x9"];

/// The words of one case. They are few, so that pairs often match.
pub struct Pool {
    pub domains: Vec<Vec<u8>>,
    pub services: Vec<Vec<u8>>,
    pub schemes: Vec<Vec<u8>>,
}

impl Pool {
    pub fn new(random: &mut Random) -> Self {
        let base = base_domain(random);
        let child = joined(label(random), &base);
        let mut domains = vec![base.clone(), child.clone(), child];
        if ends_in_digits(&base) {
            domains[2].push(b'b');
        }
        if random.one_in(2) {
            domains.push(joined(label(random), &domains[1]));
        }
        if random.one_in(3) {
            // A longer last part of the text, but another label.
            domains.push([b"1", base.as_slice()].concat());
        }
        if random.one_in(4) {
            domains.push(base_domain(random));
        }
        if random.one_in(12) {
            domains.push(long_domain(random, &base));
        }
        if random.one_in(10) {
            domains.push(numbered(random, &domains[1]));
        }
        let services = (0..random.between(1, 2)).map(|_| service(random)).collect();
        let schemes = (0..random.between(1, 2)).map(|_| scheme(random)).collect();
        Pool {
            domains,
            services,
            schemes,
        }
    }

    /// A domain, perhaps in other letter case.
    pub fn domain(&self, random: &mut Random) -> Vec<u8> {
        let domain = random.pick(&self.domains).clone();
        other_case(random, domain)
    }

    /// A domain with the two labels that a record needs, and mostly not with a
    /// last label of digits: the third of the pool always is such a one.
    /// Perhaps in other letter case.
    pub fn asked(&self, random: &mut Random) -> Vec<u8> {
        let domain = random.pick(&self.domains);
        let fits = has_two_labels(domain) && (!ends_in_digits(domain) || random.one_in(3));
        let asked = match fits {
            true => domain.clone(),
            false => self.domains[2].clone(),
        };
        other_case(random, asked)
    }

    /// A domain for a restriction, mostly not with a last label of digits.
    pub fn around(&self, random: &mut Random) -> Vec<u8> {
        let domain = self.domain(random);
        if ends_in_digits(&domain) && !random.one_in(4) {
            return self.domains[2].clone();
        }
        domain
    }

    /// A domain, or one with its first label made a wildcard.
    pub fn dns_id(&self, random: &mut Random) -> Vec<u8> {
        let domain = self.domain(random);
        match domain.iter().position(|&byte| byte == b'.') {
            Some(dot) if random.below(5) < 2 => [b"*", &domain[dot..]].concat(),
            _ => domain,
        }
    }

    pub fn service(&self, random: &mut Random) -> Vec<u8> {
        let service = random.pick(&self.services).clone();
        other_case(random, service)
    }

    pub fn scheme(&self, random: &mut Random) -> Vec<u8> {
        let scheme = random.pick(&self.schemes).clone();
        other_case(random, scheme)
    }

    pub fn srv_id(&self, random: &mut Random) -> Vec<u8> {
        [
            b"_",
            self.service(random).as_slice(),
            b".",
            &self.domain(random),
        ]
        .concat()
    }

    /// An SRVName whose shape is wrong in one place.
    pub fn crooked_srv(&self, random: &mut Random) -> Vec<u8> {
        let (service, domain) = (self.service(random), self.dns_id(random));
        match random.below(10) {
            0 => [service.as_slice(), b".", &domain].concat(),
            1 => [b"__", service.as_slice(), b".", &domain].concat(),
            2 => [b"_", service.as_slice(), b"._tcp.", &domain].concat(),
            3 => [b"_.", domain.as_slice()].concat(),
            4 => [b"_", service.as_slice(), b"-.", &domain].concat(),
            5 => [b"_-", service.as_slice(), b".", &domain].concat(),
            6 => [b"_", service.as_slice(), b"."].concat(),
            7 => [b"_", service.as_slice()].concat(),
            8 => [b"_", service.as_slice(), b".*.", &domain].concat(),
            _ => [b"_", service.as_slice(), b".", &domain].concat(),
        }
    }
}

/// One label, mostly the last of a domain of the pool.
pub fn one_label(pool: &Pool, random: &mut Random) -> Vec<u8> {
    let domain = pool.domain(random);
    match domain.rsplit(|&byte| byte == b'.').next() {
        Some(last) if !random.one_in(4) => last.to_vec(),
        _ => label(random),
    }
}

/// Whether the last label is all digits.
fn ends_in_digits(domain: &[u8]) -> bool {
    let last = domain.rsplit(|&byte| byte == b'.').next();
    last.is_some_and(|last| last.iter().all(u8::is_ascii_digit))
}

/// The domain with another last label, or with one more, of digits alone or
/// nearly so.
pub fn numbered(random: &mut Random, domain: &[u8]) -> Vec<u8> {
    let mut labels: Vec<&[u8]> = domain.split(|&byte| byte == b'.').collect();
    let label = match random.below(3) {
        0 => near_number(random),
        _ => number(random),
    };
    if !random.one_in(3) {
        labels.pop();
    }
    labels.push(&label);
    labels.join(&b'.')
}

/// A label of digits alone, now and then of 62 to 64.
fn number(random: &mut Random) -> Vec<u8> {
    match random.below(12) {
        0 => vec![*random.pick(b"0123456789"); random.between(62, 64)],
        1 => (0..random.between(1, 12))
            .map(|_| *random.pick(b"0123456789"))
            .collect(),
        _ => random.pick(&NUMBERS).as_bytes().to_vec(),
    }
}

/// A label of digits with one other byte somewhere, or in place of a digit.
fn near_number(random: &mut Random) -> Vec<u8> {
    if !random.one_in(3) {
        return random.pick(&NEAR_NUMBERS).as_bytes().to_vec();
    }
    let mut label = number(random);
    let at = random.below(label.len());
    let other = *random.pick(b"azAZbx--/:");
    match random.below(2) {
        0 => label[at] = other,
        _ => label.insert(at, other),
    }
    label
}

/// A domain of one to three labels, now and then like an address or of many
/// labels.
fn base_domain(random: &mut Random) -> Vec<u8> {
    match random.below(60) {
        0 => return random.pick(&ADDRESSES).as_bytes().to_vec(),
        1 => return deep_domain(random.between(4, 120)),
        _ => {}
    }
    let mut domain = label(random);
    for _ in 0..*random.pick(&[0, 1, 1, 2, 2]) {
        domain = joined(label(random), &domain);
    }
    domain
}

/// A label, a dot and the labels behind it.
pub fn joined(mut label: Vec<u8>, parent: &[u8]) -> Vec<u8> {
    label.push(b'.');
    label.extend(parent);
    label
}

/// A domain of this many labels of one letter each.
pub fn deep_domain(labels: usize) -> Vec<u8> {
    vec![b"d".as_slice(); labels].join(&b'.')
}

/// A word over an alphabet, of up to 64 bytes.
fn word(random: &mut Random, alphabet: &[u8]) -> Vec<u8> {
    let length = random.between(1, 64);
    (0..length).map(|_| *random.pick(alphabet)).collect()
}

/// A label, now and then of 62 to 64 bytes or with a hyphen at an end; in one
/// of thirty of digits alone, and in one of twenty nearly so.
fn label(random: &mut Random) -> Vec<u8> {
    match random.below(120) {
        0 => b"-a".to_vec(),
        1 => b"a-".to_vec(),
        2..=3 => vec![b'l'; random.between(62, 64)],
        4..=7 => word(random, b"aZ09kxyL-"),
        8..=11 => number(random),
        12..=17 => near_number(random),
        _ => random.pick(&LABELS).as_bytes().to_vec(),
    }
}

/// A domain of 250 to 254 bytes that ends in the base's labels, where it fits,
/// or one of many labels that ends in them; in one of four with a number or
/// nearly one in place of the base.
fn long_domain(random: &mut Random, base: &[u8]) -> Vec<u8> {
    let base = match random.below(8) {
        0 => number(random),
        1 => near_number(random),
        _ => base.to_vec(),
    };
    if random.one_in(2) {
        return joined(deep_domain(random.between(4, 120)), &base);
    }
    let room = random.between(250, 254).saturating_sub(base.len() + 1);
    joined(domain_of(room.max(1)), &base)
}

/// A service, now and then of 61 to 64 bytes or with a hyphen at an end.
fn service(random: &mut Random) -> Vec<u8> {
    match random.below(90) {
        0 => b"-m".to_vec(),
        1 => b"m-".to_vec(),
        2..=4 => vec![b's'; random.between(61, 64)],
        5..=8 => word(random, b"mS09xyzK-"),
        _ => random.pick(&SERVICES).as_bytes().to_vec(),
    }
}

/// A scheme, now and then of 62 to 64 bytes or with a digit first.
fn scheme(random: &mut Random) -> Vec<u8> {
    match random.below(90) {
        0 => b"9x".to_vec(),
        1..=3 => vec![b'u'; random.between(62, 64)],
        4..=8 => [b"u", word(random, b"uX9+-.").as_slice()].concat(),
        _ => random.pick(&SCHEMES).as_bytes().to_vec(),
    }
}

/// A text one step away from this one, which is not empty.
pub fn near_miss(random: &mut Random, mut text: Vec<u8>) -> Vec<u8> {
    const ODD: &[u8] = b".-*_@:/?#\0 a0Z\x7F";
    let at = random.below(text.len());
    match random.below(14) {
        0..=2 => return flipped(random, text),
        3 => text[at] ^= 1 << random.below(7),
        4 => text[at] = *random.pick(ODD),
        5 => text.insert(at, *random.pick(ODD)),
        6 => text.push(*random.pick(ODD)),
        7 => drop(text.remove(at)),
        8 => text.truncate(at),
        9 => drop(text.splice(at..at, text.clone())),
        _ => return other_labels(random, &text),
    }
    text
}

/// The text with one label more, less or changed.
fn other_labels(random: &mut Random, text: &[u8]) -> Vec<u8> {
    let mut labels: Vec<&[u8]> = text.split(|&byte| byte == b'.').collect();
    let at = random.below(labels.len());
    match random.below(10) {
        0 => drop(labels.remove(at)),
        1 => labels.insert(at, b"x"),
        2 => labels[at] = b"*",
        3 => labels.insert(0, b"*"),
        4 => labels[at] = b"w*",
        5 => labels.push(b""),
        7..=8 => return numbered(random, text),
        9 => labels[at] = b"7",
        _ => labels.swap(at, 0),
    }
    labels.join(&b'.')
}
