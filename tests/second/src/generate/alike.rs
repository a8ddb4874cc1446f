//! Drafts in which names are the same as what is asked for, save for bit 20
//! (hex) of some bytes (request 5/13).

use super::draft::Draft;
use super::flips::{flipped, flipped_once, other_byte, other_case, place};
use super::words::joined;
use super::Random;
use crate::examples::LABEL;
use crate::records::kind::{CN, DNS, SRV, URI};
use crate::text::{LONGEST_DOMAIN, LONGEST_LABEL, LONGEST_SCHEME, LONGEST_SERVICE};
use crate::tree::*;

impl Draft {
    /// A certificate of names of one kind, all of them alike, and so are the
    /// records and the restrictions.
    pub fn alike(random: &mut Random) -> Self {
        let words = Words::new(random);
        let constrained = match words.kind {
            SRV => !random.one_in(3),
            DNS => random.one_in(3),
            _ => false,
        };
        let count = *random.pick(&[1, 1, 1, 2, 3]);
        let names = (0..count).map(|_| words.name(random, constrained));
        let names: Vec<Vec<u8>> = names.collect();
        let (entries, sets) = match words.kind {
            CN => (&[][..], &names[..]),
            _ => (&names[..], &[][..]),
        };
        let entry = |text: &Vec<u8>| general_name(words.kind, text);
        let set = |text: &Vec<u8>| rdn(vec![common_name(0x0C, text)]);
        let records = 0..*random.pick(&[1, 1, 1, 2, 3]);
        Draft {
            san: (!entries.is_empty()).then(|| san(entries.iter().map(entry).collect())),
            subject: Some(subject(sets.iter().map(set).collect())),
            constraints: match constrained {
                true => vec![Some(words.constraints(random))],
                false => Vec::new(),
            },
            references: records.map(|_| words.record(random)).collect(),
        }
    }
}

/// What all names of a draft have: a kind, a service or scheme where the kind
/// has one, and a domain.
struct Words {
    kind: u8,
    service: Vec<u8>,
    domain: Vec<u8>,
}

impl Words {
    fn new(random: &mut Random) -> Self {
        let kind = *random.pick(&[DNS, DNS, SRV, SRV, SRV, URI, URI, CN, CN]);
        let service = match kind {
            SRV => label(random, LONGEST_SERVICE),
            URI => scheme(random),
            _ => Vec::new(),
        };
        Words {
            kind,
            service,
            domain: domain(random),
        }
    }

    /// The text of a name. One that is held against restrictions is mostly a
    /// name of its kind still.
    fn name(&self, random: &mut Random, constrained: bool) -> Vec<u8> {
        let wildcard = matches!(self.kind, DNS | CN) && random.one_in(2);
        let dot = self.domain.iter().position(|&byte| byte == b'.');
        let mut text = match dot {
            Some(dot) if wildcard => [b"*", &self.domain[dot..]].concat(),
            _ => name_text(self.kind, &self.service, &self.domain),
        };
        match self.kind {
            URI if random.one_in(4) => text.extend(b":443"),
            CN if random.one_in(12) => {
                let place = place(random, &text);
                text[place] |= 0x80;
            }
            _ => {}
        }
        match random.below(8) {
            0 => other_case(random, text),
            1..=4 if constrained => other_case(random, text),
            1..=4 => flipped_once(random, text),
            5..=6 => flipped(random, text),
            _ => other_byte(random, text),
        }
    }

    /// A record that asks for the words; seldom one that no reader takes.
    fn record(&self, random: &mut Random) -> Vec<u8> {
        let mut texts = [self.service.clone(), self.domain.clone()];
        match random.below(12) {
            0 => {
                let text = &mut texts[random.below(2)];
                *text = flipped(random, text.clone());
            }
            1..=4 => texts = texts.map(|text| other_case(random, text)),
            _ => {}
        }
        record(self.kind, &texts[0], &texts[1])
    }

    fn constraints(&self, random: &mut Random) -> Node {
        let mut side = |most| -> Vec<Node> {
            let count = random.place(most);
            (0..count).map(|_| self.restriction(random)).collect()
        };
        match (side(2), side(1)) {
            (permitted, excluded) if permitted.is_empty() && excluded.is_empty() => {
                constraints(vec![self.restriction(random)], excluded)
            }
            (permitted, excluded) => constraints(permitted, excluded),
        }
    }

    /// The service, the last labels of the domain, or both; of a dNSName the last
    /// labels.
    fn restriction(&self, random: &mut Random) -> Node {
        let last = last_labels(random, &self.domain);
        let text = match random.below(3) {
            0 if self.kind == SRV => [b"_", self.service.as_slice()].concat(),
            1 if self.kind == SRV => name_text(SRV, &self.service, last),
            _ => last.to_vec(),
        };
        let text = match random.below(16) {
            0 => flipped(random, text),
            1..=5 => other_byte(random, text),
            _ => other_case(random, text),
        };
        subtree(general_name(self.kind, &text))
    }
}

/// All labels of a domain, or the last ones.
fn last_labels<'a>(random: &mut Random, domain: &'a [u8]) -> &'a [u8] {
    let place = random.below(domain.len());
    let dot = domain[place..].iter().position(|&byte| byte == b'.');
    match dot {
        Some(more) if random.one_in(2) => &domain[place + more + 1..],
        _ => domain,
    }
}

/// A label of up to so many bytes, of letters mostly.
fn label(random: &mut Random, longest: usize) -> Vec<u8> {
    const ENDS: &[u8] = b"aAzZbByYmMkKsS0189-";
    let next = *random.pick(&[7, 8, 9, 15, 16, 17, 62, 63, 63]);
    let length = match random.below(3) {
        0 => random.between(1, longest),
        1 => next.min(longest),
        _ => random.between(1, longest.min(6)),
    };
    let bytes = *random.pick(&[ENDS, &LABEL]);
    let mut label: Vec<u8> = (0..length).map(|_| *random.pick(bytes)).collect();
    for end in [0, length - 1] {
        if label[end] == b'-' {
            label[end] = b'q';
        }
    }
    label
}

/// A scheme, half of the time with `+`, `-` or `.` somewhere.
fn scheme(random: &mut Random) -> Vec<u8> {
    let mut scheme = label(random, LONGEST_SCHEME);
    if random.one_in(2) {
        let place = place(random, &scheme);
        scheme[place] = *random.pick(b"+-.");
    }
    if !scheme[0].is_ascii_alphabetic() {
        scheme[0] = b'Q';
    }
    scheme
}

/// A domain of two to four labels, or in one of eight of about as many bytes as
/// a domain may have.
fn domain(random: &mut Random) -> Vec<u8> {
    let mut domain = label(random, LONGEST_LABEL);
    if domain.iter().all(u8::is_ascii_digit) {
        domain[0] = b'Z';
    }
    let more = match random.below(8) {
        0 => LONGEST_DOMAIN,
        _ => random.between(1, 3),
    };
    for _ in 0..more {
        // A label and a dot.
        let room = LONGEST_DOMAIN - domain.len();
        if room < 2 {
            break;
        }
        domain = joined(label(random, LONGEST_LABEL.min(room - 1)), &domain);
    }
    domain
}
