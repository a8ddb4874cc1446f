//! Request 7/13: certificates of 400 and of 1,000 names for sixteen references of
//! mixed kinds. A name at every tenth place matches one of these, or none does.

use super::{base, Case, Line, Taker};
use crate::records::kind::{CN, DNS, SRV, URI};
use crate::records::MOST_RECORDS;
use crate::tree::*;

const MANY: usize = 400;
const MOST: usize = 1_000;

/// Hands over the lines about many names.
pub fn each(take: Taker) {
    let ways = [
        Way::Kinds(DNS),
        Way::Kinds(SRV),
        Way::Kinds(URI),
        Way::Wildcard,
        Way::Shared(8),
        Way::OneByte,
        Way::OtherCase,
    ];
    for (count, more) in [
        (MANY, [Way::Shared(16), Way::Shared(24)].as_slice()),
        (MOST, &[]),
    ] {
        for &way in ways.iter().chain(more) {
            for place in (0..count).step_by(10) {
                take(way.line(count, Some(place)));
            }
            take(way.line(count, None));
        }
    }
}

/// What the names are, and which of them matches.
#[derive(Clone, Copy, Debug)]
enum Way {
    /// Names of three kinds, some of them wildcards; one of this kind matches.
    Kinds(u8),
    /// The same; a wildcard matches.
    Wildcard,
    /// dNSNames that have so many first bytes in common with what is asked for.
    Shared(usize),
    /// dNSNames that differ from what is asked for in a byte, at each place in
    /// turn.
    OneByte,
    /// The same before the place; from there on all match, and differ in the case
    /// of letters.
    OtherCase,
}

impl Way {
    /// A certificate of so many names, of which the one at this place matches.
    fn line(self, count: usize, place: Option<usize>) -> Line {
        let name = |index: usize| match place {
            Some(place) if index == place => self.presented(count),
            Some(place) if index > place => self.behind(count, index),
            _ => self.other(count, index),
        };
        let entries = (0..count).map(name);
        let entries = entries.map(|(kind, domain)| {
            let text = name_text(kind, service(kind), &domain);
            general_name(kind, &text)
        });
        let case = Case {
            san: san(entries.collect()).write(),
            references: self.references(count, place.unwrap_or(50) / 10 % MOST_RECORDS),
            ..base()
        };
        (format!("{count} names, {self:?}, match at {place:?}"), case)
    }

    /// The domain that is asked for.
    fn asked(self, count: usize) -> Vec<u8> {
        let asked = match (self, count) {
            (Way::Shared(length), _) => return shared(length, "xyz"),
            (Way::Kinds(_) | Way::Wildcard, MOST) => "till.b.d",
            (_, MOST) => "till-1.linz.b",
            _ => "till-0001.linz.branch.example",
        };
        asked.as_bytes().to_vec()
    }

    /// Kind and domain of the name that matches.
    fn presented(self, count: usize) -> (u8, Vec<u8>) {
        let asked = self.asked(count);
        match self {
            Way::Kinds(kind) => (kind, asked.to_ascii_uppercase()),
            Way::Wildcard => (DNS, starred(&asked)),
            _ => (DNS, asked),
        }
    }

    /// A name behind that one.
    fn behind(self, count: usize, index: usize) -> (u8, Vec<u8>) {
        if !matches!(self, Way::OtherCase) {
            return self.other(count, index);
        }
        let mut text = self.asked(count);
        for (place, byte) in text.iter_mut().enumerate() {
            if index >> (place % 7) & 1 == 1 {
                *byte = byte.to_ascii_uppercase();
            }
        }
        (DNS, text)
    }

    /// A name that matches nothing.
    fn other(self, count: usize, index: usize) -> (u8, Vec<u8>) {
        match self {
            Way::Kinds(_) | Way::Wildcard if index % 7 == 3 => {
                // A label less than a wildcard that would match.
                (DNS, starred(&starred(&host(count, 'd', index))[2..]))
            }
            Way::Kinds(_) | Way::Wildcard => {
                ([DNS, SRV, URI, DNS][index % 4], host(count, 'd', index))
            }
            Way::Shared(length) => (DNS, shared(length, &format!("{index:03}"))),
            Way::OneByte | Way::OtherCase => {
                let asked = self.asked(count);
                let byte = b"qyk7"[index / asked.len() % 4];
                (DNS, other_byte(asked, index, byte))
            }
        }
    }

    /// Sixteen records; the one at this index asks for the name that matches. Those
    /// of CNs ask for the subject's, which the names keep from counting.
    fn references(self, count: usize, asking: usize) -> Vec<u8> {
        let (kind, _) = self.presented(count);
        let mut records: Vec<Vec<u8>> = (0..MOST_RECORDS)
            .map(|index| {
                let kind = [DNS, SRV, URI, CN][index % 4];
                let domain = match self {
                    _ if kind == CN => b"a.b".to_vec(),
                    Way::Kinds(_) | Way::Wildcard => host(count, 'q', index),
                    Way::Shared(length) => shared(length, &format!("q{index:02}")),
                    _ => other_byte(self.asked(count), index, b'w'),
                };
                record(kind, service(kind), &domain)
            })
            .collect();
        records[asking] = record(kind, service(kind), &self.asked(count));
        records.concat()
    }
}

fn service(kind: u8) -> &'static [u8] {
    match kind {
        SRV | URI => b"m",
        _ => b"",
    }
}

/// A domain for each letter and number, shorter where there are more of them.
fn host(count: usize, first: char, number: usize) -> Vec<u8> {
    let host = match count {
        MOST => format!("{first}{number:03}.b.c"),
        _ => format!("{first}esk-{number:04}.graz.branch.example"),
    };
    host.into_bytes()
}

/// A domain of this many fixed bytes and three of its own in its first label.
fn shared(length: usize, own: &str) -> Vec<u8> {
    let fixed = &b"branch-of-the-north-east"[..length];
    [fixed, own.as_bytes(), b".b"].concat()
}

/// A star in place of the first label.
fn starred(domain: &[u8]) -> Vec<u8> {
    let label = domain.iter().take_while(|&&byte| byte != b'.').count();
    [b"*", &domain[label..]].concat()
}

/// The text with another byte at this place, counted round.
fn other_byte(mut text: Vec<u8>, place: usize, byte: u8) -> Vec<u8> {
    let place = place % text.len();
    text[place] = byte;
    text
}
