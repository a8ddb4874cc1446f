//! The verdict and its witness.

use crate::constraints::Restrictions;
use crate::issuers::Issuers;
use crate::name::{kind as row_kind, Name};
use crate::records::{kind, Reference, References};
use crate::text::{self, same_text, Pair};
use crate::{answer, longest, san, subject};

/// "A verdict is five numbers: answer, reference index, presented index,
/// start, length." Request 6/13: "The verdict record grows a sixth number, the
/// issuer's index, zero except with answer 2".
#[derive(Clone, Copy, Debug, Default, PartialEq, Eq)]
pub struct Verdict {
    pub answer: u32,
    pub reference: u32,
    pub presented: u32,
    pub start: u32,
    pub length: u32,
    pub issuer: u32,
}

impl Verdict {
    /// The six numbers, in order.
    pub fn numbers(&self) -> [u32; 6] {
        [
            self.answer,
            self.reference,
            self.presented,
            self.start,
            self.length,
            self.issuer,
        ]
    }
}

/// The place of the witness's text: in the subject for a CN reference, else in
/// the SAN. Zeros on any answer but 0.
#[derive(Clone, Copy, Debug, Default, PartialEq, Eq)]
pub struct Place {
    pub start: u32,
    pub length: u32,
}

/// A verdict and the place of its witness's text.
#[derive(Clone, Copy, Debug, Default, PartialEq, Eq)]
pub struct Outcome {
    pub verdict: Verdict,
    pub text: Place,
}

impl Outcome {
    /// An answer whose other numbers are zeros.
    fn bare(answer: u32) -> Self {
        Outcome {
            verdict: Verdict {
                answer,
                ..Verdict::default()
            },
            text: Place::default(),
        }
    }

    /// "an SRVName breaks the constraints: presented index of the first that
    /// does; the rest zero". Since request 6/13 a dNSName may, and the issuer's
    /// index stands beside it.
    fn broken(issuer: usize, presented: usize) -> Self {
        let mut outcome = Outcome::bare(answer::CONSTRAINTS_BROKEN);
        outcome.verdict.presented = presented as u32;
        outcome.verdict.issuer = issuer as u32;
        outcome
    }

    /// "match: the witnessing pair, and its element's place"
    fn witness(reference: usize, name: Name<'_>) -> Self {
        let verdict = Verdict {
            answer: answer::MATCH,
            reference: reference as u32,
            presented: name.row.group as u32,
            start: name.row.start as u32,
            length: name.row.length as u32,
            issuer: 0,
        };
        let text = Place {
            start: name.text_start as u32,
            length: name.text.len() as u32,
        };
        Outcome { verdict, text }
    }
}

/// The six numbers of the verdict.
pub fn verdict(
    san: &[u8],
    subject: &[u8],
    constraints: &[u8],
    lengths: &[usize],
    references: &[u8],
) -> Verdict {
    judge(san, subject, constraints, lengths, references).verdict
}

/// The place of the witness's text.
pub fn text_place(
    san: &[u8],
    subject: &[u8],
    constraints: &[u8],
    lengths: &[usize],
    references: &[u8],
) -> Place {
    judge(san, subject, constraints, lengths, references).text
}

/// The verdict and its witness, for constraint strings end to end and their
/// lengths.
pub fn judge(
    san: &[u8],
    subject: &[u8],
    constraints: &[u8],
    lengths: &[usize],
    references: &[u8],
) -> Outcome {
    let issuers = Issuers::cut(constraints, lengths.iter().copied());
    judge_under(san, subject, issuers, references)
}

/// The same for lengths as C hands them over.
pub fn judge_from_c(
    san: &[u8],
    subject: &[u8],
    constraints: &[u8],
    lengths: &[u8],
    references: &[u8],
) -> Outcome {
    let issuers = Issuers::from_c(constraints, lengths);
    judge_under(san, subject, issuers, references)
}

/// "Order for a verdict: 7 for any of the four inputs, then 6, 3, 4, 5, 2,
/// then 0 or 1." The pairs are looked for while the names are read.
fn judge_under(
    san: &[u8],
    subject: &[u8],
    issuers: Option<Issuers<'_>>,
    references: &[u8],
) -> Outcome {
    let too_long = san.len() > longest::SAN
        || subject.len() > longest::SUBJECT
        || references.len() > longest::REFERENCES;
    let Some(issuers) = issuers.filter(|_| !too_long) else {
        return Outcome::bare(answer::TOO_LONG);
    };
    let Some(references) = References::read(references) else {
        return Outcome::bare(answer::REFERENCES_UNREADABLE);
    };
    let mut search = Search::new(references.as_slice());
    if san::read(san, |entry| search.entry(entry)).is_none() {
        return Outcome::bare(answer::SAN_UNREADABLE);
    }
    let read = subject::read(subject, |_| (), |name| search.common_name(name));
    if read.is_none() {
        return Outcome::bare(answer::SUBJECT_UNREADABLE);
    }
    let strings = issuers.strings().iter();
    let read: Option<Vec<Restrictions>> =
        strings.map(|string| Restrictions::read(string)).collect();
    let Some(restrictions) = read else {
        return Outcome::bare(answer::CONSTRAINTS_UNREADABLE);
    };
    match first_breach(san, &restrictions) {
        Some((issuer, presented)) => Outcome::broken(issuer, presented),
        None => search.outcome(),
    }
}

/// The indexes of an issuer whose string is broken and of the entry that breaks
/// it. Request 6/13: "All of them must hold." "lowest issuer first, then lowest
/// name".
fn first_breach(san: &[u8], restrictions: &[Restrictions]) -> Option<(usize, usize)> {
    let mut issuers = restrictions.iter().enumerate();
    issuers.find_map(|(issuer, string)| Some((issuer, string.first_broken(san)?)))
}

/// The search for "the first pair": lowest reference, then lowest name. Names
/// come in order; once a reference has matched, only lower ones are still
/// compared, so the last pair found is the first.
struct Search<'a> {
    /// The references before the lowest that has matched.
    open: &'a [Reference<'a>],
    /// The name that matched the reference at index `open.len()`.
    found: Option<Name<'a>>,
    /// Whether the SAN has a name that keeps CN references from counting.
    blocked: bool,
}

impl<'a> Search<'a> {
    fn new(references: &'a [Reference<'a>]) -> Self {
        Search {
            open: references,
            found: None,
            blocked: false,
        }
    }

    fn outcome(&self) -> Outcome {
        match self.found {
            Some(name) => Outcome::witness(self.open.len(), name),
            None => Outcome::bare(answer::MISMATCH),
        }
    }

    /// Compares one SAN entry. "CN references count only if the SAN has no
    /// entry tagged 82 or 86 and no SRVName, readable as a name or not."
    /// Request 1/13: "A dNSName that is no longer a DNS-ID still blocks the
    /// CN." So does one that ends in digits, and a URI or an SRVName (2/13).
    #[inline]
    fn entry(&mut self, name: Name<'a>) {
        match name.row.kind {
            row_kind::DNS => self.domain(kind::DNS, name),
            row_kind::SRV => self.pair(kind::SRV, text::srv_parts, name),
            row_kind::URI => self.pair(kind::URI, text::uri_parts, name),
            _ => return,
        }
        self.blocked = true;
    }

    /// Compares the only CN of a set: "tag 0C, 13 or 16, in a set that has
    /// exactly one CN attribute".
    fn common_name(&mut self, name: Name<'a>) {
        if !self.blocked && name.row.kind == row_kind::CN {
            self.domain(kind::CN, name);
        }
    }

    /// "DNS-ID: a dNSName that is a domain, or `*.` and a domain [...]. `*`
    /// stands for exactly one whole label of the reference." Request 1/13:
    /// "From now on a wildcard needs at least two labels after it, in DNS-ID
    /// and CN-ID"; a reference has a parent only where that has them. A text
    /// equal to the domain of a record, or to a part of it from a label on,
    /// needs no test of its own: it is a domain, not too long, and its last
    /// label is the record's, which has more than digits (request 2/13).
    #[inline]
    fn domain(&mut self, kind: u8, name: Name<'a>) {
        match name.text.strip_prefix(b"*.") {
            None => self.offer(name, kind, |reference| {
                same_text(name.text, reference.domain)
            }),
            Some(rest) => self.offer(name, kind, |reference| {
                let parent = reference.parent;
                parent.is_some_and(|parent| same_text(rest, parent))
            }),
        }
    }

    /// "Service or scheme and domain must both match, without case." The parts
    /// need no test of their own: they are equal to those of a record.
    fn pair(&mut self, kind: u8, parts: fn(&[u8]) -> Option<Pair<'_>>, name: Name<'a>) {
        if !self.open.iter().any(|reference| reference.kind == kind) {
            return;
        }
        if let Some((service, domain)) = parts(name.text) {
            self.offer(name, kind, |reference| {
                same_text(domain, reference.domain) && same_text(service, reference.service)
            });
        }
    }

    /// "A reference matches only its own kind."
    #[inline]
    fn offer(&mut self, name: Name<'a>, kind: u8, matches: impl Fn(&Reference<'a>) -> bool) {
        let lowest = self
            .open
            .iter()
            .position(|reference| reference.kind == kind && matches(reference));
        if let Some(reference) = lowest {
            self.open = &self.open[..reference];
            self.found = Some(name);
        }
    }
}
