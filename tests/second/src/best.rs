//! The verdict once more, written for speed, as the measure of how fast ordinary
//! Rust is (request 7/13): no unsafe, no crates, nothing of one processor. It
//! gives the six numbers of `judge_from_c`.
//!
//! The SAN is read once. Each reference to a dNSName has a key, made of sixteen
//! bytes at either end of its domain; a dNSName whose key is none of these matches
//! none of them, however many there are. Texts are looked at eight or sixteen bytes
//! at a time.

mod constraints;
mod der;
mod records;
mod search;
mod subject;
mod texts;
mod words;

use crate::{answer, longest, Verdict, MOST_ISSUERS};
use constraints::Held;
use records::References;
use search::Search;

/// "Order for a verdict: 7 for any of the four inputs, then 6, 3, 4, 5, 2, then 0
/// or 1."
pub fn verdict_from_c(
    san: &[u8],
    subject: &[u8],
    constraints: &[u8],
    lengths: &[u8],
    references: &[u8],
) -> Verdict {
    let too_long = san.len() > longest::SAN
        || subject.len() > longest::SUBJECT
        || references.len() > longest::REFERENCES;
    if too_long || !is_cut(constraints.len(), lengths) {
        return bare(answer::TOO_LONG);
    }
    let mut read = References::new();
    if read.read(references).is_none() {
        return bare(answer::REFERENCES_UNREADABLE);
    }
    let mut search = Search::new(&read);
    if search.read_san(san).is_none() {
        return bare(answer::SAN_UNREADABLE);
    }
    if search.read_subject(subject).is_none() {
        return bare(answer::SUBJECT_UNREADABLE);
    }
    match held(san, constraints, lengths) {
        Held::Unreadable => bare(answer::CONSTRAINTS_UNREADABLE),
        Held::Broken { issuer, presented } => Verdict {
            presented: presented as u32,
            issuer: issuer as u32,
            ..bare(answer::CONSTRAINTS_BROKEN)
        },
        Held::Kept => search.verdict(),
    }
}

/// An answer whose other numbers are zeros.
fn bare(answer: u32) -> Verdict {
    Verdict {
        answer,
        ..Verdict::default()
    }
}

/// The lengths of the constraint strings: "From C each length is two bytes, high
/// first".
fn string_lengths(lengths: &[u8]) -> impl Iterator<Item = usize> + '_ {
    let pairs = lengths.as_chunks().0.iter();
    pairs.map(|pair| usize::from(u16::from_be_bytes(*pair)))
}

/// Request 6/13: "a ninth, or lengths with another sum, is 7, and each keeps its
/// own length limit"; "an odd count is 7".
#[inline(always)]
fn is_cut(size: usize, lengths: &[u8]) -> bool {
    let mut sum = 0;
    for length in string_lengths(lengths) {
        if length > longest::CONSTRAINTS {
            return false;
        }
        sum += length;
    }
    sum == size && lengths.len() <= 2 * MOST_ISSUERS && lengths.len().is_multiple_of(2)
}

/// Holds a readable SAN against the constraint strings, which the lengths cut.
/// Without a byte of them, all are empty and ask nothing.
#[inline(always)]
fn held(san: &[u8], constraints: &[u8], lengths: &[u8]) -> Held {
    if constraints.is_empty() {
        return Held::Kept;
    }
    let mut rest = constraints;
    constraints::hold(
        san,
        string_lengths(lengths).map(|length| {
            let (string, behind) = rest.split_at(length);
            rest = behind;
            string
        }),
    )
}
