//! The search for the first pair, while the SAN and the subject are read.

use super::der::{element, general_name, only, GeneralName};
use super::records::References;
use super::subject;
use super::texts::{srv_matches, star_matches, uri_matches};
use super::words::{is_low, key, mixed, same, word};
use crate::general_name::DNS_NAME;
use crate::records::kind::{CN, DNS, SRV, URI};
use crate::san::SEQUENCE;
use crate::{answer, Verdict};

/// A dNSName whose text has 16 to 32 bytes, with its header.
const USUAL: usize = 34;

/// "the first pair": lowest reference, then lowest name. Names come in order; once
/// a reference has matched, only lower ones are still compared, so the last pair
/// found is the first.
pub struct Search<'r, 'a> {
    references: &'r References<'a>,
    /// The lowest reference that has matched, or their number.
    limit: usize,
    presented: usize,
    start: usize,
    length: usize,
    /// Whether the SAN has a name that keeps CN references from counting.
    blocked: bool,
}

impl<'r, 'a> Search<'r, 'a> {
    #[inline(always)]
    pub fn new(references: &'r References<'a>) -> Self {
        Search {
            limit: references.count(),
            references,
            presented: 0,
            start: 0,
            length: 0,
            blocked: false,
        }
    }

    /// What has been found.
    #[inline(always)]
    pub fn verdict(&self) -> Verdict {
        if self.limit == self.references.count() {
            return super::bare(answer::MISMATCH);
        }
        Verdict {
            answer: answer::MATCH,
            reference: self.limit as u32,
            presented: self.presented as u32,
            start: self.start as u32,
            length: self.length as u32,
            issuer: 0,
        }
    }

    /// Notes that a name matches a reference, if it is one before those that have
    /// matched.
    #[inline(always)]
    fn note(&mut self, reference: usize, presented: usize, start: usize, length: usize) {
        if reference < self.limit {
            self.limit = reference;
            (self.presented, self.start, self.length) = (presented, start, length);
        }
    }

    /// Reads the SAN: "tag 30, one or more GeneralNames". `None` is an unreadable
    /// one.
    #[inline(always)]
    pub fn read_san(&mut self, san: &[u8]) -> Option<()> {
        if san.is_empty() {
            return Some(());
        }
        let mut rest = only(san, SEQUENCE).filter(|entries| !entries.is_empty())?;
        let mut index = 0;
        while !rest.is_empty() {
            (rest, index) = self.read_usual(san, rest, index)?;
            if rest.is_empty() {
                break;
            }
            let (tag, content, behind) = element(rest)?;
            let reference = self.look_for(general_name(tag, content)?);
            let start = san.len() - rest.len();
            self.note(reference, index, start, rest.len() - behind.len());
            (rest, index) = (behind, index + 1);
        }
        Some(())
    }

    /// Reads dNSNames of 16 to 32 bytes as long as such come, and there is room
    /// for the longest of them: four words that overlap are the whole text.
    #[inline(always)]
    fn read_usual<'s>(
        &mut self,
        san: &[u8],
        mut rest: &'s [u8],
        mut index: usize,
    ) -> Option<(&'s [u8], usize)> {
        let before = index;
        while let Some(name) = rest.first_chunk::<USUAL>() {
            let length = usize::from(name[1]);
            if name[0] != DNS_NAME || !(16..=32).contains(&length) {
                break;
            }
            let words = [2, 10, length - 14, length - 6].map(|at| word(name, at));
            if !is_low(words[0] | words[1] | words[2] | words[3]) {
                return None;
            }
            let key = mixed(words);
            if self.references.has_key(key) || name[2] == b'*' {
                let reference = self.dns_name(&name[2..2 + length], key);
                self.note(reference, index, san.len() - rest.len(), length + 2);
            }
            (rest, index) = (&rest[length + 2..], index + 1);
        }
        self.blocked |= index > before;
        Some((rest, index))
    }

    /// The lowest reference that an entry matches, and still counts. "CN references
    /// count only if the SAN has no entry tagged 82 or 86 and no SRVName, readable
    /// as a name or not."
    #[inline(always)]
    fn look_for(&mut self, name: GeneralName) -> usize {
        match name {
            GeneralName::Dns(text) => {
                self.blocked = true;
                let key = key(text);
                if self.references.has_key(key) || text.first() == Some(&b'*') {
                    return self.dns_name(text, key);
                }
                self.limit
            }
            GeneralName::Srv(text) => {
                self.blocked = true;
                self.references.lowest(self.limit, SRV, |_, reference| {
                    srv_matches(text, reference.service(), reference.domain())
                })
            }
            GeneralName::Uri(text) => {
                self.blocked = true;
                self.uri(text)
            }
            GeneralName::Other => self.limit,
        }
    }

    /// The lowest reference that a dNSName with this key matches. A text equal to
    /// the domain of a record is one.
    #[inline(never)]
    fn dns_name(&self, text: &[u8], key: u64) -> usize {
        if text.starts_with(b"*.") {
            return self.wildcard(DNS, text);
        }
        let references = &self.references;
        references.lowest(self.limit, DNS, |index, reference| {
            references.key(index) == key && same(text, reference.domain())
        })
    }

    /// The lowest reference that a wildcard matches. Request 1/13: "a wildcard
    /// needs at least two labels after it, in DNS-ID and CN-ID".
    fn wildcard(&self, kind: u8, text: &[u8]) -> usize {
        if !text[2..].contains(&b'.') {
            return self.limit;
        }
        self.references.lowest(self.limit, kind, |_, reference| {
            star_matches(&text[1..], reference.domain())
        })
    }

    fn uri(&self, text: &[u8]) -> usize {
        if self.references.open(self.limit, URI) == 0 {
            return self.limit;
        }
        let has_at = text.contains(&b'@');
        self.references.lowest(self.limit, URI, |_, reference| {
            uri_matches(text, has_at, reference.service(), reference.domain())
        })
    }

    /// Reads the subject. `None` is an unreadable one.
    #[inline(always)]
    pub fn read_subject(&mut self, bytes: &[u8]) -> Option<()> {
        let counts = !self.blocked && self.references.open(self.limit, CN) != 0;
        subject::read(bytes, |name| {
            if counts {
                let reference = self.common_name(name.text);
                self.note(reference, name.set, name.start, name.length);
            }
        })
    }

    /// The lowest reference that a CN matches.
    fn common_name(&self, text: &[u8]) -> usize {
        if text.starts_with(b"*.") {
            return self.wildcard(CN, text);
        }
        self.references.lowest(self.limit, CN, |_, reference| {
            same(text, reference.domain())
        })
    }
}
