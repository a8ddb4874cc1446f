//! Reference records, and what is worked out of them once.

use super::texts::{is_scheme, is_service, labels, Labels};
use super::words::{any_of_32, is_zero, key};
use crate::records::kind::{CN, DNS, SRV, URI};
use crate::records::{DOMAIN, MOST_RECORDS, RECORD, SERVICE};

/// A record that may be read.
#[derive(Clone, Copy)]
pub struct Reference<'a>(&'a [u8; RECORD]);

impl<'a> Reference<'a> {
    /// The service or the scheme.
    #[inline(always)]
    pub fn service(self) -> &'a [u8] {
        &self.0[SERVICE..][..usize::from(self.0[2])]
    }

    #[inline(always)]
    pub fn domain(self) -> &'a [u8] {
        &self.0[DOMAIN..][..usize::from(self.0[3])]
    }
}

/// All records, the keys of those that ask for a dNSName, and which of them are
/// of which kind.
pub struct References<'a> {
    records: &'a [[u8; RECORD]],
    keys: [u64; MOST_RECORDS],
    /// One of 1,024 bits is set for each key.
    bits: [u64; 16],
    /// Bit n is set in the number of a kind that record n has.
    kinds: [u16; 5],
}

impl<'a> References<'a> {
    /// Before a record is read.
    #[inline(always)]
    pub fn new() -> Self {
        References {
            records: &[],
            keys: [0; MOST_RECORDS],
            bits: [0; 16],
            kinds: [0; 5],
        }
    }

    /// "Anything else, a total of 0 bytes, or one not divisible by 320 is answer
    /// 6." More than sixteen are too long before that. What is read stays where it
    /// is, and is not moved.
    #[inline(always)]
    pub fn read(&mut self, bytes: &'a [u8]) -> Option<()> {
        let (records, rest) = bytes.as_chunks();
        self.records = records;
        for (index, record) in records.iter().enumerate() {
            if !is_good(record) {
                return None;
            }
            self.note(index, record);
        }
        (!records.is_empty() && rest.is_empty()).then_some(())
    }

    #[inline(always)]
    fn note(&mut self, index: usize, record: &'a [u8; RECORD]) {
        self.kinds[usize::from(record[0])] |= 1 << index;
        if record[0] == DNS {
            let key = key(Reference(record).domain());
            self.keys[index] = key;
            self.bits[place(key)] |= bit(key);
        }
    }

    pub fn count(&self) -> usize {
        self.records.len()
    }

    /// Whether some dNSName reference may have this key.
    #[inline(always)]
    pub fn has_key(&self, key: u64) -> bool {
        self.bits[place(key)] & bit(key) != 0
    }

    pub fn key(&self, index: usize) -> u64 {
        self.keys[index]
    }

    /// The references before `limit` that are of this kind, one bit for each.
    #[inline(always)]
    pub fn open(&self, limit: usize, kind: u8) -> u16 {
        self.kinds[usize::from(kind)] & ((1u32 << limit) - 1) as u16
    }

    /// The lowest of the references before `limit` that is of this kind and
    /// matches; `limit` if none does.
    #[inline(always)]
    pub fn lowest(
        &self,
        limit: usize,
        kind: u8,
        matches: impl Fn(usize, Reference<'a>) -> bool,
    ) -> usize {
        let mut open = self.open(limit, kind);
        while open != 0 {
            let index = open.trailing_zeros() as usize;
            if matches(index, Reference(&self.records[index])) {
                return index;
            }
            open &= open - 1;
        }
        limit
    }
}

/// The word of a key's bit, and the bit in it.
#[inline(always)]
fn place(key: u64) -> usize {
    (key >> 60) as usize
}

#[inline(always)]
fn bit(key: u64) -> u64 {
    1 << (key >> 54 & 63)
}

/// Whether a record may be read. "Byte 1 zero. Byte 2 service length, byte 3
/// domain length. Bytes 4 to 66 service, 67 to 319 domain, each filled with
/// zeros." Request 1/13: "a reference record whose domain has one label is
/// refused with 6".
#[inline(always)]
fn is_good(record: &[u8; RECORD]) -> bool {
    let (services, domains) = record.split_at(DOMAIN);
    let Some((domain, filler)) = domains.split_at_checked(usize::from(record[3])) else {
        return false;
    };
    record[1] == 0
        && is_zero(filler)
        && labels(domain) == Labels::Several
        && is_good_service(record[0], record[2], services)
}

/// "Kinds 1 and 4 have service length 0. Kind 2: a service as defined below
/// [...] Kind 3: a URI scheme".
#[inline(always)]
fn is_good_service(kind: u8, length: u8, before_domain: &[u8]) -> bool {
    let end = SERVICE + usize::from(length);
    let service = before_domain.get(SERVICE..end);
    let filled = || is_zero(&before_domain[end..]);
    match kind {
        DNS | CN => {
            let overlapping = [SERVICE, DOMAIN - 32].map(|at| any_of_32(before_domain, at));
            length == 0 && overlapping == [0, 0]
        }
        SRV => service.is_some_and(|service| is_service(service) && filled()),
        URI => service.is_some_and(|scheme| is_scheme(scheme) && filled()),
        _ => false,
    }
}
