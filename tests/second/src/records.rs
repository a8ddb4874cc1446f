//! Reference records.

use crate::text;
use crate::{answer, longest};

/// "Records of one fixed size, 320 bytes, no header; 1 to 16 of them."
pub const RECORD: usize = 320;
pub const MOST_RECORDS: usize = 16;

/// "Bytes 4 to 66 service, 67 to 319 domain"
pub(crate) const SERVICE: usize = 4;
pub(crate) const DOMAIN: usize = 67;

/// "Byte 0 kind: 1 DNS, 2 SRV, 3 URI, 4 CN."
pub mod kind {
    pub const DNS: u8 = 1;
    pub const SRV: u8 = 2;
    pub const URI: u8 = 3;
    pub const CN: u8 = 4;
}

/// A reference identifier: one readable record.
#[derive(Clone, Copy, Debug, Default)]
pub struct Reference<'a> {
    pub kind: u8,
    /// The service or the scheme.
    pub service: &'a [u8],
    pub domain: &'a [u8],
    /// The domain without its first label, which is what a wildcard leaves, if
    /// that has the two labels that a wildcard needs after it.
    pub parent: Option<&'a [u8]>,
}

impl<'a> Reference<'a> {
    /// Reads one record. "Byte 1 zero. Byte 2 service length, byte 3 domain
    /// length."
    fn read(record: &'a [u8]) -> Option<Self> {
        let [kind, zero, service_length, domain_length, ..] = *record else {
            return None;
        };
        let service = field(&record[SERVICE..DOMAIN], service_length)?;
        let domain = field(&record[DOMAIN..], domain_length)?;
        Reference::new(kind, service, domain).filter(|_| zero == 0)
    }

    /// What a record says, if it may. "Kinds 1 and 4 have service length 0. Kind
    /// 2: a service as defined below [...] Kind 3: a URI scheme [...] The domain
    /// is as defined below, without a wildcard." Request 1/13, of records of
    /// every kind: "a reference record whose domain has one label is refused
    /// with 6". Request 2/13, of what a domain is: "This holds for [...] records
    /// (6)".
    pub(crate) fn new(kind: u8, service: &'a [u8], domain: &'a [u8]) -> Option<Self> {
        let service_fits = match kind {
            kind::DNS | kind::CN => service.is_empty(),
            kind::SRV => text::is_service(service),
            kind::URI => text::is_scheme(service),
            _ => false,
        };
        let domain_fits = text::is_domain(domain) && text::has_two_labels(domain);
        let readable = service_fits && domain_fits;
        readable.then(|| Reference {
            kind,
            service,
            domain,
            parent: text::parent(domain),
        })
    }
}

/// The first `length` bytes of a field whose other bytes are all zero: "each
/// filled with zeros".
fn field(bytes: &[u8], length: u8) -> Option<&[u8]> {
    let (text, filler) = bytes.split_at_checked(usize::from(length))?;
    // A fold without an early exit, so that it runs many bytes at a time.
    let zeros = filler.iter().fold(0, |all, byte| all | byte) == 0;
    zeros.then_some(text)
}

/// All references of one check, in order.
pub struct References<'a> {
    list: [Reference<'a>; MOST_RECORDS],
    count: usize,
}

impl<'a> References<'a> {
    /// Reads all records. "Anything else, a total of 0 bytes, or one not
    /// divisible by 320 is answer 6."
    pub fn read(bytes: &'a [u8]) -> Option<Self> {
        let count = bytes.len() / RECORD;
        if !bytes.len().is_multiple_of(RECORD) || !(1..=MOST_RECORDS).contains(&count) {
            return None;
        }
        let mut list = [Reference::default(); MOST_RECORDS];
        for (place, record) in list.iter_mut().zip(bytes.chunks_exact(RECORD)) {
            *place = Reference::read(record)?;
        }
        Some(References { list, count })
    }

    pub fn as_slice(&self) -> &[Reference<'a>] {
        &self.list[..self.count]
    }
}

/// What the record reader tells of one record.
#[derive(Clone, Copy, Debug, Default, PartialEq, Eq)]
pub struct RecordView {
    pub answer: u32,
    pub kind: u32,
    pub service_length: u32,
    pub domain_length: u32,
}

/// "The record reader takes an index too: 7, then 6, else 0; beside it that
/// record's kind and two lengths, zeros on a refusal or past the last."
pub fn record(references: &[u8], index: usize) -> RecordView {
    if references.len() > longest::REFERENCES {
        return RecordView {
            answer: answer::TOO_LONG,
            ..RecordView::default()
        };
    }
    let Some(readable) = References::read(references) else {
        return RecordView {
            answer: answer::REFERENCES_UNREADABLE,
            ..RecordView::default()
        };
    };
    match readable.as_slice().get(index) {
        None => RecordView::default(),
        Some(reference) => RecordView {
            answer: 0,
            kind: u32::from(reference.kind),
            service_length: reference.service.len() as u32,
            domain_length: reference.domain.len() as u32,
        },
    }
}
