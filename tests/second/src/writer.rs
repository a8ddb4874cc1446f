//! The writers of request 4/13, for installers who "misspell SRVNames": one of
//! SAN values and one of reference records. Quoted sentences are the request's,
//! or document 01's where they say so.

use crate::general_name::{DNS_NAME, EXPLICIT, IA5_STRING, OID, OTHER_NAME, SRV_NAME_OID, URI};
use crate::records::{kind, Reference, DOMAIN, RECORD, SERVICE};
use crate::san::SEQUENCE;
use crate::{answer, longest, text};
use std::array;

/// Which of the two writers.
#[derive(Clone, Copy, Debug, Default, PartialEq, Eq)]
pub enum Writer {
    #[default]
    San,
    Records,
}

impl Writer {
    pub const ALL: [Writer; 2] = [Writer::San, Writer::Records];

    pub fn write(self, buffer: &mut [u8], lists: Lists<'_>) -> Written {
        match self {
            Writer::San => write_san(buffer, lists),
            Writer::Records => write_records(buffer, lists),
        }
    }

    /// "the SAN or records limit"
    pub fn longest(self) -> usize {
        match self {
            Writer::San => longest::SAN,
            Writer::Records => longest::REFERENCES,
        }
    }

    /// How many texts stand beside one kind: "a record's service, then its
    /// domain".
    pub fn texts_each(self) -> usize {
        match self {
            Writer::San => 1,
            Writer::Records => 2,
        }
    }
}

/// A list of names as it is handed to a writer. "Texts come end to end (a
/// record's service, then its domain) beside their lengths and their kinds,
/// numbered as in a record".
#[derive(Clone, Copy, Debug)]
pub struct Lists<'a> {
    pub texts: &'a [u8],
    pub lengths: &'a [usize],
    pub kinds: &'a [u8],
}

impl<'a> Lists<'a> {
    /// "no kinds is the empty list, lists that disagree or another kind are
    /// 22": each kind has `N` lengths, and the lengths cut the texts to their
    /// last byte. They are cut off one by one and not summed up: a sum of them
    /// may be too large for a number.
    fn judge<const N: usize>(self) -> Result<(), u32> {
        if self.kinds.is_empty() {
            return Err(answer::EMPTY_LIST);
        }
        let mut rest = self.texts;
        for &length in self.lengths {
            rest = rest.get(length..).ok_or(answer::UNFIT)?;
        }
        let beside = self.lengths.chunks_exact(N);
        let whole = beside.remainder().is_empty() && rest.is_empty();
        if whole && beside.len() == self.kinds.len() {
            Ok(())
        } else {
            Err(answer::UNFIT)
        }
    }

    /// Each kind with its texts, where the lists agree.
    fn names<const N: usize>(self) -> impl Iterator<Item = (u8, [&'a [u8]; N])> {
        let mut rest = self.texts;
        let mut cut = move |length: usize| {
            let (text, behind) = rest.split_at(length);
            rest = behind;
            text
        };
        let beside = self.lengths.chunks_exact(N);
        let texts = beside.map(move |lengths| array::from_fn(|place| cut(lengths[place])));
        self.kinds.iter().copied().zip(texts)
    }
}

/// What a writer answers: "each exactly then, with length 0".
#[derive(Clone, Copy, Debug, PartialEq, Eq)]
pub struct Written {
    pub answer: u32,
    pub length: usize,
}

/// Writes a SAN value: "a writer that takes a list of DNS, SRV and URI names and
/// puts a SAN value into a lent buffer".
pub fn write_san(buffer: &mut [u8], lists: Lists<'_>) -> Written {
    let content = san_content(lists);
    into(buffer, content.map(element_size), |mut pen| {
        pen.header(SEQUENCE, content.unwrap_or_default());
        for (kind, [text]) in lists.names() {
            pen.name(kind, text);
        }
    })
}

/// Writes reference records: "one that makes reference records from kind,
/// service and domain".
pub fn write_records(buffer: &mut [u8], lists: Lists<'_>) -> Written {
    into(buffer, records_size(lists), |mut pen| {
        for (kind, [service, domain]) in lists.names() {
            pen.bytes(&record(kind, service, domain));
        }
    })
}

/// Writes what has this size, or refuses: what the size is refused for comes
/// first, then "a buffer shorter than the result (24)". A refusal leaves "the
/// buffer untouched", and a result its end: "Bytes past the result stay."
fn into(buffer: &mut [u8], size: Result<usize, u32>, write: impl FnOnce(Pen)) -> Written {
    let refused = |answer| Written { answer, length: 0 };
    let length = match size {
        Err(answer) => return refused(answer),
        Ok(length) => length,
    };
    let Some(room) = buffer.get_mut(..length) else {
        return refused(answer::BUFFER_TOO_SHORT);
    };
    write(Pen { room });
    Written {
        answer: answer::WRITTEN,
        length,
    }
}

/// The size of all elements of a SAN. "Refuse, in this order, an empty list
/// (21), a text that isn't a name of its kind or has a byte above 127 [...]
/// (22), a result over the SAN or records limit (23)". Every text is judged
/// before the limit is.
fn san_content(lists: Lists<'_>) -> Result<usize, u32> {
    lists.judge::<1>()?;
    let mut content: usize = 0;
    for (kind, [text]) in lists.names() {
        if !is_name(kind, text) {
            return Err(answer::UNFIT);
        }
        content = content.saturating_add(name_size(kind, text));
    }
    // So that no size reckoned from it is too large for a number.
    if content > longest::SAN || element_size(content) > longest::SAN {
        return Err(answer::RESULT_TOO_LONG);
    }
    Ok(content)
}

/// Whether a SAN may hold this text under this kind.
pub(crate) fn is_name(kind: u8, text: &[u8]) -> bool {
    let fits = match kind {
        kind::DNS => text::is_dns_id(text),
        kind::SRV => text::srv_id(text).is_some(),
        kind::URI => text::is_uri_id(text),
        _ => false,
    };
    fits && text.is_ascii()
}

/// The size of the records, refused in the same order.
fn records_size(lists: Lists<'_>) -> Result<usize, u32> {
    lists.judge::<2>()?;
    for (kind, [service, domain]) in lists.names() {
        if !is_record(kind, service, domain) {
            return Err(answer::UNFIT);
        }
    }
    match lists.kinds.len().checked_mul(RECORD) {
        Some(size) if size <= longest::REFERENCES => Ok(size),
        _ => Err(answer::RESULT_TOO_LONG),
    }
}

/// "a record whose fields can't hold its texts or that its reader refuses (22)".
/// Lengths and fillers of a record that is written are right, so the reader
/// refuses it for its kind or for a text.
fn is_record(kind: u8, service: &[u8], domain: &[u8]) -> bool {
    let held = service.len() <= DOMAIN - SERVICE && domain.len() <= RECORD - DOMAIN;
    held && Reference::new(kind, service, domain).is_some()
}

/// One record, which "starts from a blank record of 320 zero bytes". Document
/// 01: "Byte 0 kind [...] Byte 2 service length, byte 3 domain length. Bytes 4
/// to 66 service, 67 to 319 domain, each filled with zeros."
fn record(kind: u8, service: &[u8], domain: &[u8]) -> [u8; RECORD] {
    let mut record = [0; RECORD];
    record[0] = kind;
    record[2] = service.len() as u8;
    record[3] = domain.len() as u8;
    record[SERVICE..][..service.len()].copy_from_slice(service);
    record[DOMAIN..][..domain.len()].copy_from_slice(domain);
    record
}

/// The size of an element with this much content. Document 01: "one byte to
/// 127; 81 and a byte from 128 to 255; 82 and two bytes from 256".
fn element_size(content: usize) -> usize {
    let header = match content {
        0..=127 => 2,
        128..=255 => 3,
        _ => 4,
    };
    header + content
}

/// The size of a GeneralName.
fn name_size(kind: u8, text: &[u8]) -> usize {
    let value = element_size(text.len());
    match kind {
        kind::SRV => element_size(other_name_content(value)),
        _ => value,
    }
}

/// The content of an SRVName whose IA5String has this size: the OID, and the
/// element around the IA5String.
fn other_name_content(value: usize) -> usize {
    element_size(SRV_NAME_OID.len()) + element_size(value)
}

/// What is left of the part of the buffer that the result fills.
struct Pen<'a> {
    room: &'a mut [u8],
}

impl Pen<'_> {
    fn bytes(&mut self, bytes: &[u8]) {
        let room = std::mem::take(&mut self.room);
        let (place, rest) = room.split_at_mut(bytes.len());
        place.copy_from_slice(bytes);
        self.room = rest;
    }

    /// A tag, and the length of a content that is within the limit.
    fn header(&mut self, tag: u8, content: usize) {
        let [.., high, low] = content.to_be_bytes();
        match content {
            0..=127 => self.bytes(&[tag, low]),
            128..=255 => self.bytes(&[tag, 0x81, low]),
            _ => self.bytes(&[tag, 0x82, high, low]),
        }
    }

    fn element(&mut self, tag: u8, content: &[u8]) {
        self.header(tag, content.len());
        self.bytes(content);
    }

    /// A GeneralName. Document 01: "A0, otherName: an OID element [...], then
    /// tag A0 holding exactly one element. If the OID is the eight bytes [...],
    /// that inner element has tag 16".
    fn name(&mut self, kind: u8, text: &[u8]) {
        match kind {
            kind::SRV => {
                let value = element_size(text.len());
                self.header(OTHER_NAME, other_name_content(value));
                self.element(OID, &SRV_NAME_OID);
                self.header(EXPLICIT, value);
                self.element(IA5_STRING, text);
            }
            kind::URI => self.element(URI, text),
            _ => self.element(DNS_NAME, text),
        }
    }
}
