//! Writers of the four inputs, one small function for each line of the
//! grammar. A node can also be written wrongly on purpose.

use crate::general_name::SRV_NAME_OID;
use crate::records::kind::{SRV, URI};
use crate::records::RECORD;
use crate::subject::COMMON_NAME_OID;

/// An element to be written.
#[derive(Clone, Debug)]
pub struct Node {
    pub tag: u8,
    pub length: Length,
    pub body: Body,
    /// Bytes after the body, inside the element.
    pub trailer: Vec<u8>,
}

/// How an element's length is written.
#[derive(Clone, Copy, Debug)]
pub enum Length {
    /// As the grammar has it.
    Shortest,
    /// In this many bytes after an 81, 82, 83 or 84, needed or not.
    Long(u8),
    /// 80, and two zero bytes after the content.
    Indefinite,
    /// As the grammar has it, for a length that is off by this much.
    Off(i8),
}

#[derive(Clone, Debug)]
pub enum Body {
    Bytes(Vec<u8>),
    Parts(Vec<Node>),
}

/// An element that holds bytes.
pub fn bytes(tag: u8, content: &[u8]) -> Node {
    Node {
        tag,
        length: Length::Shortest,
        body: Body::Bytes(content.to_vec()),
        trailer: Vec::new(),
    }
}

/// An element that holds elements.
pub fn parts(tag: u8, parts: Vec<Node>) -> Node {
    Node {
        tag,
        length: Length::Shortest,
        body: Body::Parts(parts),
        trailer: Vec::new(),
    }
}

impl Node {
    /// The element as bytes.
    pub fn write(&self) -> Vec<u8> {
        let mut content = match &self.body {
            Body::Bytes(bytes) => bytes.clone(),
            Body::Parts(parts) => parts.iter().flat_map(Node::write).collect(),
        };
        content.extend(&self.trailer);
        let mut written = vec![self.tag];
        written.extend(self.length.write(content.len()));
        written.append(&mut content);
        if matches!(self.length, Length::Indefinite) {
            written.extend([0, 0]);
        }
        written
    }

    /// The elements that it holds, if it holds any.
    pub fn children(&self) -> &[Node] {
        match &self.body {
            Body::Bytes(_) => &[],
            Body::Parts(parts) => parts,
        }
    }

    /// The elements that it holds, to be changed.
    pub fn children_mut(&mut self) -> &mut [Node] {
        match &mut self.body {
            Body::Bytes(_) => &mut [],
            Body::Parts(parts) => parts,
        }
    }
}

impl Length {
    fn write(self, length: usize) -> Vec<u8> {
        match self {
            Length::Shortest => shortest(length),
            Length::Long(count) => {
                let count = usize::from(count);
                let all = length.to_be_bytes();
                let mut written = vec![0x80 | count as u8];
                written.extend(&all[all.len() - count..]);
                written
            }
            Length::Indefinite => vec![0x80],
            Length::Off(by) => shortest(length.saturating_add_signed(isize::from(by))),
        }
    }
}

/// "one byte to 127; 81 and a byte from 128 to 255; 82 and two bytes from 256"
fn shortest(length: usize) -> Vec<u8> {
    match length {
        0..=127 => vec![length as u8],
        128..=255 => vec![0x81, length as u8],
        256..=0xFFFF => vec![0x82, (length >> 8) as u8, length as u8],
        _ => vec![
            0x83,
            (length >> 16) as u8,
            (length >> 8) as u8,
            length as u8,
        ],
    }
}

/// The SAN: "tag 30, one or more GeneralNames".
pub fn san(entries: Vec<Node>) -> Node {
    parts(0x30, entries)
}

pub fn email(text: &[u8]) -> Node {
    bytes(0x81, text)
}

pub fn dns_name(text: &[u8]) -> Node {
    bytes(0x82, text)
}

pub fn uri_name(text: &[u8]) -> Node {
    bytes(0x86, text)
}

pub fn ip_address(address: &[u8]) -> Node {
    bytes(0x87, address)
}

/// "an OID element (tag 06, content not empty), then tag A0 holding exactly
/// one element"
pub fn other_name(oid: &[u8], inner: Node) -> Node {
    parts(0xA0, vec![bytes(0x06, oid), parts(0xA0, vec![inner])])
}

pub fn srv_name(text: &[u8]) -> Node {
    other_name(&SRV_NAME_OID, bytes(0x16, text))
}

/// The GeneralName of a text whose kind is numbered as in a record.
pub fn general_name(kind: u8, text: &[u8]) -> Node {
    match kind {
        SRV => srv_name(text),
        URI => uri_name(text),
        _ => dns_name(text),
    }
}

/// The text of a name whose kind is numbered as in a record, from the texts that
/// a record has.
pub fn name_text(kind: u8, service: &[u8], domain: &[u8]) -> Vec<u8> {
    match kind {
        SRV => [b"_", service, b".", domain].concat(),
        URI => [service, b"://", domain].concat(),
        _ => domain.to_vec(),
    }
}

/// The subject: "tag 30, zero or more sets (31)".
pub fn subject(sets: Vec<Node>) -> Node {
    parts(0x30, sets)
}

/// A set whose attributes "stand in ascending byte order".
pub fn rdn(mut attributes: Vec<Node>) -> Node {
    attributes.sort_by_cached_key(Node::write);
    unsorted_rdn(attributes)
}

/// A set whose attributes stand as they are given.
pub fn unsorted_rdn(attributes: Vec<Node>) -> Node {
    parts(0x31, attributes)
}

pub fn attribute(oid: &[u8], value: Node) -> Node {
    parts(0x30, vec![bytes(0x06, oid), value])
}

pub fn common_name(tag: u8, text: &[u8]) -> Node {
    attribute(&COMMON_NAME_OID, bytes(tag, text))
}

/// The constraints: "tag 30 holding A0 (permitted), A1 (excluded), or both in
/// that order". A side without subtrees is left out.
pub fn constraints(permitted: Vec<Node>, excluded: Vec<Node>) -> Node {
    let sides = [(0xA0, permitted), (0xA1, excluded)];
    let given = sides
        .into_iter()
        .filter(|(_, subtrees)| !subtrees.is_empty());
    parts(
        0x30,
        given.map(|(tag, subtrees)| parts(tag, subtrees)).collect(),
    )
}

pub fn subtree(base: Node) -> Node {
    parts(0x30, vec![base])
}

/// One reference record. Texts that are too long for their fields are cut, so
/// that the lengths stay wrong.
pub fn record(kind: u8, service: &[u8], domain: &[u8]) -> Vec<u8> {
    let mut record = vec![0; RECORD];
    record[0] = kind;
    record[2] = service.len() as u8;
    record[3] = domain.len() as u8;
    fill(&mut record[4..67], service);
    fill(&mut record[67..], domain);
    record
}

fn fill(field: &mut [u8], text: &[u8]) {
    for (place, byte) in field.iter_mut().zip(text) {
        *place = *byte;
    }
}

/// General names that fill `room` bytes, each with a header of its own. They
/// are addresses of the wanted size; 0 and every room from 2 on can be filled.
pub fn padding(mut room: usize) -> Vec<Node> {
    let mut names = Vec::new();
    while room > 0 {
        let size = match room {
            // No element has 130 or 259 bytes, and none has 1.
            130 | 259 => room - 2,
            _ => room,
        };
        names.push(ip_address(&vec![0x5A; content_of(size)]));
        room -= size;
    }
    names
}

/// The content length of an element of `size` bytes in all.
pub fn content_of(size: usize) -> usize {
    match size {
        0..=129 => size - 2,
        130..=258 => size - 3,
        _ => size - 4,
    }
}
