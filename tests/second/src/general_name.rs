//! A GeneralName, in the SAN or in a subtree.

use crate::der::{Cursor, Element};
use crate::name::{kind, Name, Row};

/// "the eight bytes 2B 06 01 05 05 07 08 07"
pub const SRV_NAME_OID: [u8; 8] = [0x2B, 0x06, 0x01, 0x05, 0x05, 0x07, 0x08, 0x07];

pub(crate) const OID: u8 = 0x06;
pub(crate) const IA5_STRING: u8 = 0x16;
pub(crate) const EXPLICIT: u8 = 0xA0;
pub(crate) const OTHER_NAME: u8 = 0xA0;
pub(crate) const DNS_NAME: u8 = 0x82;
pub(crate) const URI: u8 = 0x86;

/// "81, 82, 86: every byte below 128. 87, 88, A3, A4, A5: content not looked
/// into. Tags not named here are unreadable."
#[inline(always)]
pub fn read(element: Element<'_>, group: usize) -> Option<Name<'_>> {
    match element.tag {
        0x81 | DNS_NAME | URI if element.content.is_ascii() => Some(plain(element, group)),
        0x87 | 0x88 | 0xA3 | 0xA4 | 0xA5 => Some(plain(element, group)),
        OTHER_NAME => other_name(element, group),
        _ => None,
    }
}

/// A name whose kind is its "tag's low five bits".
#[inline]
fn plain(element: Element<'_>, group: usize) -> Name<'_> {
    name(element, usize::from(element.tag & 0x1F), group, element)
}

/// The name that stands in `whole` and has the content of `value` as its text.
#[inline]
fn name<'a>(whole: Element<'a>, kind: usize, group: usize, value: Element<'a>) -> Name<'a> {
    let row = Row {
        kind,
        start: whole.start,
        length: whole.length,
        group,
    };
    Name {
        row,
        text: value.content,
        text_start: value.content_start(),
    }
}

/// "A0, otherName: an OID element (tag 06, content not empty), then tag A0
/// holding exactly one element. If the OID is the eight bytes [...], that
/// inner element has tag 16, at least one byte, all below 128."
fn other_name(element: Element<'_>, group: usize) -> Option<Name<'_>> {
    let mut parts = element.parts();
    let oid = oid(&mut parts)?;
    let inner = parts.last_tagged(EXPLICIT)?.parts().last()?;
    if oid != SRV_NAME_OID {
        return Some(plain(element, group));
    }
    let readable = inner.tag == IA5_STRING && !inner.content.is_empty() && inner.content.is_ascii();
    readable.then(|| name(element, kind::SRV, group, inner))
}

/// The content of the next element, "an OID element (tag 06, content not
/// empty)".
pub fn oid<'a>(parts: &mut Cursor<'a>) -> Option<&'a [u8]> {
    let oid = parts.tagged(OID)?.content;
    (!oid.is_empty()).then_some(oid)
}
