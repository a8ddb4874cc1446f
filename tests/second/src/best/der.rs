//! DER elements, and what a GeneralName is.

use super::words::{is_ascii, word};
use crate::general_name::{DNS_NAME, EXPLICIT, IA5_STRING, OID, OTHER_NAME, SRV_NAME_OID, URI};

/// Tag and content of the first element, and what stands behind it. "low five
/// bits all ones is unreadable" is for those to see who take any tag.
#[inline(always)]
pub fn element(bytes: &[u8]) -> Option<(u8, &[u8], &[u8])> {
    let [tag, length, ..] = bytes else {
        return None;
    };
    let (header, length) = match usize::from(*length) {
        length @ 0..=127 => (2, length),
        _ => match long_length(bytes)? {
            length @ 0..=255 => (3, length),
            length => (4, length),
        },
    };
    let (whole, behind) = bytes.split_at_checked(header + length)?;
    Some((*tag, &whole[header..], behind))
}

/// A length of more than one byte: "81 and a byte from 128 to 255; 82 and two
/// bytes from 256".
#[inline(never)]
fn long_length(bytes: &[u8]) -> Option<usize> {
    match bytes {
        [_, 0x81, length @ 128..=255, ..] => Some(usize::from(*length)),
        [_, 0x82, high @ 1..=255, low, ..] => Some(usize::from(*high) << 8 | usize::from(*low)),
        _ => None,
    }
}

/// The first element's content and what stands behind it, if it has this tag.
#[inline(always)]
pub fn tagged(bytes: &[u8], tag: u8) -> Option<(&[u8], &[u8])> {
    let (found, content, behind) = element(bytes)?;
    (found == tag).then_some((content, behind))
}

/// The content of an element that has this tag and is alone.
#[inline(always)]
pub fn only(bytes: &[u8], tag: u8) -> Option<&[u8]> {
    let (content, behind) = tagged(bytes, tag)?;
    behind.is_empty().then_some(content)
}

/// Tag and content of an element of any tag that is alone.
#[inline(always)]
pub fn any_only(bytes: &[u8]) -> Option<(u8, &[u8])> {
    let (tag, content, behind) = element(bytes)?;
    (behind.is_empty() && tag & 0x1F != 0x1F).then_some((tag, content))
}

/// The content of "an OID element (tag 06, content not empty)", and what stands
/// behind it.
#[inline(always)]
pub fn oid(bytes: &[u8]) -> Option<(&[u8], &[u8])> {
    tagged(bytes, OID).filter(|(oid, _)| !oid.is_empty())
}

/// A GeneralName by what is done with its text.
#[derive(Clone, Copy)]
pub enum GeneralName<'a> {
    Dns(&'a [u8]),
    Srv(&'a [u8]),
    Uri(&'a [u8]),
    /// Of a form that matches nothing and breaks nothing.
    Other,
}

/// "81, 82, 86: every byte below 128. 87, 88, A3, A4, A5: content not looked
/// into. Tags not named here are unreadable."
#[inline(always)]
pub fn general_name(tag: u8, content: &[u8]) -> Option<GeneralName<'_>> {
    match tag {
        DNS_NAME if is_ascii(content) => Some(GeneralName::Dns(content)),
        OTHER_NAME => match short_srv_name(content) {
            Some(text) if is_ascii(text) => Some(GeneralName::Srv(text)),
            _ => other_name(content),
        },
        URI if is_ascii(content) => Some(GeneralName::Uri(content)),
        0x81 if is_ascii(content) => Some(GeneralName::Other),
        0x87 | 0x88 | 0xA3 | 0xA4 | 0xA5 => Some(GeneralName::Other),
        _ => None,
    }
}

/// What stands before the text of an SRVName whose lengths all have one byte;
/// the two that depend on the text are left out.
const SRV_HEAD: [u8; 14] = {
    let [a, b, c, d, e, f, g, h] = SRV_NAME_OID;
    [OID, 8, a, b, c, d, e, f, g, h, EXPLICIT, 0, IA5_STRING, 0]
};

/// The text of such an SRVName, in two words that overlap.
#[inline(always)]
fn short_srv_name(content: &[u8]) -> Option<&[u8]> {
    let (head, text) = content.split_first_chunk::<14>()?;
    let length = text.len() as u64;
    let lengths = (length + 2) << 40 | length << 56;
    let known =
        word(head, 0) == word(&SRV_HEAD, 0) && word(head, 6) == word(&SRV_HEAD, 6) | lengths;
    (known && (1..=113).contains(&length)).then_some(text)
}

/// "A0, otherName: an OID element [...], then tag A0 holding exactly one element.
/// If the OID is the eight bytes [...], that inner element has tag 16, at least
/// one byte, all below 128."
#[inline(never)]
fn other_name(content: &[u8]) -> Option<GeneralName<'_>> {
    let (oid, behind) = oid(content)?;
    let (tag, text) = any_only(only(behind, EXPLICIT)?)?;
    if oid != SRV_NAME_OID {
        return Some(GeneralName::Other);
    }
    let fits = tag == IA5_STRING && !text.is_empty() && is_ascii(text);
    fits.then_some(GeneralName::Srv(text))
}
