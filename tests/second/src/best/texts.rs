//! Domains, services and schemes, and the names that are made of them.

use super::words::same;
use crate::text::{LONGEST_DOMAIN, LONGEST_LABEL, LONGEST_SCHEME, LONGEST_SERVICE};

/// What a text is.
#[derive(Clone, Copy, PartialEq, Eq)]
pub enum Labels {
    NoDomain,
    One,
    /// Two labels or more.
    Several,
}

/// Without a branch, so that sixteen bytes are looked at in one step.
#[inline(always)]
fn is_alphanumeric(byte: u8) -> bool {
    ((byte | 0x20).wrapping_sub(b'a') < 26) | (byte.wrapping_sub(b'0') < 10)
}

/// Whether a byte may stand before `next` in a domain, if `next` may stand where
/// it does: a letter or digit before any, a hyphen not at the end of a label, a
/// dot only before a letter or digit.
#[inline(always)]
fn fits(byte: u8, next: u8) -> bool {
    is_alphanumeric(byte)
        | ((byte == b'-') & (next != b'.'))
        | ((byte == b'.') & is_alphanumeric(next))
}

/// Whether one of sixteen bytes may not stand before the next one, and whether
/// one of them is a dot.
#[inline(always)]
fn look_at_16(bytes: &[u8]) -> (bool, bool) {
    let (these, next) = (&bytes[..16], &bytes[1..17]);
    let (mut wrong, mut dot) = (0, 0);
    for place in 0..16 {
        wrong |= u8::from(!fits(these[place], next[place]));
        dot |= u8::from(these[place] == b'.');
    }
    (wrong != 0, dot != 0)
}

/// The same for all bytes of a text but the last.
#[inline(always)]
fn look_at(text: &[u8]) -> (bool, bool) {
    let length = text.len();
    let (mut wrong, mut dot) = (false, false);
    if length < 17 {
        for pair in text.windows(2) {
            wrong |= !fits(pair[0], pair[1]);
            dot |= pair[0] == b'.';
        }
        return (wrong, dot);
    }
    let mut at = 0;
    while at + 17 < length {
        let here = look_at_16(&text[at..at + 17]);
        (wrong, dot) = (wrong | here.0, dot | here.1);
        at += 16;
    }
    let last = look_at_16(&text[length - 17..]);
    (wrong | last.0, dot | last.1)
}

/// "Domain: at most 253 bytes, one or more labels of 1 to 63 bytes joined by
/// single dots." Request 2/13: "the last label of a domain may not be all
/// digits."
#[inline(always)]
pub fn labels(text: &[u8]) -> Labels {
    let (Some(&first), Some(&last)) = (text.first(), text.last()) else {
        return Labels::NoDomain;
    };
    if text.len() > LONGEST_DOMAIN {
        return Labels::NoDomain;
    }
    let (wrong, dot) = look_at(text);
    if wrong | !is_alphanumeric(first) | !is_alphanumeric(last) {
        return Labels::NoDomain;
    }
    if last.is_ascii_digit() && ends_in_digits(text) || text.len() > LONGEST_LABEL && has_long(text)
    {
        return Labels::NoDomain;
    }
    if dot {
        Labels::Several
    } else {
        Labels::One
    }
}

pub fn is_domain(text: &[u8]) -> bool {
    labels(text) != Labels::NoDomain
}

/// Whether the last label is all digits.
#[inline(never)]
fn ends_in_digits(text: &[u8]) -> bool {
    let label = text.iter().rev().take_while(|&&byte| byte != b'.');
    label.copied().all(|byte| byte.is_ascii_digit())
}

/// Whether a label is too long.
#[inline(never)]
fn has_long(text: &[u8]) -> bool {
    let mut labels = text.split(|&byte| byte == b'.');
    labels.any(|label| label.len() > LONGEST_LABEL)
}

/// "a service (1 to 62 letters, digits, hyphens, no hyphen at an end)"
pub fn is_service(text: &[u8]) -> bool {
    let ends = [text.first(), text.last()];
    (1..=LONGEST_SERVICE).contains(&text.len())
        && ends.iter().all(|end| end != &Some(&b'-'))
        && text
            .iter()
            .all(|&byte| is_alphanumeric(byte) || byte == b'-')
}

/// "a URI scheme (a letter, then letters, digits, "+", "-", "."), 1 to 63 bytes"
pub fn is_scheme(text: &[u8]) -> bool {
    text.len() <= LONGEST_SCHEME
        && text.first().is_some_and(u8::is_ascii_alphabetic)
        && text
            .iter()
            .all(|&byte| is_alphanumeric(byte) || matches!(byte, b'+' | b'-' | b'.'))
}

/// Whether a wildcard with this text behind its star matches a domain: the star
/// "stands for exactly one whole label". The text begins with a dot.
#[inline(always)]
pub fn star_matches(behind: &[u8], domain: &[u8]) -> bool {
    let Some(label) = domain.len().checked_sub(behind.len()) else {
        return false;
    };
    domain[label] == b'.' && same(behind, &domain[label..]) && !domain[..label].contains(&b'.')
}

/// Whether an SRVName is "_", this service, "." and this domain.
#[inline(always)]
pub fn srv_matches(text: &[u8], service: &[u8], domain: &[u8]) -> bool {
    let dot = service.len() + 1;
    text.len() == dot + 1 + domain.len()
        && same(&text[dot + 1..], domain)
        && text[0] == b'_'
        && text[dot] == b'.'
        && same(&text[1..dot], service)
}

/// Whether a URI is this scheme, "://" and an authority of this domain. `has_at`
/// says whether the text has an "@" anywhere, which is asked once for all
/// references.
#[inline(always)]
pub fn uri_matches(text: &[u8], has_at: bool, scheme: &[u8], domain: &[u8]) -> bool {
    let authority = scheme.len() + 3;
    let mut host = authority;
    if has_at {
        host += text.get(host..).map_or(0, user_length);
    }
    let end = host + domain.len();
    text.len() >= end
        && same(&text[host..end], domain)
        && text[scheme.len()..authority] == *b"://"
        && same(&text[..scheme.len()], scheme)
        && is_port(&text[end..])
}

/// How many bytes stand before the domain: "optionally a text (perhaps empty)
/// without "@" and then "@"", in an authority that goes "up to the first "/",
/// "?", "#" or the end".
#[inline(never)]
fn user_length(authority: &[u8]) -> usize {
    let mut bytes = authority.iter();
    match bytes.position(|byte| matches!(byte, b'@' | b'/' | b'?' | b'#')) {
        Some(stop) if authority[stop] == b'@' => stop + 1,
        _ => 0,
    }
}

/// What may stand behind a URI's domain: "optionally ":" and digits or nothing",
/// and then the authority ends.
fn is_port(behind: &[u8]) -> bool {
    let behind = match behind {
        [b':', port @ ..] => {
            let digits = port.iter().take_while(|byte| byte.is_ascii_digit());
            &port[digits.count()..]
        }
        _ => behind,
    };
    matches!(behind, [] | [b'/' | b'?' | b'#', ..])
}
