//! The subject.

use super::der::{any_only, oid, only, tagged};
use crate::subject::COMMON_NAME_OID;

const SEQUENCE: u8 = 0x30;
const SET: u8 = 0x31;

/// A CN: its set, the place of its attribute, and its text.
pub struct CommonName<'a> {
    pub set: usize,
    pub start: usize,
    pub length: usize,
    pub text: &'a [u8],
}

/// Visits the CN of each set that has exactly one, if its tag is "0C, 13 or 16".
/// "Subject: tag 30, zero or more sets (31)". `None` is an unreadable subject.
#[inline(always)]
pub fn read<'a>(bytes: &'a [u8], mut visit: impl FnMut(CommonName<'a>)) -> Option<()> {
    let mut rest = only(bytes, SEQUENCE)?;
    let mut index = 0;
    while !rest.is_empty() {
        let (set, behind) = tagged(rest, SET)?;
        let start = bytes.len() - behind.len() - set.len();
        if let Some(name) = read_set(set, index, start)? {
            visit(name);
        }
        (rest, index) = (behind, index + 1);
    }
    Some(())
}

/// Reads a set of "one or more attributes (30)", which "stand in ascending byte
/// order, equal ones allowed", and answers its CN.
#[inline(always)]
fn read_set(set: &[u8], index: usize, start: usize) -> Option<Option<CommonName<'_>>> {
    let mut rest = set;
    let mut before: &[u8] = &[];
    let (mut count, mut found) = (0, None);
    loop {
        let (content, behind) = tagged(rest, SEQUENCE)?;
        let written = &rest[..rest.len() - behind.len()];
        if !before.is_empty() && before > written {
            return None;
        }
        let (oid, value) = oid(content)?;
        let (tag, text) = any_only(value)?;
        if oid == COMMON_NAME_OID {
            count += 1;
            found = matches!(tag, 0x0C | 0x13 | 0x16).then_some(CommonName {
                set: index,
                start: start + set.len() - rest.len(),
                length: written.len(),
                text,
            });
        }
        if behind.is_empty() {
            return Some(found.filter(|_| count == 1));
        }
        (rest, before) = (behind, written);
    }
}
