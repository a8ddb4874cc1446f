//! The subject.

use crate::der::{Cursor, Element};
use crate::general_name::oid;
use crate::name::{kind, Name, Row};

/// "The CN's OID content is 55 04 03."
pub const COMMON_NAME_OID: [u8; 3] = [0x55, 0x04, 0x03];

const SEQUENCE: u8 = 0x30;
const SET: u8 = 0x31;

/// Visits each attribute in order and, after the attributes of a set that has
/// exactly one CN attribute, that CN once more with `sole`. "Subject: tag 30,
/// zero or more sets (31), each of one or more attributes (30)". `None` is an
/// unreadable subject; some of its attributes may have been visited.
pub fn read<'a>(
    bytes: &'a [u8],
    mut visit: impl FnMut(Name<'a>),
    mut sole: impl FnMut(Name<'a>),
) -> Option<()> {
    let mut sets = Cursor::new(bytes).last_tagged(SEQUENCE)?.parts();
    let mut index = 0;
    while !sets.at_end() {
        let set = sets.tagged(SET)?;
        if let Some(common_name) = read_set(bytes, set, index, &mut visit)? {
            sole(common_name);
        }
        index += 1;
    }
    Some(())
}

/// Visits the attributes of one set and answers its CN where it has exactly
/// one, "whatever the tags". "The attributes of a set stand in ascending byte
/// order, equal ones allowed".
fn read_set<'a>(
    bytes: &'a [u8],
    set: Element<'a>,
    index: usize,
    visit: &mut impl FnMut(Name<'a>),
) -> Option<Option<Name<'a>>> {
    let mut attributes = set.parts();
    let mut before: Option<&[u8]> = None;
    let mut common_name = None;
    let mut common_names = 0;
    loop {
        let element = attributes.tagged(SEQUENCE)?;
        let written = &bytes[element.start..element.start + element.length];
        if before.is_some_and(|before| before > written) {
            return None;
        }
        before = Some(written);
        let name = attribute(element, index)?;
        if name.row.kind != kind::OTHER_ATTRIBUTE {
            common_names += 1;
            common_name = Some(name);
        }
        visit(name);
        if attributes.at_end() {
            return Some(common_name.filter(|_| common_names == 1));
        }
    }
}

/// An attribute "of one OID element and one value element".
fn attribute(element: Element<'_>, group: usize) -> Option<Name<'_>> {
    let mut parts = element.parts();
    let oid = oid(&mut parts)?;
    let value = parts.last()?;
    let kind = match value.tag {
        _ if oid != COMMON_NAME_OID => kind::OTHER_ATTRIBUTE,
        0x0C | 0x13 | 0x16 => kind::CN,
        _ => kind::OTHER_CN,
    };
    let row = Row {
        kind,
        start: element.start,
        length: element.length,
        group,
    };
    Some(Name {
        row,
        text: value.content,
        text_start: value.content_start(),
    })
}
