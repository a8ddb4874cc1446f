//! The subjectAltName.

use crate::der::Cursor;
use crate::general_name;
use crate::name::Name;

pub(crate) const SEQUENCE: u8 = 0x30;

/// Visits each entry in order. "SAN: tag 30, one or more GeneralNames"; "an
/// absent SAN or absent constraints count as readable, with the empty list".
/// `None` is an unreadable SAN; some of its entries may have been visited.
#[inline]
pub fn read<'a>(bytes: &'a [u8], mut visit: impl FnMut(Name<'a>)) -> Option<()> {
    if bytes.is_empty() {
        return Some(());
    }
    let mut entries = Cursor::new(bytes).last_tagged(SEQUENCE)?.parts();
    let mut index = 0;
    loop {
        visit(general_name::read(entries.any()?, index)?);
        if entries.at_end() {
            return Some(());
        }
        index += 1;
    }
}
