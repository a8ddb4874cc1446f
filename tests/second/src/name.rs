//! The names of a certificate string: one for each SAN entry, attribute or
//! subtree.

/// A row of the listing: kind, the element's place, and group.
#[repr(C)]
#[derive(Clone, Copy, Debug, Default, PartialEq, Eq)]
pub struct Row {
    pub kind: usize,
    pub start: usize,
    pub length: usize,
    pub group: usize,
}

/// "Kinds: tag's low five bits; 9 for an SRVName; in a subject 10 for a CN
/// with tag 0C, 13 or 16, 11 for another CN, 12 otherwise."
pub mod kind {
    pub const DNS: usize = 2;
    pub const URI: usize = 6;
    pub const SRV: usize = 9;
    pub const CN: usize = 10;
    pub const OTHER_CN: usize = 11;
    pub const OTHER_ATTRIBUTE: usize = 12;
}

/// One name: its row, and the text that a reference is compared with.
#[derive(Clone, Copy, Debug)]
pub struct Name<'a> {
    pub row: Row,
    pub text: &'a [u8],
    /// Number of bytes of the string before the text.
    pub text_start: usize,
}
