//! A second implementation of the certificate name check, written from the
//! document "The rules and what will be built" (document 01) and requests 1/13
//! to 6/13 of "New change requests from customers" (document 02) alone. Quoted
//! sentences in the comments are document 01's, or a request's where they say
//! so.

pub mod best;
pub mod constraints;
pub mod der;
pub mod examples;
pub mod general_name;
pub mod generate;
pub mod issuers;
pub mod listing;
pub mod name;
pub mod program;
pub mod records;
pub mod san;
pub mod subject;
pub mod text;
pub mod tree;
pub mod verdict;
pub mod viewer;
pub mod writer;

#[cfg(feature = "archive")]
pub mod archive;

pub use issuers::{Issuers, MOST_ISSUERS};
pub use listing::{list, list_into, Listed, Listing, Which};
pub use name::Row;
pub use records::{record, RecordView};
pub use verdict::{judge, judge_from_c, text_place, verdict, Outcome, Place, Verdict};
pub use viewer::Viewer;
pub use writer::{write_records, write_san, Lists, Writer, Written};

/// "Numbers the kiosk sees": what each answer means.
pub mod answer {
    pub const MATCH: u32 = 0;
    pub const MISMATCH: u32 = 1;
    pub const CONSTRAINTS_BROKEN: u32 = 2;
    pub const SAN_UNREADABLE: u32 = 3;
    pub const SUBJECT_UNREADABLE: u32 = 4;
    pub const CONSTRAINTS_UNREADABLE: u32 = 5;
    pub const REFERENCES_UNREADABLE: u32 = 6;
    pub const TOO_LONG: u32 = 7;
    pub const TABLE_TOO_SHORT: u32 = 8;
    /// Request 4/13: what a writer answers.
    pub const WRITTEN: u32 = 0;
    pub const EMPTY_LIST: u32 = 21;
    pub const UNFIT: u32 = 22;
    pub const RESULT_TOO_LONG: u32 = 23;
    pub const BUFFER_TOO_SHORT: u32 = 24;
}

/// "Longest inputs, in bytes: SAN 16,384; subject 4,096; constraints 16,384;
/// references 5,120." Request 6/13, of constraint strings: "each keeps its own
/// length limit".
pub mod longest {
    pub const SAN: usize = 16_384;
    pub const SUBJECT: usize = 4_096;
    pub const CONSTRAINTS: usize = 16_384;
    pub const REFERENCES: usize = 5_120;
}
