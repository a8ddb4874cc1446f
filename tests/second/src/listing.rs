//! The listing of one certificate string.

use crate::name::{Name, Row};
use crate::{answer, constraints, longest, san, subject};

/// The certificate string that is listed.
#[derive(Clone, Copy, Debug, PartialEq, Eq)]
pub enum Which {
    San,
    Subject,
    Constraints,
}

impl Which {
    pub const ALL: [Which; 3] = [Which::San, Which::Subject, Which::Constraints];

    /// The most bytes that it may have.
    pub fn longest(self) -> usize {
        match self {
            Which::San => longest::SAN,
            Which::Subject => longest::SUBJECT,
            Which::Constraints => longest::CONSTRAINTS,
        }
    }

    /// The answer to unreadable bytes.
    pub fn unreadable(self) -> u32 {
        match self {
            Which::San => answer::SAN_UNREADABLE,
            Which::Subject => answer::SUBJECT_UNREADABLE,
            Which::Constraints => answer::CONSTRAINTS_UNREADABLE,
        }
    }

    /// Visits the names of the string, in byte order. "7, then 3, 4 or 5": a
    /// refusal is the error, and some names may have been visited before it.
    pub(crate) fn read<'a>(self, bytes: &'a [u8], visit: impl FnMut(Name<'a>)) -> Result<(), u32> {
        if bytes.len() > self.longest() {
            return Err(answer::TOO_LONG);
        }
        let readable = match self {
            Which::San => san::read(bytes, visit),
            Which::Subject => subject::read(bytes, visit, |_| ()),
            Which::Constraints => constraints::read(bytes, visit),
        };
        readable.ok_or(self.unreadable())
    }

    /// "Only the listed string is judged. The answer is 0 and the count; or 7,
    /// then 3, 4 or 5 (each with count 0)".
    fn count(self, bytes: &[u8]) -> Listed {
        let mut count = 0;
        match self.read(bytes, |_| count += 1) {
            Ok(()) => Listed {
                answer: answer::MATCH,
                count,
            },
            Err(answer) => Listed { answer, count: 0 },
        }
    }
}

/// Answer and count of a listing.
#[derive(Clone, Copy, Debug, PartialEq, Eq)]
pub struct Listed {
    pub answer: u32,
    pub count: usize,
}

/// A listing with all its rows.
#[derive(Clone, Debug, PartialEq, Eq)]
pub struct Listing {
    pub answer: u32,
    pub rows: Vec<Row>,
}

/// Lists a string into a table that is as long as needed.
pub fn list(bytes: &[u8], which: Which) -> Listing {
    let Listed { answer, count } = which.count(bytes);
    let mut rows = Vec::with_capacity(count);
    if answer == answer::MATCH {
        let _readable = which.read(bytes, |name| rows.push(name.row));
    }
    Listing { answer, rows }
}

/// Lists a string into a lent table. "then 8 with the count needed, given
/// exactly when that exceeds the rows lent. Rows past the count, and all rows
/// after a refusal, stay."
pub fn list_into(table: &mut [Row], bytes: &[u8], which: Which) -> Listed {
    let listed = which.count(bytes);
    if listed.answer != answer::MATCH {
        return listed;
    }
    if listed.count > table.len() {
        return Listed {
            answer: answer::TABLE_TOO_SHORT,
            ..listed
        };
    }
    let mut rows = table.iter_mut();
    let _readable = which.read(bytes, |name| {
        if let Some(row) = rows.next() {
            *row = name.row;
        }
    });
    listed
}
