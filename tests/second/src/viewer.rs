//! The viewer of the help desk (request 3/13), which "pages through a
//! certificate name by name, with no room for a table". Quoted sentences are
//! the request's.

use crate::answer;
use crate::listing::Which;
use crate::name::Row;

/// "a viewer that holds the certificate bytes and its position, for each of the
/// three strings"
#[derive(Clone, Copy, Debug)]
pub struct Viewer<'a> {
    bytes: &'a [u8],
    which: Which,
    position: usize,
}

impl<'a> Viewer<'a> {
    /// The opening's answer, and the viewer. "It opens at position 0, refused
    /// or not". "Opening unreadable bytes is refused with 3, 4 or 5, over-long
    /// ones with 7, in 01's order." An absent SAN and absent constraints are
    /// readable and have no rows: "An absent string opens at its end."
    pub fn open(bytes: &'a [u8], which: Which) -> (u32, Self) {
        let answer = match which.read(bytes, |_| ()) {
            Ok(()) => answer::MATCH,
            Err(refusal) => refusal,
        };
        (answer, Viewer::at(bytes, which, 0))
    }

    /// A viewer that is handed its position.
    pub fn at(bytes: &'a [u8], which: Which, position: usize) -> Self {
        Viewer {
            bytes,
            which,
            position,
        }
    }

    pub fn position(&self) -> usize {
        self.position
    }

    /// One step. "if there is none, or the listing refuses the bytes, it says
    /// that it's at the end", which is `None`. "After a row the position stands
    /// just past its element"; "a step at the end doesn't move it."
    pub fn step(&mut self) -> Option<Row> {
        let row = self.ahead()?;
        self.position = row.start + row.length;
        Some(row)
    }

    /// "the first row of 01's listing that starts at or past the position,
    /// whatever position it's handed". The bytes are read to their end, as a
    /// fault behind that row refuses them too.
    fn ahead(&self) -> Option<Row> {
        let mut first = None;
        let read = self.which.read(self.bytes, |name| {
            if name.row.start >= self.position {
                first.get_or_insert(name.row);
            }
        });
        read.ok().and(first)
    }
}
