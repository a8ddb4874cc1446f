//! Where viewers are tried (request 3/13): the positions that they are handed
//! in one string, and the rows that they are paged through.

use super::Random;
use crate::Row;
use std::ops::Range;

/// A string of up to this many bytes is viewed from every position.
const SHORT: usize = 200;
/// So is one in `MIDDLE_EVERY` of up to this many.
const MIDDLE: usize = 2_000;
const MIDDLE_EVERY: usize = 16;
/// In the others, how many rows are chosen for positions next to them.
const FEW: usize = 5;

/// All rows are paged through where their number, times the string's bytes, is
/// no more than this.
const WHOLE: usize = 1 << 18;
/// So are those of one in `CROWD_EVERY` strings with no more than this.
const CROWD: usize = 1 << 23;
const CROWD_EVERY: usize = 32;
/// In the others, how many rows are paged through at a time.
const STRETCH: usize = 5;

/// Positions in and behind a string of this many bytes that lists these rows.
pub fn positions(random: &mut Random, length: usize, rows: &[Row]) -> Vec<usize> {
    let every = length <= SHORT || length <= MIDDLE && random.one_in(MIDDLE_EVERY);
    let mut positions = match every {
        true => (0..=length + 2).collect(),
        false => chosen(random, length, rows),
    };
    positions.extend(far(random, length, rows));
    positions
}

/// Both ends of the string, any place in it, and for a few rows both ends of
/// their elements and a place in the headers next to each.
fn chosen(random: &mut Random, length: usize, rows: &[Row]) -> Vec<usize> {
    let mut positions = vec![0];
    positions.extend(length - 1..=length + 2);
    for _ in 0..FEW {
        positions.push(random.below(length));
        if rows.is_empty() {
            continue;
        }
        let row = random.pick(rows);
        for edge in [row.start, row.start + row.length] {
            positions.extend(edge - 1..=edge + 1);
            // A header has two to four bytes.
            positions.push(edge.saturating_sub(random.between(2, 4)));
            positions.push(edge + random.between(2, 4));
        }
    }
    positions
}

/// Positions behind every string: one that fewer bits would bring back to a
/// row's start, and one from which a sum of 64 bits comes back into the string.
fn far(random: &mut Random, length: usize, rows: &[Row]) -> [usize; 2] {
    let start = match rows {
        [] => 0,
        _ => random.pick(rows).start,
    };
    let any = random.between(15, 63);
    let bits = *random.pick(&[16, 31, 32, 63, any]);
    let most = *random.pick(&[0, length, 2 * length]);
    [(1 << bits) + start, usize::MAX - random.below(most + 1)]
}

/// The rows that a viewer is paged through, of a string of this many bytes that
/// lists so many: all of them where that costs little, else a few from the
/// first on, a few from any row on, and the last few.
pub fn pages(random: &mut Random, length: usize, rows: usize) -> Vec<Range<usize>> {
    let cost = length * rows;
    let whole = cost <= WHOLE || cost <= CROWD && random.one_in(CROWD_EVERY);
    let (firsts, count) = match rows.checked_sub(STRETCH) {
        Some(last) if !whole => (vec![0, random.place(last), last], STRETCH),
        _ => (vec![0], rows),
    };
    let pages = firsts.into_iter().map(|first| first..first + count);
    pages.collect()
}
