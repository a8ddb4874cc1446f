//! The constraint strings of every issuer (request 6/13). Quoted sentences are
//! the request's.

use crate::longest;

/// "constraints come from up to 8 issuers"
pub const MOST_ISSUERS: usize = 8;

/// One constraint string for each issuer, in order. An issuer without
/// constraints has an empty one.
#[derive(Clone, Copy, Debug)]
pub struct Issuers<'a> {
    strings: [&'a [u8]; MOST_ISSUERS],
    count: usize,
}

impl<'a> Issuers<'a> {
    /// "Take 0 to 8 constraint strings, end to end in one slice beside a slice
    /// of their lengths; a ninth, or lengths with another sum, is 7, and each
    /// keeps its own length limit." `None` is that 7. Each string is cut from
    /// what is left, so that no sum is built that could wrap.
    pub fn cut(bytes: &'a [u8], lengths: impl IntoIterator<Item = usize>) -> Option<Self> {
        let mut strings = [b"".as_slice(); MOST_ISSUERS];
        let (mut count, mut rest) = (0, bytes);
        for length in lengths {
            let (string, behind) = rest.split_at_checked(length)?;
            if length > longest::CONSTRAINTS {
                return None;
            }
            *strings.get_mut(count)? = string;
            count += 1;
            rest = behind;
        }
        rest.is_empty().then_some(Issuers { strings, count })
    }

    /// "From C each length is two bytes, high first; an odd count is 7."
    pub fn from_c(bytes: &'a [u8], lengths: &[u8]) -> Option<Self> {
        let pairs = lengths.chunks_exact(2);
        if !pairs.remainder().is_empty() {
            return None;
        }
        Issuers::cut(bytes, pairs.map(length_from_c))
    }

    pub fn strings(&self) -> &[&'a [u8]] {
        &self.strings[..self.count]
    }
}

/// A length of two bytes.
fn length_from_c(pair: &[u8]) -> usize {
    pair.iter()
        .fold(0, |length, &byte| length << 8 | usize::from(byte))
}
