//! DER elements, as narrow as "DER grammar" has them.

/// One element: its tag, its content, and its place in the whole string.
#[derive(Clone, Copy, Debug)]
pub struct Element<'a> {
    pub tag: u8,
    pub content: &'a [u8],
    /// Number of bytes of the string before the element.
    pub start: usize,
    /// Number of bytes of the element, its header included.
    pub length: usize,
}

impl<'a> Element<'a> {
    /// Number of bytes of the string before the content.
    pub fn content_start(&self) -> usize {
        self.start + self.length - self.content.len()
    }

    /// The elements that the content holds.
    pub fn parts(&self) -> Cursor<'a> {
        Cursor {
            rest: self.content,
            start: self.content_start(),
        }
    }
}

/// The unread part of one parent's content. Every read answers `None` where
/// the bytes are not what the grammar asks for.
#[derive(Clone, Copy, Debug)]
pub struct Cursor<'a> {
    rest: &'a [u8],
    start: usize,
}

impl<'a> Cursor<'a> {
    /// A cursor at the start of a whole string.
    pub fn new(bytes: &'a [u8]) -> Self {
        Cursor {
            rest: bytes,
            start: 0,
        }
    }

    pub fn at_end(&self) -> bool {
        self.rest.is_empty()
    }

    /// The next element, whatever its tag.
    #[inline]
    pub fn any(&mut self) -> Option<Element<'a>> {
        let (header, content) = header(self.rest)?;
        let (whole, rest) = self.rest.split_at_checked(header + content)?;
        let element = Element {
            tag: whole[0],
            content: &whole[header..],
            start: self.start,
            length: whole.len(),
        };
        self.rest = rest;
        self.start += whole.len();
        Some(element)
    }

    /// The next element, which must have this tag.
    #[inline]
    pub fn tagged(&mut self, tag: u8) -> Option<Element<'a>> {
        self.any().filter(|element| element.tag == tag)
    }

    /// "An element fills its parent exactly": the next element, which must
    /// also be the last.
    #[inline]
    pub fn last(mut self) -> Option<Element<'a>> {
        let element = self.any()?;
        self.at_end().then_some(element)
    }

    /// The next element, which must be the last and have this tag.
    #[inline]
    pub fn last_tagged(self, tag: u8) -> Option<Element<'a>> {
        self.last().filter(|element| element.tag == tag)
    }
}

/// The lengths of header and content. "Every length is definite and shortest:
/// one byte to 127; 81 and a byte from 128 to 255; 82 and two bytes from 256.
/// Tags are one byte; low five bits all ones is unreadable."
#[inline]
fn header(bytes: &[u8]) -> Option<(usize, usize)> {
    match *bytes {
        [tag, ..] if tag & 0x1F == 0x1F => None,
        [_, length @ 0..=127, ..] => Some((2, usize::from(length))),
        [_, 0x81, length @ 128..=255, ..] => Some((3, usize::from(length))),
        [_, 0x82, high @ 1..=255, low, ..] => Some((4, usize::from(high) << 8 | usize::from(low))),
        _ => None,
    }
}
