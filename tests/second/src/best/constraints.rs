//! The constraint strings of every issuer (request 6/13). Quoted sentences are
//! the request's where they do not stand in document 01.

use super::der::{any_only, element, general_name, only, tagged, GeneralName};
use super::texts::{is_domain, is_service, labels, star_matches, Labels};
use super::words::{same, word, CASE};
use crate::text::{Pair, LONGEST_DOMAIN};

const SEQUENCE: u8 = 0x30;
const PERMITTED: u8 = 0xA0;
const EXCLUDED: u8 = 0xA1;

/// What the strings say of a readable SAN.
pub enum Held {
    Unreadable,
    /// "lowest issuer first, then lowest name"
    Broken {
        issuer: usize,
        presented: usize,
    },
    Kept,
}

/// Holds the names of a readable SAN against all strings: "All of them must
/// hold."
pub fn hold<'a>(san: &[u8], strings: impl Iterator<Item = &'a [u8]>) -> Held {
    let read: Option<Vec<Restrictions>> = strings.map(Restrictions::read).collect();
    let Some(restrictions) = read else {
        return Held::Unreadable;
    };
    match first_breach(san, &restrictions) {
        Some((issuer, presented)) => Held::Broken { issuer, presented },
        None => Held::Kept,
    }
}

/// The lowest issuer whose string is broken, and the lowest name that breaks it.
/// The names come in order; once a string is broken, only those before it are
/// still looked at, so the last breach found is the first.
fn first_breach(san: &[u8], restrictions: &[Restrictions]) -> Option<(usize, usize)> {
    let mut rest = only(san, SEQUENCE)?;
    let mut open = restrictions;
    let mut found = None;
    let mut room = Room::new();
    let mut index = 0;
    while !open.is_empty() && !rest.is_empty() {
        let (tag, content, behind) = element(rest)?;
        let broken = match general_name(tag, content)? {
            GeneralName::Dns(text) => broken_by_dns_name(open, text, &mut room),
            GeneralName::Srv(text) => broken_by_srv_name(open, text, &mut room),
            _ => None,
        };
        if let Some(issuer) = broken {
            (open, found) = (&open[..issuer], Some((issuer, index)));
        }
        (rest, index) = (behind, index + 1);
    }
    found
}

/// The first string that a dNSName breaks. "With any dNSName subtree in a string,
/// a dNSName that is no DNS-ID breaks it."
fn broken_by_dns_name(open: &[Restrictions], text: &[u8], room: &mut Room) -> Option<usize> {
    let asks = |one: &Restrictions| !one.dns.is_empty();
    let first = open.iter().position(asks)?;
    let star = text.strip_prefix(b"*.");
    let is_dns_id = match star {
        None => is_domain(text),
        Some(rest) => text.len() <= LONGEST_DOMAIN && labels(rest) == Labels::Several,
    };
    if !is_dns_id {
        return Some(first);
    }
    let name = room.put(b"", text);
    let breaks = |one: &Restrictions| {
        asks(one)
            && (!one.dns.permits(&name)
                || one.dns.excluded.hold(&name)
                || star.is_some() && one.dns.excluded.has_child(&text[1..]))
    };
    open.iter().position(breaks)
}

/// The first string that an SRVName breaks: "if the constraints hold any SRVName
/// subtree, each presented SRVName must be an SRV-ID". That is a subtree's text
/// in which both parts are given.
fn broken_by_srv_name(open: &[Restrictions], text: &[u8], room: &mut Room) -> Option<usize> {
    let asks = |one: &Restrictions| !one.srv.is_empty();
    let first = open.iter().position(asks)?;
    let parts = srv_parts(text);
    let Some((service, domain)) = parts.filter(|(one, other)| !one.is_empty() && !other.is_empty())
    else {
        return Some(first);
    };
    let name = room.put(service, domain);
    let breaks =
        |one: &Restrictions| asks(one) && (!one.srv.permits(&name) || one.srv.excluded.hold(&name));
    open.iter().position(breaks)
}

/// What one string asks of names, by form.
#[derive(Default)]
struct Restrictions<'a> {
    dns: Sides<'a>,
    srv: Sides<'a>,
}

impl<'a> Restrictions<'a> {
    /// "Constraints: tag 30 holding A0 (permitted), A1 (excluded), or both in that
    /// order; at least one."
    fn read(string: &'a [u8]) -> Option<Self> {
        let mut restrictions = Restrictions::default();
        if string.is_empty() {
            return Some(restrictions);
        }
        let mut sides = only(string, SEQUENCE).filter(|sides| !sides.is_empty())?;
        if let Some((permitted, behind)) = tagged(sides, PERMITTED) {
            restrictions.read_side(permitted, |sides| &mut sides.permitted)?;
            sides = behind;
        }
        if !sides.is_empty() {
            restrictions.read_side(only(sides, EXCLUDED)?, |sides| &mut sides.excluded)?;
        }
        Some(restrictions)
    }

    /// "Each holds one or more 30 elements, and each of those exactly one
    /// GeneralName". Of a dNSName: "an empty text contains every name; any other
    /// text must be a domain, else 5."
    fn read_side(
        &mut self,
        mut rest: &'a [u8],
        side: impl for<'s> Fn(&'s mut Sides<'a>) -> &'s mut Subtrees<'a>,
    ) -> Option<()> {
        loop {
            let (subtree, behind) = tagged(rest, SEQUENCE)?;
            let (tag, content) = any_only(subtree)?;
            match general_name(tag, content)? {
                GeneralName::Dns(text) if text.is_empty() || is_domain(text) => {
                    side(&mut self.dns).push((b"", text));
                }
                GeneralName::Dns(_) => return None,
                GeneralName::Srv(text) => side(&mut self.srv).push(srv_parts(text)?),
                _ => {}
            }
            if behind.is_empty() {
                return Some(());
            }
            rest = behind;
        }
    }
}

/// "An SRVName here has one of three texts: `_service`, `_service.domain`,
/// `domain`." The part that is not given is empty.
fn srv_parts(text: &[u8]) -> Option<Pair<'_>> {
    let Some(rest) = text.strip_prefix(b"_") else {
        return is_domain(text).then_some((b"", text));
    };
    let mut bytes = rest.iter();
    let end = bytes.position(|&byte| byte == b'.').unwrap_or(rest.len());
    let domain = rest.get(end + 1..);
    let fits = is_service(&rest[..end]) && domain.is_none_or(is_domain);
    fits.then_some((&rest[..end], domain.unwrap_or_default()))
}

/// The subtrees of one form in one string.
#[derive(Default)]
struct Sides<'a> {
    permitted: Subtrees<'a>,
    excluded: Subtrees<'a>,
}

impl Sides<'_> {
    fn is_empty(&self) -> bool {
        self.permitted.ends.is_empty() && self.excluded.ends.is_empty()
    }

    /// "if any permitted [...] subtree exists, lie in one"
    fn permits(&self, name: &Name) -> bool {
        self.permitted.ends.is_empty() || self.permitted.hold(name)
    }
}

/// What is looked at first of a subtree's domain: its length, and its first eight
/// bytes with bit 20 set, zeros behind a shorter one.
struct End {
    first: u64,
    length: u8,
}

/// Subtrees as services and domains, each empty where it is not given, with what
/// is looked at first beside them in a list of its own.
#[derive(Default)]
struct Subtrees<'a> {
    ends: Vec<End>,
    texts: Vec<Pair<'a>>,
}

impl<'a> Subtrees<'a> {
    fn push(&mut self, text: Pair<'a>) {
        let domain = text.1;
        let mut first = [0; 8];
        let count = domain.len().min(8);
        first[..count].copy_from_slice(&domain[..count]);
        self.ends.push(End {
            first: u64::from_le_bytes(first) | CASE,
            length: domain.len() as u8,
        });
        self.texts.push(text);
    }

    /// Whether a name lies in one of them.
    fn hold(&self, name: &Name) -> bool {
        let mut both = self.ends.iter().zip(&self.texts);
        both.any(|(end, text)| end.may_hold(name) && name.lies_in(*text))
    }

    /// Whether one of them is "made of one label and then the text after `*.`",
    /// which is handed over with its dot.
    fn has_child(&self, behind_star: &[u8]) -> bool {
        let mut texts = self.texts.iter();
        texts.any(|(_, domain)| star_matches(behind_star, domain))
    }
}

impl End {
    /// Whether a label begins where the subtree's domain would, and with the same
    /// bytes. An empty text asks for no label.
    #[inline(always)]
    fn may_hold(&self, name: &Name) -> bool {
        let Some(before) = name.length.checked_sub(self.length).map(usize::from) else {
            return false;
        };
        (self.length == 0 || name.dotted[before] == b'.')
            && word(name.dotted, before + 1) | CASE == self.first
    }
}

/// Room for a dot, a domain and eight zeros.
struct Room([u8; ROOM]);

/// A place that 8 bits tell is one, with eight bytes behind the next.
const ROOM: usize = 256 + 8;

/// A name that is held against subtrees: a dot and the domain, with zeros behind
/// them, so that eight bytes can be read from each place.
struct Name<'n> {
    service: &'n [u8],
    dotted: &'n [u8; ROOM],
    length: u8,
}

impl Room {
    fn new() -> Self {
        let mut bytes = [0; ROOM];
        bytes[0] = b'.';
        Room(bytes)
    }

    fn put<'n>(&'n mut self, service: &'n [u8], domain: &[u8]) -> Name<'n> {
        let (text, behind) = self.0[1..].split_at_mut(domain.len());
        text.copy_from_slice(domain);
        behind[..8].fill(0);
        Name {
            service,
            dotted: &self.0,
            length: domain.len() as u8,
        }
    }
}

impl Name<'_> {
    /// "It lies in a subtree if the service is equal, without case, where one is
    /// given, and the subtree's labels are the last labels of its domain where a
    /// domain is given." That a label begins there has been looked at.
    fn lies_in(&self, (service, domain): Pair) -> bool {
        let end = 1 + usize::from(self.length);
        same(&self.dotted[end - domain.len()..end], domain)
            && (service.is_empty() || same(self.service, service))
    }
}
