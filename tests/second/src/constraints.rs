//! One issuer's nameConstraints.

use crate::der::{Cursor, Element};
use crate::general_name;
use crate::name::{kind, Name};
use crate::san;
use crate::text;

/// "Group: [...] 0 permitted and 1 excluded."
pub const PERMITTED: usize = 0;
pub const EXCLUDED: usize = 1;

const SEQUENCE: u8 = 0x30;
const PERMITTED_TAG: u8 = 0xA0;
const EXCLUDED_TAG: u8 = 0xA1;

/// Visits each subtree in order; its group is its side. `None` is a string of
/// constraints that is unreadable; some of its subtrees may have been visited.
pub fn read<'a>(bytes: &'a [u8], mut visit: impl FnMut(Name<'a>)) -> Option<()> {
    walk(bytes, |subtree| {
        if !fits(subtree) {
            return None;
        }
        visit(subtree);
        Some(())
    })
}

/// "An SRVName here has one of three texts"; request 6/13, of a dNSName: "an
/// empty text contains every name; any other text must be a domain, else 5."
fn fits(subtree: Name<'_>) -> bool {
    match subtree.row.kind {
        kind::SRV => text::is_srv_subtree(subtree.text),
        kind::DNS => text::is_dns_subtree(subtree.text),
        _ => true,
    }
}

/// Visits each subtree in order without a look at the texts, up to the first
/// for which `visit` answers `None`. "Constraints: tag 30 holding A0
/// (permitted), A1 (excluded), or both in that order; at least one."
fn walk<'a>(bytes: &'a [u8], mut visit: impl FnMut(Name<'a>) -> Option<()>) -> Option<()> {
    if bytes.is_empty() {
        return Some(());
    }
    let mut sides = Cursor::new(bytes).last_tagged(SEQUENCE)?.parts();
    let side = sides.any()?;
    match side.tag {
        PERMITTED_TAG => walk_side(side, PERMITTED, &mut visit)?,
        EXCLUDED_TAG if sides.at_end() => return walk_side(side, EXCLUDED, &mut visit),
        _ => return None,
    }
    if sides.at_end() {
        return Some(());
    }
    walk_side(sides.last_tagged(EXCLUDED_TAG)?, EXCLUDED, &mut visit)
}

/// "Each holds one or more 30 elements, and each of those exactly one
/// GeneralName; no minimum, no maximum."
fn walk_side<'a>(
    side: Element<'a>,
    group: usize,
    visit: &mut impl FnMut(Name<'a>) -> Option<()>,
) -> Option<()> {
    let mut subtrees = side.parts();
    loop {
        let base = subtrees.tagged(SEQUENCE)?.parts().last()?;
        visit(general_name::read(base, group)?)?;
        if subtrees.at_end() {
            return Some(());
        }
    }
}

/// The subtrees of one form, by side.
#[derive(Clone, Debug, Default)]
struct Subtrees<'a> {
    permitted: Vec<&'a [u8]>,
    excluded: Vec<&'a [u8]>,
}

impl<'a> Subtrees<'a> {
    fn push(&mut self, subtree: Name<'a>) {
        match subtree.row.group {
            PERMITTED => self.permitted.push(subtree.text),
            _ => self.excluded.push(subtree.text),
        }
    }

    fn is_empty(&self) -> bool {
        self.permitted.is_empty() && self.excluded.is_empty()
    }

    /// Whether a name breaks no excluded subtree "and, if any permitted [...]
    /// subtree exists", lies in one.
    fn hold(&self, lies_in: impl Fn(&[u8]) -> bool, breaks: impl Fn(&[u8]) -> bool) -> bool {
        let excluded = self.excluded.iter().any(|subtree| breaks(subtree));
        let permitted = || self.permitted.iter().any(|subtree| lies_in(subtree));
        !excluded && (self.permitted.is_empty() || permitted())
    }
}

/// What one string asks of names. "Other forms in the constraints are read and
/// passed over."
#[derive(Clone, Debug, Default)]
pub struct Restrictions<'a> {
    srv: Subtrees<'a>,
    dns: Subtrees<'a>,
}

impl<'a> Restrictions<'a> {
    /// Reads the whole string.
    pub fn read(bytes: &'a [u8]) -> Option<Self> {
        let mut restrictions = Restrictions::default();
        read(bytes, |subtree| match subtree.row.kind {
            kind::SRV => restrictions.srv.push(subtree),
            kind::DNS => restrictions.dns.push(subtree),
            _ => {}
        })?;
        Some(restrictions)
    }

    /// The index of the first entry of a readable SAN, of either form, that
    /// breaks the string.
    pub fn first_broken(&self, san: &[u8]) -> Option<usize> {
        if self.srv.is_empty() && self.dns.is_empty() {
            return None;
        }
        let mut broken = None;
        let _readable = san::read(san, |entry| {
            if broken.is_none() && !self.keeps(entry) {
                broken = Some(entry.row.group);
            }
        });
        broken
    }

    /// Whether one entry keeps the string. URIs and all other forms do.
    fn keeps(&self, entry: Name<'_>) -> bool {
        match entry.row.kind {
            kind::SRV => self.srv.is_empty() || self.keeps_srv_name(entry.text),
            kind::DNS => self.dns.is_empty() || self.keeps_dns_name(entry.text),
            _ => true,
        }
    }

    /// "if the constraints hold any SRVName subtree, each presented SRVName must
    /// be an SRV-ID, lie in no excluded SRVName subtree, and, if any permitted
    /// SRVName subtree exists, lie in one." Request 2/13: "This holds for [...]
    /// SRVNames (no SRV-ID, so 2 where SRVName subtrees exist)."
    fn keeps_srv_name(&self, presented: &[u8]) -> bool {
        text::srv_id(presented).is_some_and(|srv_id| {
            let lies_in = |subtree: &[u8]| text::lies_in(srv_id, subtree);
            self.srv.hold(lies_in, lies_in)
        })
    }

    /// Request 6/13: "Add dNSName subtrees [...], permitted and excluded as for
    /// SRVNames [...] With any dNSName subtree in a string, a dNSName that is no
    /// DNS-ID breaks it."
    fn keeps_dns_name(&self, presented: &[u8]) -> bool {
        let lies_in = |subtree: &[u8]| text::dns_lies_in(presented, subtree);
        let breaks = |subtree: &[u8]| text::dns_breaks(presented, subtree);
        text::is_dns_id(presented) && self.dns.hold(lies_in, breaks)
    }
}
