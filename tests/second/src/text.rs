//! "Names": the texts of domains, services, schemes, DNS-IDs, SRV-IDs, URI-IDs
//! and of the subtrees of either form.

pub const LONGEST_DOMAIN: usize = 253;
pub const LONGEST_LABEL: usize = 63;
pub const LONGEST_SERVICE: usize = 62;
pub const LONGEST_SCHEME: usize = 63;

/// A service or scheme, and a domain.
pub type Pair<'a> = (&'a [u8], &'a [u8]);

/// "Letters compare without case, label by label": only A to Z and a to z have a
/// case, and every other byte, from 128 on too, is the same as itself alone. Dots
/// are bytes of a text like any other, so texts that are the same have the same
/// labels. Request 5/13, of how this is done: "Its promise stays word for word."
#[inline]
pub fn same_text(one: &[u8], other: &[u8]) -> bool {
    one.eq_ignore_ascii_case(other)
}

/// "A label has letters, digits and hyphens, no hyphen at either end."
fn is_label(text: &[u8], longest: usize) -> bool {
    (1..=longest).contains(&text.len())
        && text[0] != b'-'
        && text[text.len() - 1] != b'-'
        && text
            .iter()
            .all(|&byte| byte.is_ascii_alphanumeric() || byte == b'-')
}

/// "Domain: at most 253 bytes, one or more labels of 1 to 63 bytes joined by
/// single dots. [...] No trailing dot." Request 2/13: "Document 01 was wrong to
/// allow digits everywhere: the last label of a domain may not be all digits."
pub fn is_domain(text: &[u8]) -> bool {
    if text.len() > LONGEST_DOMAIN {
        return false;
    }
    let mut last: &[u8] = b"";
    for label in text.split(|&byte| byte == b'.') {
        if !is_label(label, LONGEST_LABEL) {
            return false;
        }
        last = label;
    }
    !last.iter().all(u8::is_ascii_digit)
}

/// Whether a domain has two labels or more, which request 1/13 asks of what
/// stands after a wildcard and of a record's domain: a dot in a domain has a
/// label on either side.
pub fn has_two_labels(domain: &[u8]) -> bool {
    domain.contains(&b'.')
}

/// "a service (1 to 62 letters, digits, hyphens, no hyphen at an end)"
pub fn is_service(text: &[u8]) -> bool {
    is_label(text, LONGEST_SERVICE)
}

/// "a URI scheme (a letter, then letters, digits, "+", "-", "."), 1 to 63
/// bytes"
pub fn is_scheme(text: &[u8]) -> bool {
    text.len() <= LONGEST_SCHEME
        && text.first().is_some_and(u8::is_ascii_alphabetic)
        && text
            .iter()
            .all(|&byte| byte.is_ascii_alphanumeric() || matches!(byte, b'+' | b'-' | b'.'))
}

/// The parts before and after the first `separator`.
fn split_once(text: &[u8], separator: u8) -> Option<(&[u8], &[u8])> {
    let at = text.iter().position(|&byte| byte == separator)?;
    Some((&text[..at], &text[at + 1..]))
}

/// The domain without its first label, if a wildcard may stand before what is
/// left. Request 1/13: "From now on a wildcard needs at least two labels after
/// it, in DNS-ID and CN-ID".
pub fn parent(domain: &[u8]) -> Option<&[u8]> {
    let (_, parent) = split_once(domain, b'.')?;
    has_two_labels(parent).then_some(parent)
}

/// "DNS-ID: a dNSName that is a domain, or `*.` and a domain (at most 253 bytes
/// in all)." Request 1/13: "From now on a wildcard needs at least two labels
/// after it".
pub fn is_dns_id(text: &[u8]) -> bool {
    match text.strip_prefix(b"*.") {
        None => is_domain(text),
        Some(rest) => text.len() <= LONGEST_DOMAIN && is_domain(rest) && has_two_labels(rest),
    }
}

/// Service and domain of an SRVName, not yet judged: "_", what stands before
/// the first dot, and what stands after it.
pub fn srv_parts(text: &[u8]) -> Option<Pair<'_>> {
    split_once(text.strip_prefix(b"_")?, b'.')
}

/// "SRV-ID: "_", a service [...], ".", a domain without wildcard."
pub fn srv_id(text: &[u8]) -> Option<Pair<'_>> {
    srv_parts(text).filter(|(service, domain)| is_service(service) && is_domain(domain))
}

/// Scheme and domain of a URI, not yet judged. "a scheme as in a record,
/// "://", then an authority up to the first "/", "?", "#" or the end:
/// optionally a text (perhaps empty) without "@" and then "@", a domain,
/// optionally ":" and digits or nothing."
pub fn uri_parts(text: &[u8]) -> Option<Pair<'_>> {
    let (scheme, rest) = split_once(text, b':')?;
    let rest = rest.strip_prefix(b"//")?;
    let end = rest
        .iter()
        .position(|byte| matches!(byte, b'/' | b'?' | b'#'));
    let authority = &rest[..end.unwrap_or(rest.len())];
    let host = split_once(authority, b'@').map_or(authority, |(_, host)| host);
    match split_once(host, b':') {
        None => Some((scheme, host)),
        Some((domain, port)) => port
            .iter()
            .all(u8::is_ascii_digit)
            .then_some((scheme, domain)),
    }
}

/// "URI-ID: a scheme as in a record, "://", then an authority [...]". What
/// stands around the domain may have any bytes.
pub fn is_uri_id(text: &[u8]) -> bool {
    uri_parts(text).is_some_and(|(scheme, domain)| is_scheme(scheme) && is_domain(domain))
}

/// Service and domain of an SRVName subtree, each where it is given.
fn subtree_parts(text: &[u8]) -> (Option<&[u8]>, Option<&[u8]>) {
    match text.strip_prefix(b"_") {
        None => (None, Some(text)),
        Some(rest) => match split_once(rest, b'.') {
            None => (Some(rest), None),
            Some((service, domain)) => (Some(service), Some(domain)),
        },
    }
}

/// "An SRVName here has one of three texts: `_service`, `_service.domain`,
/// `domain`." A service may be all digits; of a domain, request 2/13 says: "This
/// holds for [...] restriction texts (5)".
pub fn is_srv_subtree(text: &[u8]) -> bool {
    let (service, domain) = subtree_parts(text);
    service.is_none_or(is_service) && domain.is_none_or(is_domain)
}

/// "It lies in a subtree if the service is equal, without case, where one is
/// given, and the subtree's labels are the last labels of its domain where a
/// domain is given."
pub fn lies_in((service, domain): Pair<'_>, subtree: &[u8]) -> bool {
    let (wanted_service, wanted_domain) = subtree_parts(subtree);
    wanted_service.is_none_or(|wanted| same_text(service, wanted))
        && wanted_domain.is_none_or(|wanted| ends_with_labels(domain, wanted))
}

/// Request 6/13, of a dNSName subtree: "an empty text contains every name; any
/// other text must be a domain, else 5".
pub fn is_dns_subtree(text: &[u8]) -> bool {
    text.is_empty() || is_domain(text)
}

/// Whether a DNS-ID lies in a dNSName subtree: "zero or more labels added on the
/// left". "A wildcard name lies in a subtree if the subtree's labels are its last
/// labels, the star taken as an ordinary label."
pub fn dns_lies_in(dns_id: &[u8], subtree: &[u8]) -> bool {
    subtree.is_empty() || ends_with_labels(dns_id, subtree)
}

/// Whether a DNS-ID breaks a dNSName subtree that is excluded: it lies there, or
/// is a wildcard that one label turns into the subtree. "It also breaks an
/// excluded subtree made of one label and then the text after `*.`".
pub fn dns_breaks(dns_id: &[u8], subtree: &[u8]) -> bool {
    dns_lies_in(dns_id, subtree)
        || dns_id.strip_prefix(b"*.").is_some_and(|rest| {
            split_once(subtree, b'.').is_some_and(|(_, behind)| same_text(behind, rest))
        })
}

/// Whether the labels of `last` are the last labels of `domain`. "Equal
/// domains count."
fn ends_with_labels(domain: &[u8], last: &[u8]) -> bool {
    let Some(before) = domain.len().checked_sub(last.len()) else {
        return false;
    };
    (before == 0 || domain[before - 1] == b'.') && same_text(&domain[before..], last)
}
