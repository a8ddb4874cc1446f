//! The verdict once more, as slow and literal as the documents' sentences, for
//! generated cases: a nested loop over references and names, each name judged
//! on its own before it is compared.

use second::examples::issuers::chain;
use second::examples::J;
use second::generate::{self, boundary, Case};
use second::name::{kind as row_kind, Name};
use second::records::{kind, Reference, References};
use second::text::{self, is_scheme, is_service, srv_parts, uri_parts};
use second::tree::{dns_name, record};
use second::{answer, constraints, san, subject, Outcome};

const CASES: u64 = 60_000;

#[test]
fn generated_cases() {
    for number in 0..CASES {
        let case = generate::case(20, number);
        assert_eq!(ours(&case), literal(&case), "case {number}: {case:02X?}");
    }
}

#[test]
fn boundary_table() {
    boundary::each(&mut |(what, case)| {
        assert_eq!(ours(&case), literal(&case), "{what}: {case:02X?}");
    });
}

/// Every text of up to six bytes over an alphabet of the bytes that decide.
#[test]
fn small_texts() {
    let mut texts = vec![Vec::new()];
    for _ in 0..6 {
        let longer = texts.iter().flat_map(|text: &Vec<u8>| {
            let text = text.as_slice();
            b"a7.-_".iter().map(move |&byte| [text, &[byte]].concat())
        });
        let longer: Vec<Vec<u8>> = longer.collect();
        for text in &longer {
            assert_eq!(text::is_domain(text), is_domain(text), "{text:?}");
            assert_eq!(text::srv_id(text), srv_id(text), "{text:?}");
            assert_eq!(text::is_srv_subtree(text), is_srv_subtree(text), "{text:?}");
            assert_eq!(text::is_dns_subtree(text), is_domain(text), "{text:?}");
        }
        texts = longer;
    }
}

/// The six numbers of the verdict and the witness's text.
type Numbers<'a> = ([u32; 6], &'a [u8]);

fn ours(case: &Case) -> Numbers<'_> {
    let Outcome { verdict: v, text } = case.judged();
    let of_cn = v.answer == 0 && case.references[v.reference as usize * 320] == kind::CN;
    let holder = if of_cn { &case.subject } else { &case.san };
    let text = &holder[text.start as usize..][..text.length as usize];
    (v.numbers(), text)
}

fn literal(case: &Case) -> Numbers<'_> {
    let Some(strings) = strings(case).filter(|_| !too_long(case)) else {
        return bare(answer::TOO_LONG);
    };
    let Some(references) = References::read(&case.references) else {
        return bare(answer::REFERENCES_UNREADABLE);
    };
    // Request 1/13: "a reference record whose domain has one label is refused
    // with 6".
    let mut records = references.as_slice().iter();
    let bad = |domain: &[u8]| !is_domain(domain) || labels(domain).len() < 2;
    if records.any(|reference| bad(reference.domain)) {
        return bare(answer::REFERENCES_UNREADABLE);
    }
    let (mut entries, mut attributes) = (Vec::new(), Vec::new());
    if san::read(&case.san, |name| entries.push(name)).is_none() {
        return bare(answer::SAN_UNREADABLE);
    }
    if subject::read(&case.subject, |name| attributes.push(name), |_| ()).is_none() {
        return bare(answer::SUBJECT_UNREADABLE);
    }
    let strings: Option<Vec<Vec<Name>>> = strings.into_iter().map(subtrees).collect();
    let Some(strings) = strings else {
        return bare(answer::CONSTRAINTS_UNREADABLE);
    };
    for (issuer, subtrees) in strings.iter().enumerate() {
        for entry in &entries {
            if breaks(entry, subtrees) {
                let numbers = [2, 0, entry.row.group, 0, 0, issuer];
                return (numbers.map(|number| number as u32), b"");
            }
        }
    }
    first_pair(references.as_slice(), &entries, &attributes)
}

fn too_long(case: &Case) -> bool {
    case.san.len() > 16_384 || case.subject.len() > 4_096 || case.references.len() > 5_120
}

/// The constraint strings, or `None` for 7. Request 6/13: "a ninth, or lengths
/// with another sum, is 7, and each keeps its own length limit. From C each
/// length is two bytes, high first; an odd count is 7."
fn strings(case: &Case) -> Option<Vec<&[u8]>> {
    let (bytes, lengths) = (&case.constraints.bytes, &case.constraints.lengths);
    let count = lengths.len() / 2;
    let length = |place: usize| 256 * lengths[2 * place] as usize + lengths[2 * place + 1] as usize;
    let start = |place: usize| (0..place).map(length).sum::<usize>();
    let fits = lengths.len() % 2 == 0
        && count <= 8
        && start(count) == bytes.len()
        && (0..count).all(|place| length(place) <= 16_384);
    fits.then(|| {
        let string = |place: usize| &bytes[start(place)..start(place + 1)];
        (0..count).map(string).collect()
    })
}

/// The subtrees of a string, or `None` where it is unreadable.
fn subtrees(string: &[u8]) -> Option<Vec<Name<'_>>> {
    let mut subtrees = Vec::new();
    constraints::read(string, |subtree| subtrees.push(subtree))?;
    let fits = |subtree: &Name| match subtree.row.kind {
        row_kind::SRV => is_srv_subtree(subtree.text),
        row_kind::DNS => subtree.text.is_empty() || is_domain(subtree.text),
        _ => true,
    };
    subtrees.iter().all(fits).then_some(subtrees)
}

/// The pair of the lowest reference, then the lowest name.
fn first_pair<'a>(
    references: &[Reference],
    entries: &[Name<'a>],
    attributes: &[Name<'a>],
) -> Numbers<'a> {
    for (index, reference) in references.iter().enumerate() {
        for name in candidates(reference, entries, attributes) {
            if matches(reference, name.text) {
                let numbers = [0, index, name.row.group, name.row.start, name.row.length, 0];
                return (numbers.map(|number| number as u32), name.text);
            }
        }
    }
    bare(answer::MISMATCH)
}

fn bare<'a>(answer: u32) -> Numbers<'a> {
    ([answer, 0, 0, 0, 0, 0], b"")
}

/// Whether an entry breaks the subtrees of one string that have its form.
fn breaks(entry: &Name, subtrees: &[Name]) -> bool {
    let of_form = |subtree: &&Name| subtree.row.kind == entry.row.kind;
    let subtrees: Vec<&Name> = subtrees.iter().filter(of_form).collect();
    if subtrees.is_empty() {
        return false;
    }
    let (permitted, excluded): (Vec<&Name>, Vec<&Name>) = subtrees
        .into_iter()
        .partition(|subtree| subtree.row.group == 0);
    match entry.row.kind {
        row_kind::SRV => {
            let Some((service, domain)) = srv_id(entry.text) else {
                return true;
            };
            let inside = |subtree: &&Name| lies_in(service, domain, subtree.text);
            excluded.iter().any(inside) || (!permitted.is_empty() && !permitted.iter().any(inside))
        }
        row_kind::DNS => {
            let name = labels(entry.text);
            let inside = |subtree: &&Name| below(&name, subtree.text);
            let reached = |subtree: &&Name| one_label_below(&name, subtree.text);
            !is_dns_id(entry.text)
                || excluded
                    .iter()
                    .any(|subtree| inside(subtree) || reached(subtree))
                || (!permitted.is_empty() && !permitted.iter().any(inside))
        }
        _ => false,
    }
}

/// "zero or more labels added on the left; an empty text contains every name"
fn below(name: &[Vec<u8>], subtree: &[u8]) -> bool {
    subtree.is_empty() || name.ends_with(&labels(subtree))
}

/// "It also breaks an excluded subtree made of one label and then the text after
/// `*.`".
fn one_label_below(name: &[Vec<u8>], subtree: &[u8]) -> bool {
    let subtree = labels(subtree);
    name[0] == b"*" && subtree.len() == name.len() && subtree[1..] == name[1..]
}

fn lies_in(service: &[u8], domain: &[u8], subtree: &[u8]) -> bool {
    let domain = labels(domain);
    let mut wanted = labels(subtree);
    if wanted[0].starts_with(b"_") {
        let wanted_service = wanted.remove(0);
        if wanted_service[1..] != service.to_ascii_lowercase() {
            return false;
        }
    }
    domain.ends_with(&wanted)
}

/// A domain, label by label. Request 2/13: "the last label of a domain may not
/// be all digits": a byte of it is a letter or a hyphen.
fn is_domain(text: &[u8]) -> bool {
    let labels = labels(text);
    let is_label = |label: &Vec<u8>| {
        let ends = [label.first(), label.last()];
        (1..64).contains(&label.len())
            && label
                .iter()
                .all(|byte| matches!(byte, b'a'..=b'z' | b'0'..=b'9' | b'-'))
            && !ends.contains(&Some(&b'-'))
    };
    let named = |label: &Vec<u8>| label.iter().any(|byte| matches!(byte, b'a'..=b'z' | b'-'));
    text.len() < 254 && labels.iter().all(is_label) && labels.last().is_some_and(named)
}

/// Service and domain of an SRV-ID.
fn srv_id(text: &[u8]) -> Option<(&[u8], &[u8])> {
    srv_parts(text).filter(|(service, domain)| is_service(service) && is_domain(domain))
}

/// "`_service`, `_service.domain`, `domain`"
fn is_srv_subtree(text: &[u8]) -> bool {
    match text.strip_prefix(b"_") {
        Some(service) if is_service(service) => true,
        Some(_) => srv_id(text).is_some(),
        None => is_domain(text),
    }
}

/// The labels of a domain, in small letters.
fn labels(domain: &[u8]) -> Vec<Vec<u8>> {
    domain
        .to_ascii_lowercase()
        .split(|&byte| byte == b'.')
        .map(<[u8]>::to_vec)
        .collect()
}

/// The names that a reference may match, by kind alone.
fn candidates<'a>(
    reference: &Reference,
    entries: &[Name<'a>],
    attributes: &[Name<'a>],
) -> Vec<Name<'a>> {
    let wanted = match reference.kind {
        kind::DNS => row_kind::DNS,
        kind::SRV => row_kind::SRV,
        kind::URI => row_kind::URI,
        _ => return common_names(entries, attributes),
    };
    let of_kind = |name: &&Name| name.row.kind == wanted;
    entries.iter().filter(of_kind).copied().collect()
}

/// The CNs that count: none if the SAN has a name of another kind.
fn common_names<'a>(entries: &[Name<'a>], attributes: &[Name<'a>]) -> Vec<Name<'a>> {
    let blocks = [row_kind::DNS, row_kind::SRV, row_kind::URI];
    if entries.iter().any(|name| blocks.contains(&name.row.kind)) {
        return Vec::new();
    }
    let alone = |name: &&Name| {
        let of_set = attributes
            .iter()
            .filter(|other| other.row.group == name.row.group);
        let of_type_cn = of_set.filter(|other| other.row.kind != row_kind::OTHER_ATTRIBUTE);
        of_type_cn.count() == 1
    };
    let of_tag = attributes
        .iter()
        .filter(|name| name.row.kind == row_kind::CN);
    of_tag.filter(alone).copied().collect()
}

fn matches(reference: &Reference, text: &[u8]) -> bool {
    let wanted = labels(reference.domain);
    match reference.kind {
        kind::DNS | kind::CN => matches_dns_id(&wanted, text),
        kind::SRV => srv_id(text).is_some_and(|(service, domain)| {
            assert!(is_service(service));
            service.eq_ignore_ascii_case(reference.service) && labels(domain) == wanted
        }),
        _ => uri_parts(text).is_some_and(|(scheme, domain)| {
            is_scheme(scheme)
                && is_domain(domain)
                && scheme.eq_ignore_ascii_case(reference.service)
                && labels(domain) == wanted
        }),
    }
}

/// Whether a text is a DNS-ID. Request 1/13: "a wildcard needs at least two labels
/// after it".
fn is_dns_id(text: &[u8]) -> bool {
    match text.strip_prefix(b"*.") {
        None => is_domain(text),
        Some(rest) => text.len() <= 253 && is_domain(rest) && labels(rest).len() >= 2,
    }
}

/// Whether a text is a DNS-ID, and matches these labels.
fn matches_dns_id(wanted: &[Vec<u8>], text: &[u8]) -> bool {
    let name = labels(text);
    is_dns_id(text)
        && match name[0].as_slice() {
            b"*" => name[1..] == wanted[1..],
            _ => name == wanted,
        }
}

/// Every domain of one to four labels out of two.
fn small_domains() -> Vec<String> {
    let mut domains: Vec<String> = Vec::new();
    let mut longest = vec!["a".to_string(), "b".to_string()];
    for _ in 0..4 {
        domains.extend(longest.iter().cloned());
        let longer = |domain: &String| ["a", "b"].map(|label| format!("{label}.{domain}"));
        longest = longest.iter().flat_map(longer).collect();
    }
    domains
}

/// Request 6/13: "prove that a wildcard dNSName that breaks no string matches no
/// domain in an excluded dNSName subtree". Here for every small wildcard, every
/// small domain that is asked for, and every excluded subtree, in the first
/// string and in the second.
#[test]
fn no_match_in_an_excluded_subtree() {
    let domains = small_domains();
    let (mut kept, mut broken) = (0, 0);
    for rest in domains.iter().filter(|domain| domain.contains('.')) {
        let names = second::tree::san(vec![dns_name(format!("*.{rest}").as_bytes())]).write();
        for asked in domains.iter().filter(|domain| domain.contains('.')) {
            let references = record(kind::DNS, b"", asked.as_bytes());
            let mut case = Case {
                san: names.clone(),
                subject: J.to_vec(),
                references,
                ..Case::default()
            };
            if case.judged().verdict.answer != answer::MATCH {
                continue;
            }
            for subtree in domains.iter().map(String::as_str).chain([""]) {
                let excluded = format!("-{subtree}");
                let inside = below(&labels(asked.as_bytes()), subtree.as_bytes());
                for (issuer, strings) in [[&excluded, "+"], ["", &excluded]].iter().enumerate() {
                    case.constraints = chain(strings);
                    let verdict = case.judged().verdict;
                    let found = [verdict.answer, verdict.issuer];
                    assert!(
                        !inside || found == [2, issuer as u32],
                        "*.{rest} {excluded} {asked}"
                    );
                    kept += u32::from(verdict.answer == answer::MATCH);
                    broken += u32::from(inside);
                }
            }
        }
    }
    assert!(kept > 1_000 && broken > 200, "{kept} and {broken}");
}

/// The same of the names of generated cases: no wildcard matches a domain in an
/// excluded subtree, be its first label the subtree's or another.
#[test]
fn no_match_in_an_excluded_subtree_of_a_case() {
    let mut looked_at = 0;
    for number in 0..CASES {
        let case = generate::case(21, number);
        if case.judged().verdict.answer > answer::MISMATCH {
            continue;
        }
        let mut names = Vec::new();
        let _read = san::read(&case.san, |name| names.push(name));
        names.retain(|name| name.row.kind == row_kind::DNS && name.text.starts_with(b"*."));
        let mut excluded = Vec::new();
        for string in case.constraints.strings() {
            let _read = constraints::read(string, |subtree| excluded.push(subtree));
        }
        excluded.retain(|name| name.row.kind == row_kind::DNS && name.row.group == 1);
        for (name, subtree) in names
            .iter()
            .flat_map(|name| excluded.iter().map(move |one| (name, one)))
        {
            let first = labels(subtree.text).swap_remove(0);
            for label in [first.as_slice(), b"q"] {
                let domain = [label, &name.text[1..]].concat();
                let domain = labels(&domain);
                assert!(matches_dns_id(&domain, name.text), "case {number}");
                assert!(!below(&domain, subtree.text), "case {number}: {case:02X?}");
                looked_at += 1;
            }
        }
    }
    assert!(looked_at > 500, "{looked_at}");
}
