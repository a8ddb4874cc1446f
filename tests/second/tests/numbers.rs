//! The generator gives enough of what request 2/13 decides: "the last label of
//! a domain may not be all digits".

use second::der::{Cursor, Element};
use second::generate::{case, Case};
use second::name::kind as row_kind;
use second::records::kind::{CN, DNS, SRV, URI};
use second::records::RECORD;
use second::text::{is_srv_subtree, srv_id};
use second::{answer, list, record, san, Outcome, Which};

const CASES: u64 = 40_000;

/// A kind of case: what it is, how often it must be there, and how it is told.
type Numbered = (&'static str, u32, fn(&Case, &Outcome) -> bool);

const REFUSED: [Numbered; 11] = [
    ("DNS record", 80, |case, _| {
        records(case).contains(&Some(DNS))
    }),
    ("SRV record", 80, |case, _| {
        records(case).contains(&Some(SRV))
    }),
    ("URI record", 80, |case, _| {
        records(case).contains(&Some(URI))
    }),
    ("CN record", 80, |case, _| records(case).contains(&Some(CN))),
    ("one record", 70, |case, _| {
        matches!(records(case)[..], [Some(_)])
    }),
    ("first of several records", 60, |case, _| {
        matches!(records(case)[..], [Some(_), .., None])
    }),
    ("last of several records", 60, |case, _| {
        matches!(records(case)[..], [None, .., Some(_)])
    }),
    ("restriction without a service", 60, |case, outcome| {
        outcome.verdict.answer == 5 && restrictions(case).contains(&false)
    }),
    ("restriction with a service", 60, |case, outcome| {
        outcome.verdict.answer == 5 && restrictions(case).contains(&true)
    }),
    ("broken SRVName", 150, broken),
    ("CN behind a name of digits", 20, blocked),
];

/// The same for a match: the kind of its record, whether its name has a
/// wildcard, and how the record's domain is told.
type Matched = (&'static str, u32, u8, bool, fn(&[u8]) -> bool);

const MATCHED: [Matched; 10] = [
    ("DNS match, nearly digits last", 50, DNS, false, near_last),
    ("wildcard, nearly digits last", 30, DNS, true, near_last),
    ("SRV match, nearly digits last", 50, SRV, false, near_last),
    ("URI match, nearly digits last", 30, URI, false, near_last),
    ("CN match, nearly digits last", 30, CN, false, near_last),
    ("DNS match, digits first", 30, DNS, false, digits_first),
    ("wildcard, digits behind it", 20, DNS, true, digits_second),
    ("SRV match, digits first", 30, SRV, false, digits_first),
    ("URI match, digits first", 20, URI, false, digits_first),
    ("CN match, digits first", 20, CN, false, digits_first),
];

#[test]
fn the_digits_of_request_2_are_tried() {
    let mut refused = [0; REFUSED.len()];
    let mut matches = [0; MATCHED.len()];
    for number in 0..CASES {
        let case = case(7, number);
        let outcome = case.judged();
        for (count, (_, _, is)) in refused.iter_mut().zip(REFUSED) {
            *count += u32::from(is(&case, &outcome));
        }
        for (count, (_, _, kind, wildcard, is)) in matches.iter_mut().zip(MATCHED) {
            let domain = matched(&case, &outcome, kind, wildcard);
            *count += u32::from(domain.is_some_and(is));
        }
    }
    let leasts = REFUSED.map(|(what, least, _)| (what, least));
    let matched_leasts = MATCHED.map(|(what, least, ..)| (what, least));
    let leasts = leasts.into_iter().chain(matched_leasts);
    for (count, (what, least)) in refused.into_iter().chain(matches).zip(leasts) {
        assert!(count >= least, "{what}: {count} of {CASES}");
    }
}

fn labels(text: &[u8]) -> Vec<&[u8]> {
    text.split(|&byte| byte == b'.').collect()
}

fn is_number(label: &[u8]) -> bool {
    !label.is_empty() && label.iter().all(u8::is_ascii_digit)
}

/// Whether a text has a last label of digits alone.
fn ends_in_number(text: &[u8]) -> bool {
    labels(text).last().is_some_and(|last| is_number(last))
}

/// Whether all but one byte of the last label are digits.
fn near_last(domain: &[u8]) -> bool {
    let last = labels(domain)[labels(domain).len() - 1];
    let digits = last.iter().filter(|byte| byte.is_ascii_digit()).count();
    digits > 0 && digits + 1 == last.len()
}

fn digits_first(domain: &[u8]) -> bool {
    is_number(labels(domain)[0])
}

fn digits_second(domain: &[u8]) -> bool {
    is_number(labels(domain)[1])
}

/// The domain of the record that matched, if it is of this kind and the name
/// has a wildcard or not.
fn matched<'a>(case: &'a Case, outcome: &Outcome, kind: u8, wildcard: bool) -> Option<&'a [u8]> {
    let record = &case.references[outcome.verdict.reference as usize * RECORD..];
    if outcome.verdict.answer != answer::MATCH || record[0] != kind {
        return None;
    }
    let holder = if kind == CN { &case.subject } else { &case.san };
    let star = holder[outcome.text.start as usize] == b'*';
    (star == wildcard).then(|| &record[67..67 + usize::from(record[3])])
}

/// The kinds of the records that end in digits, where a letter in place of the
/// last digit makes all of the records readable; `None` for the others.
fn records(case: &Case) -> Vec<Option<u8>> {
    let mut mended = case.references.clone();
    let mut kinds = Vec::new();
    for record in mended.chunks_exact_mut(RECORD) {
        let end = 67 + usize::from(record[3]).min(253);
        let number = ends_in_number(&record[67..end]);
        kinds.push(number.then_some(record[0]));
        if number {
            record[end - 1] = b'b';
        }
    }
    if record(&mended, 0).answer != 0 {
        kinds.clear();
    }
    kinds
}

/// The elements of a content, up to the first that is none.
fn elements<'a>(element: Element<'a>) -> Vec<Element<'a>> {
    let mut parts = element.parts();
    std::iter::from_fn(|| parts.any()).collect()
}

/// Whether there is a service, for each SRVName restriction of one string that
/// ends in digits, where a letter in place of the last digit makes it readable.
fn restrictions(case: &Case) -> Vec<bool> {
    let [string] = case.constraints.strings()[..] else {
        return Vec::new();
    };
    let mut mended = string.to_vec();
    let mut services = Vec::new();
    let sides = Cursor::new(string).any().map(elements);
    let subtrees = sides.into_iter().flatten().flat_map(elements);
    let otherwise = subtrees.flat_map(elements).flat_map(elements);
    for text in otherwise.flat_map(elements) {
        if ends_in_number(text.content) && !is_srv_subtree(text.content) {
            mended[text.start + text.length - 1] = b'b';
            services.push(text.content[0] == b'_');
        }
    }
    if list(&mended, Which::Constraints).answer != 0 {
        services.clear();
    }
    services
}

/// Whether an SRVName breaks the constraints and would be an SRV-ID with a
/// letter behind its digits.
fn broken(case: &Case, outcome: &Outcome) -> bool {
    let mut texts = Vec::new();
    let _read = san::read(&case.san, |name| texts.push(name.text));
    let text = texts.get(outcome.verdict.presented as usize);
    outcome.verdict.answer == answer::CONSTRAINTS_BROKEN
        && text.is_some_and(|text| {
            ends_in_number(text) && srv_id(&[text, b"b".as_slice()].concat()).is_some()
        })
}

/// Whether only names that end in digits keep a CN from counting that a record
/// asks for.
fn blocked(case: &Case, outcome: &Outcome) -> bool {
    let blocking = [row_kind::DNS, row_kind::SRV, row_kind::URI];
    let mut names = Vec::new();
    let _read = san::read(&case.san, |name| names.push(name));
    names.retain(|name| blocking.contains(&name.row.kind));
    let alone = Case {
        san: Vec::new(),
        ..case.clone()
    };
    let alone = alone.judged();
    outcome.verdict.answer == answer::MISMATCH
        && alone.verdict.answer == answer::MATCH
        && names.iter().all(|name| ends_in_number(name.text))
}
