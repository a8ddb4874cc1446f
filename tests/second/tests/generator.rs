//! The generator gives the same case for the same seed, and enough of each
//! kind of case.

use second::constraints::{self, EXCLUDED, PERMITTED};
use second::generate::buffers::buffers;
use second::generate::lists::jobs;
use second::generate::texts::pairs;
use second::generate::{case, Case, Job, Random};
use second::name::kind::{CN as CN_ROW, DNS as DNS_ROW, SRV as SRV_ROW, URI as URI_ROW};
use second::name::Name;
use second::records::kind::{CN, DNS, SRV, URI};
use second::records::RECORD;
use second::text::{is_domain, is_uri_id, lies_in, same_text, srv_id, Pair};
use second::tree::{general_name, name_text, san as tree_san};
use second::{answer, list, record, san, subject, Outcome, Which, Writer};

const CASES: u64 = 40_000;

/// The generated cases of one seed, with their outcomes.
fn cases() -> impl Iterator<Item = (Case, Outcome)> {
    (0..CASES).map(|number| {
        let case = case(7, number);
        let outcome = case.judged();
        (case, outcome)
    })
}

/// The kind of the reference that matched, or 0.
fn matched(case: &Case, outcome: &Outcome) -> u8 {
    match outcome.verdict.answer {
        answer::MATCH => case.references[outcome.verdict.reference as usize * RECORD],
        _ => 0,
    }
}

#[test]
fn the_same_seed_gives_the_same_case() {
    for number in 0..500 {
        assert_eq!(case(3, number), case(3, number));
        assert_ne!(case(3, number), case(4, number));
    }
}

#[test]
fn every_answer_and_every_match_is_frequent() {
    let mut answers = [0; 8];
    let mut matches = [[0; 2]; 5];
    for (case, outcome) in cases() {
        answers[outcome.verdict.answer as usize] += 1;
        if outcome.verdict.answer == answer::MATCH {
            let kind = matched(&case, &outcome);
            let holder = if kind == CN { &case.subject } else { &case.san };
            let wildcard = holder[outcome.text.start as usize] == b'*';
            matches[usize::from(kind)][usize::from(wildcard)] += 1;
        }
    }
    let [_, dns, [srv, _], [uri, _], cn] = matches;
    let matches = [dns[0], dns[1], srv, uri, cn[0], cn[1]];
    let least = CASES / 100;
    assert!(
        answers.iter().all(|&count| count >= least),
        "answers {answers:?}"
    );
    assert!(
        matches.iter().all(|&count| count >= least),
        "matches {matches:?}"
    );
}

/// A kind of case that only a generator with room for it gives.
type Rare = (&'static str, fn(&Case, &Outcome) -> bool);

const RARE: [Rare; 10] = [
    ("broken name behind 120 others", |_, outcome| {
        outcome.verdict.answer == answer::CONSTRAINTS_BROKEN && outcome.verdict.presented > 120
    }),
    ("DNS match behind 255 names", |case, outcome| {
        matched(case, outcome) == DNS && outcome.verdict.presented > 255
    }),
    ("SRV match behind 255 names", |case, outcome| {
        matched(case, outcome) == SRV && outcome.verdict.presented > 255
    }),
    ("URI match behind 255 names", |case, outcome| {
        matched(case, outcome) == URI && outcome.verdict.presented > 255
    }),
    ("CN match behind 63 sets", |case, outcome| {
        matched(case, outcome) == CN && outcome.verdict.presented > 63
    }),
    ("match of a URI over 330 bytes", |case, outcome| {
        matched(case, outcome) == URI && outcome.text.length > 330
    }),
    (
        "match of a URI with a user over 8 bytes",
        |case, outcome| matched(case, outcome) == URI && user_length(case, outcome) > 8,
    ),
    (
        "SRV match under over 8 permitted SRVNames",
        |case, outcome| matched(case, outcome) == SRV && restrictions(case, PERMITTED) > 8,
    ),
    (
        "SRV match under over 3 excluded SRVNames",
        |case, outcome| matched(case, outcome) == SRV && restrictions(case, EXCLUDED) > 3,
    ),
    ("match of the 16th reference", |_, outcome| {
        outcome.verdict.reference == 15
    }),
];

/// The bytes before the "@" of a matched URI's authority; 0 without one.
fn user_length(case: &Case, outcome: &Outcome) -> usize {
    let start = outcome.text.start as usize;
    let text = &case.san[start..start + outcome.text.length as usize];
    let rest = text.splitn(3, |&byte| byte == b'/').nth(2);
    let mut parts = rest.unwrap_or_default().split(|byte| b"/?#".contains(byte));
    let authority = parts.next().unwrap_or_default();
    authority.iter().position(|&byte| byte == b'@').unwrap_or(0)
}

/// How many SRVName subtrees a side has, in all strings.
fn restrictions(case: &Case, side: usize) -> usize {
    let strings = case.constraints.strings().into_iter();
    let rows = strings.flat_map(|string| list(string, Which::Constraints).rows);
    rows.filter(|row| row.kind == SRV_ROW && row.group == side)
        .count()
}

#[test]
fn no_rare_case_is_missing() {
    let mut counts = [0; RARE.len()];
    for (case, outcome) in cases() {
        for (count, (_, is)) in counts.iter_mut().zip(RARE) {
            *count += u32::from(is(&case, &outcome));
        }
    }
    for (count, (what, _)) in counts.into_iter().zip(RARE) {
        assert!(count >= 3, "{what}: {count} of {CASES}");
    }
}

/// A kind of case that request 1/13 decides: what it is, the answer, how often
/// it must be there, and how it is told.
type Narrowed = (&'static str, u32, u32, fn(&Case) -> bool);

const NARROWED: [Narrowed; 9] = [
    ("`*.b` in a dNSName for `a.b`", 1, 200, |case| {
        short_wildcard(case, DNS, &dns_names(case))
    }),
    ("`*.b` in a CN for `a.b`", 1, 100, |case| {
        short_wildcard(case, CN, &common_names(case))
    }),
    ("DNS record of one label", 6, 100, |case| {
        short_records(case).contains(&Some(DNS))
    }),
    ("SRV record of one label", 6, 100, |case| {
        short_records(case).contains(&Some(SRV))
    }),
    ("URI record of one label", 6, 100, |case| {
        short_records(case).contains(&Some(URI))
    }),
    ("CN record of one label", 6, 100, |case| {
        short_records(case).contains(&Some(CN))
    }),
    ("one record, of one label", 6, 100, |case| {
        matches!(short_records(case)[..], [Some(_)])
    }),
    ("first of several of one label", 6, 60, |case| {
        matches!(short_records(case)[..], [Some(_), .., None])
    }),
    ("last of several of one label", 6, 60, |case| {
        matches!(short_records(case)[..], [None, .., Some(_)])
    }),
];

/// The texts of the dNSNames of a SAN.
fn dns_names(case: &Case) -> Vec<&[u8]> {
    let mut names = Vec::new();
    let _read = san::read(&case.san, |name| names.push(name));
    names.retain(|name| name.row.kind == DNS_ROW);
    names.into_iter().map(|name| name.text).collect()
}

/// The texts of the CNs that count.
fn common_names(case: &Case) -> Vec<&[u8]> {
    let blocking = [DNS_ROW, SRV_ROW, URI_ROW];
    let entries = list(&case.san, Which::San).rows;
    if entries.iter().any(|row| blocking.contains(&row.kind)) {
        return Vec::new();
    }
    let mut names = Vec::new();
    let _read = subject::read(&case.subject, |_| (), |name| names.push(name));
    names.retain(|name| name.row.kind == CN_ROW);
    names.into_iter().map(|name| name.text).collect()
}

/// Whether one of these texts is a wildcard and one label, and a record of this
/// kind asks for a label in place of the wildcard.
fn short_wildcard(case: &Case, kind: u8, texts: &[&[u8]]) -> bool {
    let asked = |rest: &[u8]| {
        let mut records = case.references.chunks(RECORD);
        records.any(|record| {
            let (_, parent) = split(domain(record));
            record[0] == kind && same_text(parent, rest)
        })
    };
    let short = |text: &[u8]| {
        let (first, rest) = split(text);
        first == b"*" && is_label(rest) && asked(rest)
    };
    texts.iter().any(|text| short(text))
}

/// The first label of a text, and what stands behind it.
fn split(text: &[u8]) -> (&[u8], &[u8]) {
    match text.iter().position(|&byte| byte == b'.') {
        Some(dot) => (&text[..dot], &text[dot + 1..]),
        None => (text, b""),
    }
}

/// One label, of digits alone too.
fn is_label(text: &[u8]) -> bool {
    is_domain(&[text, b".b"].concat()) && !text.contains(&b'.')
}

/// The domain that a record's length byte gives it.
fn domain(record: &[u8]) -> &[u8] {
    let field = &record[67..];
    &field[..usize::from(record[3]).min(field.len())]
}

/// The kinds of the records that have one label, where a second one makes all
/// of the records readable; `None` for the others.
fn short_records(case: &Case) -> Vec<Option<u8>> {
    let mut longer = case.references.clone();
    let mut short = Vec::new();
    for record in longer.chunks_exact_mut(RECORD) {
        let one_label = is_label(domain(record));
        short.push(one_label.then_some(record[0]));
        if one_label {
            let end = 67 + usize::from(record[3]);
            record[end..end + 2].copy_from_slice(b".b");
            record[3] += 2;
        }
    }
    if record(&longer, 0).answer != 0 {
        short.clear();
    }
    short
}

#[test]
fn the_two_labels_of_request_1_are_tried() {
    let mut counts = [0; NARROWED.len()];
    for (case, outcome) in cases() {
        for (count, (_, answer, _, is)) in counts.iter_mut().zip(NARROWED) {
            *count += u32::from(outcome.verdict.answer == answer && is(&case));
        }
    }
    for (count, (what, _, least, _)) in counts.into_iter().zip(NARROWED) {
        assert!(count >= least, "{what}: {count} of {CASES}");
    }
}

/// The text with bit 20 (hex) turned back where it makes a byte of a name out of
/// one that no name has.
fn turned_back(text: &[u8]) -> Vec<u8> {
    let back = |&byte: &u8| match byte {
        0x00..=0x1F | 0x60 | 0x7F => byte ^ 0x20,
        _ => byte,
    };
    text.iter().map(back).collect()
}

/// The case with such bytes turned back in the names of its SAN and in its CNs.
fn case_turned_back(case: &Case) -> Case {
    let mut back = case.clone();
    let put = |bytes: &mut [u8], name: Name| {
        let place = name.text_start..name.text_start + name.text.len();
        bytes[place].copy_from_slice(&turned_back(name.text));
    };
    let _read = san::read(&case.san, |name| put(&mut back.san, name));
    let sole = |name: Name| put(&mut back.subject, name);
    let _read = subject::read(&case.subject, |_| (), sole);
    back
}

/// A pair that matches once bytes are turned back: its kind in `MATCHES`, and the
/// bytes in which the name differs from what is asked for, each by its place in
/// its label and by whether it is the last there.
type Differing = (usize, Vec<(usize, bool)>);

/// DNS and the same with a wildcard, SRV, URI, CN and the same with a wildcard.
const MATCHES: usize = 6;

fn differing(case: &Case, back: &Case, outcome: &Outcome) -> Differing {
    let kind = matched(back, outcome);
    let range = outcome.text.start as usize..(outcome.text.start + outcome.text.length) as usize;
    let text = |case: &Case| match kind {
        CN => case.subject[range.clone()].to_vec(),
        _ => case.san[range.clone()].to_vec(),
    };
    let (text, matching) = (text(case), text(back));
    let record = &back.references[outcome.verdict.reference as usize * RECORD..][..RECORD];
    let service = &record[4..4 + usize::from(record[2])];
    let mut asked = name_text(kind, service, domain(record));
    let wildcard = matching.starts_with(b"*");
    if wildcard {
        asked = [b"*.", split(&asked).1].concat();
    }
    let place = |at: usize| {
        let start = asked[..at].iter().rposition(|&byte| byte == b'.');
        let last = asked.get(at + 1).is_none_or(|&byte| byte == b'.');
        (at - start.map_or(0, |dot| dot + 1), last)
    };
    let places = (0..asked.len()).filter(|&at| text.get(at) != asked.get(at));
    let kind = [0, 2, 3, 4][usize::from(kind) - 1] + usize::from(wildcard);
    // What stands around a URI's domain is not asked for.
    match same_text(&asked, &matching[..asked.len().min(matching.len())]) {
        true => (kind, places.map(place).collect()),
        false => (kind, Vec::new()),
    }
}

/// The places in labels that are looked for, and the last.
const PLACES: [usize; 6] = [0, 7, 8, 15, 16, 62];

/// How often pairs differ in bit 20 (hex) of some bytes, or of one byte alone:
/// letters, so that they match, or others, so that they do not.
#[derive(Debug, Default)]
struct Turned {
    some: [[u32; 2]; MATCHES],
    one: [[u32; 2]; MATCHES],
    places: [[u32; 2]; PLACES.len() + 1],
}

impl Turned {
    fn count(&mut self, (kind, places): Differing, answer: usize) {
        self.some[kind][answer] += u32::from(!places.is_empty());
        if let [(at, last)] = places[..] {
            self.one[kind][answer] += 1;
            for (count, place) in self.places.iter_mut().zip(PLACES) {
                count[answer] += u32::from(at == place);
            }
            self.places[PLACES.len()][answer] += u32::from(last && at > 0);
        }
    }
}

#[test]
fn matches_and_mismatches_hang_on_turned_bits() {
    let mut turned = Turned::default();
    for (case, outcome) in cases() {
        let back = case_turned_back(&case);
        let back_outcome = back.judged();
        let mismatch = outcome.verdict.answer == answer::MISMATCH;
        if back_outcome.verdict.answer == answer::MATCH && (mismatch || outcome == back_outcome) {
            let differing = differing(&case, &back, &back_outcome);
            turned.count(differing, outcome.verdict.answer as usize);
        }
    }
    let tried = |counts: &[[u32; 2]], least| counts.iter().flatten().all(|&count| count >= least);
    assert!(tried(&turned.some, 100), "{turned:?}");
    assert!(tried(&turned.one, 50), "{turned:?}");
    assert!(tried(&turned.places, 5), "{turned:?}");
}

/// Whether a name lies in a subtree with its very bytes.
fn lies_in_as_written((service, domain): Pair, subtree: &[u8]) -> bool {
    let (first, rest) = split(subtree);
    match first.strip_prefix(b"_") {
        Some(wanted) => service == wanted && domain.ends_with(rest),
        None => domain.ends_with(subtree),
    }
}

/// The SRVNames of a SAN, with their indexes.
fn srv_names(case: &Case) -> Vec<(usize, &[u8])> {
    let mut names = Vec::new();
    let _read = san::read(&case.san, |name| names.push(name));
    names.retain(|name| name.row.kind == SRV_ROW);
    names
        .iter()
        .map(|name| (name.row.group, name.text))
        .collect()
}

/// Whether one of these SRVNames lies in subtrees of a side, and in none of them
/// with its very bytes.
fn by_letters(case: &Case, side: usize, names: &[(usize, &[u8])]) -> bool {
    let mut subtrees = Vec::new();
    for string in case.constraints.strings() {
        let _read = constraints::read(string, |subtree| subtrees.push(subtree));
    }
    subtrees.retain(|subtree| subtree.row.kind == SRV_ROW && subtree.row.group == side);
    let mut names = names.iter().filter_map(|(_, text)| srv_id(text));
    names.any(|name| {
        let inside = |lies: fn(Pair, &[u8]) -> bool| {
            let mut subtrees = subtrees.iter();
            subtrees.any(|subtree| lies(name, subtree.text))
        };
        inside(lies_in) && !inside(lies_in_as_written)
    })
}

#[test]
fn answer_2_hangs_on_turned_bits() {
    // Kept by a permitted subtree in other letters; broken by an excluded one in
    // other letters; broken as no SRV-ID, for a byte that is turned.
    let (mut kept, mut excluded, mut no_srv_id) = (0, 0, 0);
    for (case, outcome) in cases() {
        let names = srv_names(&case);
        let broken = outcome.verdict.presented as usize;
        match outcome.verdict.answer {
            0..=1 => kept += u32::from(by_letters(&case, PERMITTED, &names)),
            answer::CONSTRAINTS_BROKEN => {
                let broken: Vec<_> = names.into_iter().filter(|name| name.0 == broken).collect();
                excluded += u32::from(by_letters(&case, EXCLUDED, &broken));
                let back = case_turned_back(&case).judged().verdict.answer;
                no_srv_id += u32::from(back <= 1);
            }
            _ => {}
        }
    }
    let counts = [kept, excluded, no_srv_id];
    assert!(counts.iter().all(|&count| count >= 100), "{counts:?}");
}

/// A kind of pair of texts: what it is, how often it must be there, and how it
/// is told.
type Paired = (&'static str, u32, fn(&[u8], &[u8]) -> bool);

const PAIRED: [Paired; 7] = [
    ("the same, not as written", 20_000, |one, other| {
        one != other && same_text(one, other)
    }),
    ("one letter in the other case", 2_000, |one, other| {
        one_bit(one, other) && same_text(one, other)
    }),
    ("one byte that is no letter turned", 10_000, |one, other| {
        one_bit(one, other) && !same_text(one, other)
    }),
    ("a byte more", 2_000, |one, other| {
        one.len() == other.len() + 1 && one.starts_with(other)
    }),
    ("two empty texts", 500, |one, other| {
        one.is_empty() && other.is_empty()
    }),
    ("63 bytes, the same", 500, |one, other| {
        one.len() == 63 && same_text(one, other)
    }),
    ("253 bytes, the same", 500, |one, other| {
        one.len() == 253 && same_text(one, other)
    }),
];

/// Whether two texts differ in bit 20 (hex) of one byte and in nothing else.
fn one_bit(one: &[u8], other: &[u8]) -> bool {
    let mut different = one.iter().zip(other).filter(|(one, other)| one != other);
    let first = different.next();
    let turned = first.is_some_and(|(one, other)| one ^ other == 0x20);
    one.len() == other.len() && turned && different.next().is_none()
}

#[test]
fn pairs_of_texts_are_of_every_kind() {
    let mut counts = [0; PAIRED.len()];
    for (one, other) in (0..CASES).flat_map(|number| pairs(7, number)) {
        for (count, (_, _, is)) in counts.iter_mut().zip(PAIRED) {
            *count += u32::from(is(&one, &other));
        }
    }
    for (count, (what, least, _)) in counts.into_iter().zip(PAIRED) {
        assert!(count >= least, "{what}: {count} of {}", 4 * CASES);
    }
}

#[test]
fn the_same_seed_gives_the_same_jobs() {
    for number in 0..500 {
        assert_eq!(jobs(3, number), jobs(3, number));
        assert_ne!(jobs(3, number), jobs(4, number));
    }
}

/// The answers of each writer, for the buffers that `compare` lends.
#[test]
fn every_answer_of_a_writer_is_frequent() {
    let mut answers = [[0; 25]; 2];
    let mut random = Random::new(7, 0);
    for number in 0..CASES {
        for job in jobs(7, number) {
            for lent in buffers(&mut random, &job) {
                let written = job.writer.write(&mut vec![0; lent], job.lists());
                answers[job.writer as usize][written.answer as usize] += 1;
            }
        }
    }
    for (writer, answers) in Writer::ALL.into_iter().zip(answers) {
        for answer in [0, 21, 22, 23, 24] {
            let count = answers[answer];
            assert!(count >= CASES / 200, "{writer:?}, {answer}: {count}");
        }
    }
}

/// Whether a name or record is refused alone.
fn is_bad(writer: Writer, kind: u8, texts: &[&[u8]]) -> bool {
    let mut alone = Job::new(writer);
    alone.push(kind, texts);
    writer.write(&mut [], alone.lists()).answer == answer::UNFIT
}

/// What a job is.
struct Told<'a> {
    job: &'a Job,
    /// The kinds with their texts, where the lists agree.
    names: Vec<(u8, Vec<&'a [u8]>)>,
    /// The places of those that are refused alone.
    bad: Vec<usize>,
    /// The bytes that the result has where none is bad.
    size: usize,
}

impl<'a> Told<'a> {
    fn new(job: &'a Job) -> Self {
        let each = job.writer.texts_each();
        let texts = job.cut().unwrap_or_default();
        let texts = texts.chunks(each).map(<[&[u8]]>::to_vec);
        let mut names: Vec<_> = job.kinds.iter().copied().zip(texts).collect();
        if job.lengths.len() != each * job.kinds.len() || names.len() != job.kinds.len() {
            names.clear();
        }
        let is_bad = |place: &usize| is_bad(job.writer, names[*place].0, &names[*place].1);
        let bad: Vec<usize> = (0..names.len()).filter(is_bad).collect();
        let size = match job.writer {
            Writer::Records => RECORD * names.len(),
            Writer::San => {
                let name = |(kind, texts): &(u8, Vec<&[u8]>)| general_name(*kind, texts[0]);
                tree_san(names.iter().map(name).collect()).write().len()
            }
        };
        Told {
            job,
            names,
            bad,
            size,
        }
    }

    /// The sum of the lengths less the bytes of the texts.
    fn over(&self) -> i128 {
        let sum: i128 = self.job.lengths.iter().map(|&length| length as i128).sum();
        sum - self.job.texts.len() as i128
    }

    /// How many lengths there are more than the kinds ask for.
    fn lengths_more(&self) -> isize {
        let asked = self.job.kinds.len() * self.job.writer.texts_each();
        self.job.lengths.len() as isize - asked as isize
    }

    /// Whether a text in this place beside its kind passes.
    fn any(&self, place: usize, test: impl Fn(u8, &[u8]) -> bool) -> bool {
        self.names
            .iter()
            .any(|(kind, texts)| test(*kind, texts[place]))
    }
}

/// A kind of job that request 4/13 decides: what it is, how often it must be
/// there for each of the two writers, and how it is told.
type Decided = (&'static str, [u32; 2], fn(&Told) -> bool);

const LISTS: [Decided; 26] = [
    ("no kinds, with texts", [200; 2], |told| {
        told.job.kinds.is_empty() && !told.job.texts.is_empty()
    }),
    ("no kinds and no texts, with lengths", [200; 2], |told| {
        told.job.kinds.is_empty() && told.job.texts.is_empty() && !told.job.lengths.is_empty()
    }),
    ("nothing at all", [200; 2], |told| {
        told.job == &Job::new(told.job.writer)
    }),
    ("a length more", [200; 2], |told| told.lengths_more() == 1),
    ("a length less", [200; 2], |told| told.lengths_more() == -1),
    ("services of no bytes left out", [0, 100], |told| {
        let records = told.job.kinds.iter();
        let zeros = records.filter(|&&kind| kind == DNS || kind == CN).count();
        zeros > 0 && told.lengths_more() == -(zeros as isize) && told.over() == 0
    }),
    ("a byte left over", [200; 2], |told| told.over() == -1),
    ("a byte too few", [200; 2], |told| told.over() == 1),
    ("a sum that comes round", [300; 2], |told| {
        told.lengths_more() == 0 && told.over() == 1 << 64
    }),
    ("2^16 too much", [50; 2], |told| told.over() == 1 << 16),
    ("2^32 too much", [50; 2], |told| told.over() == 1 << 32),
    ("2^63 too much", [50; 2], |told| told.over() == 1 << 63),
    ("a length of 2^64 - 1", [200; 2], |told| {
        told.job.lengths.contains(&usize::MAX)
    }),
    ("kind 0", [100; 2], |told| told.any(0, |kind, _| kind == 0)),
    ("kind 4", [100, 1_000], |told| {
        told.any(0, |kind, _| kind == 4)
    }),
    ("kind 5", [100; 2], |told| told.any(0, |kind, _| kind == 5)),
    ("an empty text", [200, 1_000], |told| {
        told.any(0, |_, text| text.is_empty())
    }),
    ("a byte above 127 in a URI-ID", [300, 0], |told| {
        told.any(0, |kind, text| {
            kind == URI && is_uri_id(text) && !text.is_ascii()
        })
    }),
    ("a byte above 127", [500; 2], |told| {
        told.any(0, |_, text| !text.is_ascii())
    }),
    ("bad for a turned bit alone", [300; 2], |told| {
        told.bad.iter().any(|&place| {
            let (kind, texts) = &told.names[place];
            let texts: Vec<Vec<u8>> = texts.iter().map(|text| turned_back(text)).collect();
            let texts: Vec<&[u8]> = texts.iter().map(Vec::as_slice).collect();
            !is_bad(told.job.writer, *kind, &texts)
        })
    }),
    ("only the first of several bad", [500; 2], |told| {
        told.names.len() > 1 && told.bad == [0]
    }),
    ("only the last of several bad", [500; 2], |told| {
        told.names.len() > 1 && told.bad == [told.names.len() - 1]
    }),
    ("over the limit", [150, 500], |told| {
        told.bad.is_empty() && told.size > told.job.writer.longest()
    }),
    ("over the limit, one of them bad", [50, 200], |told| {
        told.bad.len() == 1 && told.size > told.job.writer.longest()
    }),
    ("at the limit", [50, 500], |told| {
        told.bad.is_empty() && told.size == told.job.writer.longest()
    }),
    ("many, one of them bad", [50; 2], |told| {
        told.names.len() > 16 && told.bad.len() == 1
    }),
];

/// The same of one writer alone.
const SIZES: [Decided; 20] = [
    ("content of 127 bytes", [100, 0], |told| told.size == 129),
    ("content of 128 bytes", [100, 0], |told| told.size == 131),
    ("content of 255 bytes", [100, 0], |told| told.size == 258),
    ("content of 256 bytes", [100, 0], |told| told.size == 260),
    ("SAN of 16,383 bytes", [40, 0], |told| told.size == 16_383),
    ("SAN of 16,385 bytes", [40, 0], |told| told.size == 16_385),
    ("SRVName of 113 or 114", [60, 0], |told| {
        told.any(0, |kind, text| {
            kind == SRV && [113, 114].contains(&text.len())
        })
    }),
    ("SRVName of 125 to 128", [150, 0], |told| {
        told.any(0, |kind, text| {
            kind == SRV && (125..=128).contains(&text.len())
        })
    }),
    ("SRVName of 239 or 240", [60, 0], |told| {
        told.any(0, |kind, text| {
            kind == SRV && [239, 240].contains(&text.len())
        })
    }),
    ("SRVName of 252 to 256", [150, 0], |told| {
        told.any(0, |kind, text| {
            kind == SRV && (252..=256).contains(&text.len())
        })
    }),
    ("SRVName of 317 or 318", [60, 0], |told| {
        told.any(0, |kind, text| {
            kind == SRV && [317, 318].contains(&text.len())
        })
    }),
    ("URI over 1,000 bytes", [300, 0], |told| {
        told.any(0, |kind, text| kind == URI && text.len() > 1_000)
    }),
    ("over 255 good names", [80, 0], |told| {
        told.bad.is_empty() && told.names.len() > 255
    }),
    ("over 255, the last bad", [15, 0], |told| {
        told.names.len() > 255 && told.bad == [told.names.len() - 1]
    }),
    ("17 records, the last bad", [0, 30], |told| {
        told.names.len() == 17 && told.bad == [16]
    }),
    ("service of 62 to 64 bytes", [0, 300], |told| {
        told.any(0, |_, text| (62..=64).contains(&text.len()))
    }),
    ("domain of 252 to 254 bytes", [0, 300], |told| {
        told.any(1, |_, text| (252..=254).contains(&text.len()))
    }),
    ("service of 256 bytes and more", [0, 300], |told| {
        told.any(0, |_, text| text.len() >= 256)
    }),
    ("domain of 256 bytes and more", [0, 300], |told| {
        told.any(1, |_, text| text.len() >= 256)
    }),
    ("over 17 records", [0, 200], |told| {
        told.names.len() > 17 && told.bad.is_empty()
    }),
];

#[test]
fn the_lists_of_request_4_are_tried() {
    let decided: Vec<Decided> = LISTS.into_iter().chain(SIZES).collect();
    let mut counts = vec![[0; 2]; decided.len()];
    for number in 0..CASES {
        for job in jobs(7, number) {
            let told = Told::new(&job);
            for (counts, (_, leasts, is)) in counts.iter_mut().zip(&decided) {
                let writer = job.writer as usize;
                counts[writer] += u32::from(leasts[writer] > 0 && is(&told));
            }
        }
    }
    for (counts, (what, leasts, _)) in counts.into_iter().zip(decided) {
        let enough = counts
            .iter()
            .zip(&leasts)
            .all(|(count, least)| count >= least);
        assert!(enough, "{what}: {counts:?} of {CASES}");
    }
}
