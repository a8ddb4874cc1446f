//! The writers of request 4/13: their edges, the order of their answers, reading
//! and writing back, and generated lists against a slow reading of the request.

use second::examples::{self, domain_of, S};
use second::generate::buffers::buffers;
use second::generate::lists::jobs;
use second::generate::rewrite::{rewrites, Rewrite};
use second::generate::{self, boundary, Job, Random};
use second::records::kind::{CN, DNS, SRV, URI};
use second::records::{References, RECORD};
use second::text::{self, is_domain, is_scheme};
use second::tree::{self, dns_name, srv_name, uri_name};
use second::{record, san, write_records, write_san, Lists, Writer, Written};

/// What stands in a buffer before.
const OLD: u8 = 0xEE;

/// Answer, length, and the whole buffer after it.
type Result = (u32, usize, Vec<u8>);

fn write(writer: Writer, lent: usize, kinds: &[u8], lengths: &[usize], texts: &[u8]) -> Result {
    let mut buffer = vec![OLD; lent];
    let lists = Lists {
        texts,
        lengths,
        kinds,
    };
    let Written { answer, length } = match writer {
        Writer::San => write_san(&mut buffer, lists),
        Writer::Records => write_records(&mut buffer, lists),
    };
    (answer, length, buffer)
}

fn write_job(job: &Job, lent: usize) -> Result {
    write(job.writer, lent, &job.kinds, &job.lengths, &job.texts)
}

/// "with length 0 and the buffer untouched"
fn refused(answer: u32, lent: usize) -> Result {
    (answer, 0, vec![OLD; lent])
}

/// The result, and behind it what stood there.
fn result(bytes: &[u8], lent: usize) -> Result {
    let mut buffer = bytes.to_vec();
    buffer.resize(lent, OLD);
    (0, bytes.len(), buffer)
}

/// The job is refused so, whatever buffer is lent.
fn refuses(job: &Job, answer: u32) {
    for lent in [0, 1, 5, 320, 5_120, 16_384, 20_000] {
        let got = write_job(job, lent);
        assert_eq!(got, refused(answer, lent), "{job:?}");
    }
}

/// The job writes these bytes into a buffer that is long enough, and only then.
fn writes(job: &Job, bytes: &[u8]) {
    let size = bytes.len();
    for lent in [0, 1, size / 2, size - 1] {
        assert_eq!(write_job(job, lent), refused(24, lent), "{job:?}");
    }
    for lent in [size, size + 1, size + 400] {
        assert_eq!(write_job(job, lent), result(bytes, lent), "{job:?}");
    }
}

fn one(kind: u8, text: &[u8]) -> Job {
    Job::san([(kind, text)])
}

fn one_record(kind: u8, service: &[u8], domain: &[u8]) -> Job {
    Job::records([(kind, service, domain)])
}

/// The length of a SAN of this one name, in a buffer that is exactly so long.
fn length_of(kind: u8, text: &[u8]) -> usize {
    let (answer, length, _) = write_job(&one(kind, text), 16_384);
    assert_eq!(answer, 0);
    assert_eq!(write_job(&one(kind, text), length - 1).0, 24);
    length
}

/// A dNSName, an SRVName and a URI.
const THREE: [u8; 40] = *b"\x30\x26\x82\x03a.b\
    \xA0\x14\x06\x08\x2B\x06\x01\x05\x05\x07\x08\x07\xA0\x08\x16\x06_m.b.c\
    \x86\x09sip://a.b";

#[test]
fn three_names() {
    let kinds = [1, 2, 3];
    let got = |lent| write(Writer::San, lent, &kinds, &[3, 6, 9], b"a.b_m.b.csip://a.b");
    assert_eq!(got(40), (0, 40, THREE.to_vec()));
    assert_eq!(got(44), result(&THREE, 44));
    for lent in [0, 1, 7, 39] {
        assert_eq!(got(lent), refused(24, lent));
    }
}

#[test]
fn one_label() {
    writes(&one(DNS, b"b"), &[0x30, 0x03, 0x82, 0x01, 0x62]);
    writes(
        &one(SRV, b"_m.b"),
        &tree::san(vec![srv_name(b"_m.b")]).write(),
    );
    writes(&one(URI, b"h://b"), b"\x30\x07\x86\x05h://b");
    for (kind, service) in [(DNS, ""), (SRV, "m"), (URI, "m"), (CN, "")] {
        refuses(&one_record(kind, service.as_bytes(), b"b"), 22);
    }
}

#[test]
fn wildcards_and_addresses() {
    for text in [
        b"*.b".as_slice(),
        b"10.4.0.7",
        b"*",
        b"*.",
        b"*.*.b.c",
        b"a.*.c",
    ] {
        refuses(&one(DNS, text), 22);
        refuses(&one_record(DNS, b"", text), 22);
        refuses(&one_record(CN, b"", text), 22);
    }
    writes(&one(DNS, b"*.b.c"), b"\x30\x07\x82\x05*.b.c");
    refuses(&one_record(DNS, b"", b"*.b.c"), 22);
    refuses(&one(SRV, b"_m.*.b.c"), 22);
    refuses(&one(URI, b"h://*.b.c"), 22);
    refuses(&one(SRV, b"_m.10.4.0.7"), 22);
    refuses(&one(URI, b"h://10.4.0.7"), 22);
    writes(&one(DNS, b"a.7b"), b"\x30\x06\x82\x04a.7b");
}

#[test]
fn no_kinds_are_the_empty_list() {
    let lists: [(&[usize], &[u8]); 5] = [
        (&[3], b"a.b"),
        (&[], b""),
        (&[], b"a.b"),
        (&[0, 0, usize::MAX], b"-"),
        (&[4], b"a.b"),
    ];
    for (lengths, texts) in lists {
        for writer in Writer::ALL {
            for lent in [0, 12, 400] {
                assert_eq!(write(writer, lent, &[], lengths, texts), refused(21, lent));
            }
        }
    }
}

#[test]
fn lists_that_disagree() {
    let max = usize::MAX;
    let sans: [(&[u8], &[usize], &[u8]); 12] = [
        (&[1], &[3, 0], b"a.b"),
        (&[1], &[0, 3], b"a.b"),
        (&[1], &[2], b"a.b"),
        (&[1], &[4], b"a.b"),
        (&[1], &[], b"a.b"),
        (&[1], &[3], b""),
        (&[1, 1], &[3], b"a.b"),
        (&[1, 1], &[max, 4], b"a.b"),
        (&[1, 1], &[4, max], b"a.b"),
        (&[1], &[3 + (1 << 32)], b"a.b"),
        (&[1, 1, 1], &[1 << 63, 1 << 63, 3], b"a.b"),
        (&[1, 1], &[3, 1], b"a.b"),
    ];
    let records: [(&[u8], &[usize], &[u8]); 12] = [
        (&[1], &[3], b"a.b"),
        (&[1], &[0, 3, 0], b"a.b"),
        (&[1], &[0, 2], b"a.b"),
        (&[1], &[0, 4], b"a.b"),
        (&[1], &[max, 4], b"a.b"),
        (&[1], &[0, 3 + (1 << 16)], b"a.b"),
        (&[1], &[0, 3, 0, 3], b"a.ba.b"),
        (&[1, 1], &[0, 3], b"a.b"),
        (&[1, 1], &[0, 3, 0], b"a.b"),
        (&[1, 2], &[0, 3, 3], b"a.bsip"),
        (&[1], &[], b""),
        (&[2], &[3, 3], b"sipa.bx"),
    ];
    for (writer, lists) in Writer::ALL.into_iter().zip([sans, records]) {
        for (kinds, lengths, texts) in lists {
            for lent in [0, 12, 700] {
                let got = write(writer, lent, kinds, lengths, texts);
                assert_eq!(got, refused(22, lent), "{kinds:?} {lengths:?}");
            }
        }
    }
}

#[test]
fn other_kinds() {
    for kind in (0..=255).filter(|kind| ![DNS, SRV, URI].contains(kind)) {
        refuses(&one(kind, b"a.b"), 22);
        refuses(&Job::san([(DNS, b"a.b".as_slice()), (kind, b"a.b")]), 22);
    }
    for kind in (0..=255).filter(|kind| ![DNS, SRV, URI, CN].contains(kind)) {
        refuses(&one_record(kind, b"", b"a.b"), 22);
        refuses(&one_record(kind, b"m", b"a.b"), 22);
    }
}

#[test]
fn empty_texts() {
    for kind in [DNS, SRV, URI] {
        refuses(&one(kind, b""), 22);
    }
    refuses(&one_record(DNS, b"", b""), 22);
    refuses(&one_record(SRV, b"", b"a.b"), 22);
    refuses(&one_record(URI, b"", b"a.b"), 22);
    refuses(&one_record(SRV, b"m", b""), 22);
}

/// "or has a byte above 127": the URI-IDs among these are such texts still.
#[test]
fn bytes_above_127() {
    for text in [
        b"sip://a.b/\xC3\xA9".as_slice(),
        b"sip://\xFF@a.b",
        b"sip://a.b?\x80",
        b"sip://a.b#\x80x",
    ] {
        assert!(text::is_uri_id(text));
        refuses(&one(URI, text), 22);
        refuses(&Job::san([(DNS, b"b".as_slice()), (URI, text)]), 22);
        let below: Vec<u8> = text.iter().map(|byte| byte & 0x7F).collect();
        assert_eq!(write_job(&one(URI, &below), 100).0, 0);
    }
    writes(
        &one(URI, b"h://\x7F\0@b/\0"),
        b"\x30\x0C\x86\x0Ah://\x7F\0@b/\0",
    );
    refuses(&one(DNS, b"a.b\xC3\xA9"), 22);
    refuses(&one(SRV, b"_m.b\xE9"), 22);
    refuses(&one_record(SRV, b"m\x80", b"a.b"), 22);
}

/// A text of one kind is none of another.
#[test]
fn kinds_and_texts() {
    let texts: [(u8, &[u8]); 3] = [(DNS, b"a.b"), (SRV, b"_m.b.c"), (URI, b"sip://a.b")];
    for (own, text) in texts {
        for kind in [DNS, SRV, URI] {
            let (answer, ..) = write_job(&one(kind, text), 100);
            assert_eq!(answer, if kind == own { 0 } else { 22 }, "{kind} {text:?}");
        }
    }
}

/// An SRVName of this many bytes.
fn srv_text(length: usize) -> Vec<u8> {
    let service = length.saturating_sub(255).max(1);
    let domain = domain_of(length - 2 - service);
    [b"_", vec![b's'; service].as_slice(), b".", &domain].concat()
}

/// The lengths at which one of the four elements of an SRVName turns long.
#[test]
fn lengths_of_srv_names() {
    let lengths = [
        (113, 132),
        (114, 134),
        (125, 145),
        (126, 147),
        (127, 148),
        (128, 150),
    ];
    for (text, san) in lengths.into_iter().chain([(317, 343)]) {
        assert_eq!(length_of(SRV, &srv_text(text)), san, "{text}");
    }
    for length in 4..=317 {
        let text = srv_text(length);
        writes(&one(SRV, &text), &tree::san(vec![srv_name(&text)]).write());
    }
    refuses(
        &one(SRV, &[b"_s".as_slice(), &srv_text(317)[1..]].concat()),
        22,
    );
}

fn uri_text(length: usize) -> Vec<u8> {
    let mut text = b"h://a.b/".to_vec();
    text.resize(length, b'p');
    text
}

#[test]
fn lengths_of_other_names() {
    for length in 1..=253 {
        let text = domain_of(length);
        writes(&one(DNS, &text), &tree::san(vec![dns_name(&text)]).write());
    }
    refuses(&one(DNS, &domain_of(254)), 22);
    for length in 9..=300 {
        let text = uri_text(length);
        writes(&one(URI, &text), &tree::san(vec![uri_name(&text)]).write());
    }
}

#[test]
fn the_limit_of_a_san() {
    assert_eq!(length_of(URI, &uri_text(16_376)), 16_384);
    for length in [16_377, 16_378, 65_535, 65_536, 70_000] {
        refuses(&one(URI, &uri_text(length)), 23);
    }
    let names = |count| Job::san(vec![(DNS, b"b".as_slice()); count]);
    assert_eq!(write_job(&names(5_460), 16_384).1, 16_384);
    refuses(&names(5_461), 23);
    refuses(&names(30_000), 23);
}

/// "judge to the end": a text behind the limit is judged too.
#[test]
fn a_bad_text_behind_the_limit() {
    let long = uri_text(70_000);
    refuses(&Job::san([(URI, long.as_slice()), (DNS, b"-")]), 22);
    refuses(&Job::san([(DNS, b"-".as_slice()), (URI, &long)]), 22);
    let mut names = vec![(DNS, b"b".as_slice()); 6_000];
    names.push((4, b"b"));
    refuses(&Job::san(names.clone()), 22);
    names.push((DNS, b""));
    refuses(&Job::san(names), 22);
}

#[test]
fn records_of_every_kind() {
    let cases: [(u8, &[u8], &[u8]); 4] = [
        (DNS, b"", b"a.b"),
        (SRV, b"SiP", b"A.b"),
        (URI, b"h+X.9-", b"4.Example"),
        (CN, b"", b"a.7b"),
    ];
    for (kind, service, domain) in cases {
        let bytes = tree::record(kind, service, domain);
        writes(&one_record(kind, service, domain), &bytes);
    }
    let all: Vec<u8> = cases
        .iter()
        .flat_map(|(kind, service, domain)| tree::record(*kind, service, domain))
        .collect();
    writes(&Job::records(cases), &all);
}

#[test]
fn numbers_of_records() {
    let records = |count| Job::records(vec![(DNS, b"".as_slice(), b"a.b".as_slice()); count]);
    let bytes = tree::record(DNS, b"", b"a.b");
    for count in 1..=16 {
        writes(&records(count), &bytes.repeat(count));
    }
    for count in [17, 18, 32, 205, 256, 257] {
        refuses(&records(count), 23);
        for place in [0, 15, 16, count - 1] {
            let mut job = vec![(DNS, b"".as_slice(), b"a.b".as_slice()); count];
            job[place] = (DNS, b"", b"b");
            refuses(&Job::records(job), 22);
        }
    }
}

#[test]
fn fields_of_records() {
    let (scheme, service) = ([b's'; 63], [b's'; 62]);
    refuses(&one_record(SRV, &scheme, b"a.b"), 22);
    for (kind, service) in [(URI, &scheme[..]), (SRV, &service)] {
        let bytes = tree::record(kind, service, b"a.b");
        writes(&one_record(kind, service, b"a.b"), &bytes);
    }
    for length in [64, 65, 255, 256, 257, 259, 319, 65_539] {
        for kind in [DNS, SRV, URI, CN] {
            refuses(&one_record(kind, &vec![b's'; length], b"a.b"), 22);
        }
    }
    let longest = domain_of(253);
    let bytes = tree::record(DNS, b"", &longest);
    writes(&one_record(DNS, b"", &longest), &bytes);
    for length in [254, 255, 256, 257, 259, 320, 509, 65_539] {
        refuses(&one_record(DNS, b"", &domain_of(length)), 22);
    }
    for kind in [DNS, CN] {
        refuses(&one_record(kind, b"m", b"a.b"), 22);
    }
}

#[test]
fn short_buffers() {
    let job = one(DNS, b"a.b");
    assert_eq!(write_job(&job, 6), refused(24, 6));
    assert_eq!(write_job(&job, 7), (0, 7, S.to_vec()));
    let record = one_record(DNS, b"", b"a.b");
    assert_eq!(write_job(&record, 319), refused(24, 319));
    assert_eq!(write_job(&record, 0), refused(24, 0));
    assert_eq!(write_job(&record, 320).0, 0);
}

#[test]
fn case_is_kept() {
    let job = Job::san([
        (DNS, b"A.b".as_slice()),
        (SRV, b"_M.b.C"),
        (URI, b"SiP://U@a.B/P"),
    ]);
    let names = vec![
        dns_name(b"A.b"),
        srv_name(b"_M.b.C"),
        uri_name(b"SiP://U@a.B/P"),
    ];
    writes(&job, &tree::san(names).write());
    let bytes = tree::record(SRV, b"SiP", b"A.b");
    writes(&one_record(SRV, b"SiP", b"A.b"), &bytes);
}

/// Every set of reasons to refuse at once has the answer of the first of them.
#[test]
fn the_order_of_the_answers() {
    let long = uri_text(20_000);
    for reasons in 0..16_usize {
        let [empty, unfit, over, short] = [1, 2, 4, 8].map(|bit| reasons & bit != 0);
        let text = if over { long.as_slice() } else { b"h://a.b" };
        let mut san = Job::san([(DNS, b"a.b".as_slice()), (URI, text)]);
        let count = if over { 17 } else { 2 };
        let mut records = Job::records(vec![(DNS, b"".as_slice(), b"a.b".as_slice()); count]);
        for job in [&mut san, &mut records] {
            if unfit {
                job.texts.push(b'-');
            }
            if empty {
                job.kinds.clear();
            }
            let first = reasons & reasons.wrapping_neg();
            let answer = [0, 21, 22, 0, 23, 0, 0, 0, 24][first];
            let lent = if short { 15 } else { 30_000 };
            let (got, length, buffer) = write_job(job, lent);
            assert_eq!(got, answer, "{reasons:04b}");
            if answer != 0 {
                assert_eq!((got, length, buffer), refused(answer, lent));
            }
        }
    }
}

/// Answer and result of a job, as slow and literal as the request.
fn literal(job: &Job, lent: usize) -> Result {
    let answer = literal_answer(job);
    match answer {
        0 => {}
        _ => return refused(answer, lent),
    }
    let bytes = bytes_of(job);
    let limit = [16_384, 5_120][job.writer as usize];
    if bytes.len() > limit {
        return refused(23, lent);
    }
    if lent < bytes.len() {
        return refused(24, lent);
    }
    result(&bytes, lent)
}

/// 21, 22 or 0. The lengths are summed up in more bits than their sum needs.
fn literal_answer(job: &Job) -> u32 {
    if job.kinds.is_empty() {
        return 21;
    }
    let sum: u128 = job.lengths.iter().map(|&length| length as u128).sum();
    let each = [1, 2][job.writer as usize];
    if job.lengths.len() != each * job.kinds.len() || sum != job.texts.len() as u128 {
        return 22;
    }
    let texts = texts_of(job);
    let mut names = job.kinds.iter().zip(texts.chunks(each));
    match names.all(|(&kind, texts)| is_name(kind, texts)) {
        true => 0,
        false => 22,
    }
}

/// The texts of lists that agree.
fn texts_of(job: &Job) -> Vec<&[u8]> {
    let ends = job.lengths.iter().scan(0, |end, length| {
        *end += length;
        Some(*end)
    });
    let ends: Vec<usize> = ends.collect();
    let text = |(end, length): (&usize, &usize)| &job.texts[end - length..*end];
    ends.iter().zip(&job.lengths).map(text).collect()
}

/// Whether one text is a name of a SAN, or two are a record.
fn is_name(kind: u8, texts: &[&[u8]]) -> bool {
    let below = texts.iter().all(|text| text.iter().all(|&byte| byte < 128));
    let fits = match (kind, texts) {
        (DNS, [text]) => is_dns_id(text),
        (SRV, [text]) => is_srv_id(text),
        (URI, [text]) => is_uri_id(text),
        (_, [service, domain]) => {
            let hold = service.len() <= 63 && domain.len() <= 253;
            hold && record(&tree::record(kind, service, domain), 0).answer == 0
        }
        _ => false,
    };
    below && fits
}

/// Every text that stands behind these bytes.
fn behind<'a>(text: &'a [u8], mark: &'a [u8]) -> impl Iterator<Item = (&'a [u8], &'a [u8])> {
    let places = (0..text.len()).filter(move |&place| text[place..].starts_with(mark));
    places.map(move |place| (&text[..place], &text[place + mark.len()..]))
}

fn is_dns_id(text: &[u8]) -> bool {
    let two_labels = |rest: &[u8]| is_domain(rest) && rest.split(|&byte| byte == b'.').count() > 1;
    is_domain(text)
        || behind(text, b"*.").any(|(before, rest)| before.is_empty() && two_labels(rest))
            && text.len() < 254
}

/// Any dot may be the one behind the service.
fn is_srv_id(text: &[u8]) -> bool {
    behind(text, b"_").any(|(before, rest)| {
        let mut dots = behind(rest, b".");
        before.is_empty()
            && dots.any(|(service, domain)| text::is_service(service) && is_domain(domain))
    })
}

/// Any mark of a URI may be the one that counts, where what stands before it may
/// stand there.
fn is_uri_id(text: &[u8]) -> bool {
    behind(text, b"://").any(|(scheme, rest)| {
        let authority = rest.split(|byte| b"/?#".contains(byte)).next();
        is_scheme(scheme) && authority.is_some_and(is_authority)
    })
}

fn is_authority(text: &[u8]) -> bool {
    let mut users = behind(text, b"@");
    is_host(text) || users.any(|(user, host)| !user.contains(&b'@') && is_host(host))
}

fn is_host(text: &[u8]) -> bool {
    let mut ports = behind(text, b":");
    is_domain(text)
        || ports.any(|(domain, port)| is_domain(domain) && port.iter().all(u8::is_ascii_digit))
}

/// What a list is written as, through the trees of the tests.
fn bytes_of(job: &Job) -> Vec<u8> {
    let texts = texts_of(job);
    if job.writer == Writer::Records {
        let records = job.kinds.iter().zip(texts.chunks(2));
        return records
            .flat_map(|(&kind, texts)| tree::record(kind, texts[0], texts[1]))
            .collect();
    }
    let names = job.kinds.iter().zip(texts);
    let names = names.map(|(&kind, text)| tree::general_name(kind, text));
    tree::san(names.collect()).write()
}

/// Holds a job to the literal reading, with the buffers that `compare` lends.
fn holds(job: &Job, random: &mut Random) {
    for lent in buffers(random, job) {
        let (ours, wanted) = (write_job(job, lent), literal(job, lent));
        assert!(ours == wanted, "{lent} bytes lent: {job:02X?}");
    }
}

#[test]
fn generated_lists() {
    let mut random = Random::new(41, 0);
    for number in 0..40_000 {
        for job in jobs(41, number) {
            holds(&job, &mut random);
        }
    }
}

#[test]
fn boundary_table() {
    let mut random = Random::new(42, 0);
    boundary::writers::each(&mut |(_, job)| holds(&job, &mut random));
}

/// Every text of up to seven bytes, behind a scheme, over the bytes that decide.
#[test]
fn small_uris() {
    let mut texts = vec![b"a:".to_vec()];
    for _ in 0..7 {
        let longer = texts.iter().flat_map(|text| {
            let text = text.as_slice();
            b"a7./:@".iter().map(move |&byte| [text, &[byte]].concat())
        });
        let longer: Vec<Vec<u8>> = longer.collect();
        for text in &longer {
            assert_eq!(text::is_uri_id(text), is_uri_id(text), "{text:?}");
        }
        texts = longer;
    }
}

#[test]
fn small_dns_ids() {
    let mut texts = vec![Vec::new()];
    for _ in 0..6 {
        let longer = texts.iter().flat_map(|text: &Vec<u8>| {
            let text = text.as_slice();
            b"a7.*-".iter().map(move |&byte| [text, &[byte]].concat())
        });
        let longer: Vec<Vec<u8>> = longer.collect();
        for text in &longer {
            assert_eq!(text::is_dns_id(text), is_dns_id(text), "{text:?}");
        }
        texts = longer;
    }
}

/// What a job writes where it is answered with 0.
fn written(job: &Job) -> Option<Vec<u8>> {
    let mut buffer = vec![OLD; job.writer.longest()];
    let Written { answer, length } = job.writer.write(&mut buffer, job.lists());
    buffer.truncate(length);
    (answer == 0).then_some(buffer)
}

/// "What is written reads back as that list".
fn reads_back(job: &Job) {
    let Some(bytes) = written(job) else {
        return;
    };
    let mut read = Job::new(job.writer);
    match job.writer {
        Writer::San => {
            let readable = san::read(&bytes, |name| {
                let kind = [(2, DNS), (9, SRV), (6, URI)];
                let kind = kind.iter().find(|(row, _)| *row == name.row.kind);
                read.push(kind.map_or(0, |(_, kind)| *kind), &[name.text]);
            });
            assert!(readable.is_some() && bytes.len() <= 16_384);
        }
        Writer::Records => {
            let records = References::read(&bytes);
            for one in records.iter().flat_map(References::as_slice) {
                read.push(one.kind, &[one.service, one.domain]);
            }
            assert_eq!(bytes.len(), RECORD * job.kinds.len());
        }
    }
    assert_eq!(&read, job);
}

/// "a present, readable SAN within its limit, made only of such names, writes
/// back to the same bytes", and so do readable records.
fn writes_back(Rewrite { job, back }: &Rewrite) {
    if let Some(back) = back {
        assert_eq!(written(job).as_ref(), Some(back));
    }
    reads_back(job);
}

#[test]
fn reading_and_writing_back() {
    let mut random = Random::new(43, 0);
    let mut back = 0;
    let mut take = |case: &generate::Case| {
        for rewrite in rewrites(&mut random, case) {
            writes_back(&rewrite);
            back += u32::from(rewrite.back.is_some());
        }
    };
    for example in examples::table() {
        take(&example.case);
    }
    boundary::each(&mut |(_, case)| take(&case));
    for number in 0..20_000 {
        take(&generate::case(43, number));
    }
    assert!(back > 100_000, "{back}");
    boundary::writers::each(&mut |(_, job)| reads_back(&job));
    for number in 0..20_000 {
        jobs(43, number).iter().for_each(reads_back);
    }
}
