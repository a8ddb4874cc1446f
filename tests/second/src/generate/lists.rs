//! Jobs for the writers (request 4/13): lists of every size that decides, good
//! ones, and ones with a fault or two.

use super::flips::flipped;
use super::words::{near_miss, Pool};
use super::{Job, Random};
use crate::examples::domain_of;
use crate::longest;
use crate::records::kind::{CN, DNS, SRV, URI};
use crate::text::{has_two_labels, is_dns_id, is_domain, is_scheme, is_service, is_uri_id, srv_id};
use crate::tree::{content_of, general_name};
use crate::writer::Writer;

/// A name that can still be changed: its kind, and its text or its two texts.
#[derive(Clone)]
struct Name {
    kind: u8,
    texts: Vec<Vec<u8>>,
}

impl Name {
    /// How many bytes the name has in a SAN.
    fn size(&self) -> usize {
        general_name(self.kind, &self.texts[0]).write().len()
    }
}

/// Keeps the streams of jobs apart from those of cases.
const JOBS: u64 = 0x4A6F_6273;

/// The jobs of this number under this seed, one for each writer; no other job
/// has a part in them.
pub fn jobs(seed: u64, number: u64) -> [Job; 2] {
    let mut random = Random::new(seed ^ JOBS, number);
    let pool = Pool::new(&mut random);
    Writer::ALL.map(|writer| job(&mut random, &pool, writer))
}

/// In three of eight jobs a fault, in one of eight two.
fn job(random: &mut Random, pool: &Pool, writer: Writer) -> Job {
    let mut names = match writer {
        Writer::San => san_names(random, pool),
        Writer::Records => records(random, pool),
    };
    let faults = *random.pick(&[0, 0, 0, 0, 1, 1, 1, 2]);
    let of_names = random.place(faults);
    for _ in 0..of_names {
        spoil_name(random, pool, &mut names);
    }
    let mut job = Job::new(writer);
    for name in names {
        let texts: Vec<&[u8]> = name.texts.iter().map(Vec::as_slice).collect();
        job.push(name.kind, &texts);
    }
    for _ in of_names..faults {
        spoil_lists(random, &mut job);
    }
    job
}

/// Names of a SAN: mostly a few; or with one whose length turns a length of its
/// element long; or with a whole next to such a length or next to the limit; or
/// many; or with a URI of any length.
fn san_names(random: &mut Random, pool: &Pool) -> Vec<Name> {
    let mut names = few(random, pool);
    match random.below(40) {
        0 => {
            let total = longest::SAN - 3 + random.below(6);
            fill_up(random, &mut names, content_of(total));
        }
        1 => names = many(random),
        2 => {
            let length = random.spread(70_000).max(SHORTEST_URI);
            insert_sized(random, &mut names, URI, length);
        }
        3..=8 => {
            let content = *random.pick(&[126, 127, 128, 129, 254, 255, 256, 257]);
            fill_up(random, &mut names, content);
        }
        9..=16 => {
            let kind = kind(random);
            let length = *random.pick(turns(kind));
            insert_sized(random, &mut names, kind, length);
        }
        _ => {}
    }
    names
}

fn kind(random: &mut Random) -> u8 {
    *random.pick(&[DNS, SRV, URI])
}

/// Puts a name whose text has this many bytes at any place.
fn insert_sized(random: &mut Random, names: &mut Vec<Name>, kind: u8, length: usize) {
    let name = sized(random, kind, length);
    names.insert(random.place(names.len()), name);
}

/// One to six names.
fn few(random: &mut Random, pool: &Pool) -> Vec<Name> {
    let count = *random.pick(&[1, 1, 2, 2, 3, 3, 4, 5, 6]);
    (0..count).map(|_| good_name(random, pool)).collect()
}

fn good_name(random: &mut Random, pool: &Pool) -> Name {
    let kind = kind(random);
    let text = match kind {
        DNS => or(is_dns_id, b"b", pool.dns_id(random)),
        SRV => or(|text| srv_id(text).is_some(), b"_m.b", pool.srv_id(random)),
        _ => or(is_uri_id, b"h://b", pool.uri_id(random)),
    };
    Name {
        kind,
        texts: vec![text],
    }
}

/// The text if it passes the test, or else the other one.
fn or(test: fn(&[u8]) -> bool, other: &[u8], text: Vec<u8>) -> Vec<u8> {
    match test(&text) {
        true => text,
        false => other.to_vec(),
    }
}

/// Up to 5,600 short names, small numbers as often as large ones; as many as the
/// limit lets in are 5,460 of three bytes each.
fn many(random: &mut Random) -> Vec<Name> {
    const NAMES: [(u8, &[u8]); 4] = [(DNS, b"b"), (DNS, b"a.b"), (SRV, b"_m.b"), (URI, b"h://b")];
    let count = 1 + random.spread(5_600);
    let mixed = random.below(NAMES.len());
    let one = |(kind, text): (u8, &[u8])| Name {
        kind,
        texts: vec![text.to_vec()],
    };
    (0..count)
        .map(|_| one(NAMES[random.place(mixed)]))
        .collect()
}

/// Lengths of texts at which a length of their element turns long, or which
/// their form ends at.
fn turns(kind: u8) -> &'static [usize] {
    match kind {
        DNS => &[1, 126, 127, 128, 129, 252, 253, 254, 255],
        SRV => &[
            4, 112, 113, 114, 115, 124, 125, 126, 127, 128, 129, 238, 239, 240, 241, 251, 252, 253,
            254, 255, 256, 316, 317, 318,
        ],
        _ => &[9, 126, 127, 128, 129, 254, 255, 256, 257],
    }
}

const SHORTEST_URI: usize = 9;

/// A name whose text has this many bytes.
fn sized(random: &mut Random, kind: u8, length: usize) -> Name {
    let text = match kind {
        DNS if length > 50 && random.one_in(3) => {
            [b"*.", domain_of(length - 2).as_slice()].concat()
        }
        DNS => domain_of(length),
        SRV => {
            // Service and domain share what "_" and "." leave.
            let least = length.saturating_sub(255).clamp(1, 62);
            let service = random.between(least, (length - 3).min(62));
            let domain = domain_of(length - 2 - service);
            [b"_", vec![b's'; service].as_slice(), b".", &domain].concat()
        }
        _ => long_uri(random, length),
    };
    Name {
        kind,
        texts: vec![text],
    }
}

/// A URI of this many bytes, all but nine of them in one part.
fn long_uri(random: &mut Random, length: usize) -> Vec<u8> {
    const PARTS: [(&[u8], u8, &[u8]); 5] = [
        (b"h://", b'u', b"@a.b"),
        (b"h://a.b:", b'7', b""),
        (b"h://a.b/", b'x', b""),
        (b"h://a.b?", b'@', b""),
        (b"h://a.b#", b'/', b""),
    ];
    let (before, byte, behind) = *random.pick(&PARTS);
    let run = length - before.len() - behind.len();
    [before, vec![byte; run].as_slice(), behind].concat()
}

/// Takes names off the end, as far as needed, and puts a URI in, so that all of
/// them together have this many bytes in a SAN.
fn fill_up(random: &mut Random, names: &mut Vec<Name>, content: usize) {
    let mut size: usize = names.iter().map(Name::size).sum();
    // No element has 130 or 259 bytes, and a URI needs eleven.
    while size + 11 > content || [130, 259].contains(&(content - size)) {
        size -= names.pop().map_or(size, |name| name.size());
    }
    insert_sized(random, names, URI, content_of(content - size));
}

/// Records: mostly a few, or 16, 17 or many; in one of eight lists with a text
/// about as long as its field, or longer.
fn records(random: &mut Random, pool: &Pool) -> Vec<Name> {
    let count = match random.below(60) {
        0 => random.between(18, 300),
        1..=3 => 17,
        4..=8 => 16,
        9..=16 => random.between(5, 15),
        17..=40 => random.between(2, 4),
        _ => 1,
    };
    let mut records: Vec<Name> = (0..count).map(|_| good_record(random, pool)).collect();
    if random.one_in(8) {
        let place = random.below(count);
        widen(random, &mut records[place]);
    }
    records
}

fn good_record(random: &mut Random, pool: &Pool) -> Name {
    let kind = *random.pick(&[DNS, SRV, URI, CN]);
    let service = match kind {
        SRV => or(is_service, b"m", pool.service(random)),
        URI => or(is_scheme, b"m", pool.scheme(random)),
        _ => Vec::new(),
    };
    let asked = |text: &[u8]| is_domain(text) && has_two_labels(text);
    let domain = or(asked, b"a.b", pool.asked(random));
    Name {
        kind,
        texts: vec![service, domain],
    }
}

/// A service or a domain about as long as its field, or so much longer that a
/// byte for its length would come round.
fn widen(random: &mut Random, record: &mut Name) {
    let [service, domain] = record.texts.as_mut_slice() else {
        return;
    };
    match random.below(4) {
        0 => *service = vec![b's'; random.between(61, 65)],
        1 => *domain = domain_of(random.between(251, 257)),
        2 => service.extend([b's'; 256]),
        _ => domain.extend(domain_of(256)),
    }
}

/// Spoils one name: the first, the last or any.
fn spoil_name(random: &mut Random, pool: &Pool, names: &mut [Name]) {
    let last = names.len() - 1;
    let any = random.below(names.len());
    let name = &mut names[*random.pick(&[0, any, last, last])];
    let text = random.below(name.texts.len());
    match random.below(10) {
        0 => name.kind = *random.pick(&[0, 4, 5, 6, 128, 129, 255]),
        1 => name.kind = *random.pick(&[DNS, SRV, URI, CN]),
        2 if random.one_in(3) => name.texts.iter_mut().for_each(Vec::clear),
        2 => name.texts[text].clear(),
        3..=4 => past_ascii(random, name),
        5 => name.texts[text] = crooked(random, pool, name.kind),
        6..=7 => name.texts[text] = flipped(random, name.texts[text].clone()),
        _ if name.texts[text].is_empty() => name.texts[text].push(b'm'),
        _ => name.texts[text] = near_miss(random, name.texts[text].clone()),
    }
}

/// A byte above 127, in a URI in a place where a URI-ID may have any byte.
fn past_ascii(random: &mut Random, name: &mut Name) {
    let byte = *random.pick(&[0x80, 0xC3, 0xE9, 0xFF]);
    let text = random.below(name.texts.len());
    let text = &mut name.texts[text];
    match (name.kind, random.below(3)) {
        (URI, 0) => *text = [b"h://", [byte].as_slice(), b"@a.b"].concat(),
        (URI, 1) => text.extend([b'/', byte]),
        _ => text.insert(random.place(text.len()), byte),
    }
}

/// A text of another shape.
fn crooked(random: &mut Random, pool: &Pool, kind: u8) -> Vec<u8> {
    match kind {
        SRV => pool.crooked_srv(random),
        URI => pool.crooked_uri(random),
        _ => [b"*.", pool.domain(random).as_slice()].concat(),
    }
}

/// Spoils the lists: they disagree, or are empty.
fn spoil_lists(random: &mut Random, job: &mut Job) {
    match random.below(18) {
        0 => job.kinds.clear(),
        1 => *job = Job::new(job.writer),
        2 => {
            job.kinds.clear();
            job.texts.clear();
        }
        3 => job.lengths.insert(random.place(job.lengths.len()), 0),
        4 => drop(job.lengths.pop()),
        5 => job.lengths.retain(|&length| length != 0),
        6 => job.kinds.push(*random.pick(&[DNS, SRV, URI])),
        7 => drop(job.kinds.pop()),
        8 => job.texts.push(*random.pick(b"a.b")),
        9 => drop(job.texts.pop()),
        _ => spoil_lengths(random, &mut job.lengths),
    }
}

/// Lengths whose sum is another one, or is the same one only where it comes
/// round or where each text is not looked at.
fn spoil_lengths(random: &mut Random, lengths: &mut [usize]) {
    if lengths.is_empty() {
        return;
    }
    let one = random.below(lengths.len());
    let other = random.below(lengths.len());
    match random.below(8) {
        0 => lengths[one] = lengths[one].wrapping_add(1),
        1 => lengths[one] = lengths[one].wrapping_sub(1),
        2 => lengths[one] = *random.pick(&[usize::MAX, 1 << 63, 1 << 32]),
        3 => lengths[one] = lengths[one].wrapping_add(1 << random.pick(&[8, 16, 31, 32, 63])),
        4..=5 if one != other => {
            // The sum comes round to what it was.
            let far = usize::MAX - random.below(3);
            lengths[other] = lengths[other].wrapping_add(lengths[one]).wrapping_sub(far);
            lengths[one] = far;
        }
        _ if one != other && lengths[one] > 0 => {
            lengths[one] -= 1;
            lengths[other] = lengths[other].wrapping_add(1);
        }
        _ => lengths[one] ^= 1,
    }
}
