//! Lists that disagree, and two reasons to refuse at once.

use super::{uri_text, Taker, NAMES, RECORDS};
use crate::generate::Job;
use crate::records::kind::{DNS, SRV, URI};
use crate::writer::Writer;

/// Hands over the lines about lists that disagree.
pub fn each(take: Taker) {
    agreeing(take);
    two_faults(take);
}

/// Lists that agree, changed so that they do not, or agree in another way.
fn agreeing(take: Taker) {
    for count in 0..=NAMES.len() {
        disagree(take, &Job::san(NAMES.into_iter().take(count)));
    }
    for count in 0..=RECORDS.len() {
        disagree(take, &Job::records(RECORDS.into_iter().take(count)));
    }
    // Lists of the other writer.
    for (writer, job) in [
        (Writer::Records, Job::san(NAMES)),
        (Writer::Records, Job::san([(DNS, b"a.b".as_slice()); 2])),
        (Writer::San, Job::records(RECORDS)),
        (Writer::San, Job::records([RECORDS[0]; 2])),
    ] {
        disagree(take, &Job { writer, ..job });
    }
}

/// What one length may have too much of and another too little, so that the sum
/// stays or comes round.
const FAR: [usize; 8] = [
    1,
    2,
    256,
    1 << 16,
    1 << 32,
    1 << 63,
    usize::MAX - 1,
    usize::MAX,
];

/// Each list longer and shorter, each length another one.
fn disagree(take: Taker, job: &Job) {
    let what = format!("{} kinds of {:?}", job.kinds.len(), job.writer);
    let mut line = |change: &str, job: Job| take((format!("{what}, {change}"), job));
    line("as they are", job.clone());
    for (change, job) in other_lists(job) {
        line(change, job);
    }
    for place in 0..job.lengths.len() {
        for length in other_lengths(job.lengths[place]) {
            let mut job = job.clone();
            job.lengths[place] = length;
            line(&format!("length {place} is {length}"), job);
        }
        for other in (0..job.lengths.len()).filter(|&other| other != place) {
            for far in FAR {
                let mut job = job.clone();
                job.lengths[place] = job.lengths[place].wrapping_add(far);
                job.lengths[other] = job.lengths[other].wrapping_sub(far);
                line(&format!("{far} from length {other} to {place}"), job);
            }
        }
    }
}

/// A change of a job's lists.
type Change = (&'static str, fn(&mut Job));

/// Each list empty, longer, shorter or doubled, and lengths of 0 less or more.
const CHANGES: [Change; 20] = [
    ("no texts", |job| job.texts.clear()),
    ("no lengths", |job| job.lengths.clear()),
    ("no kinds", |job| job.kinds.clear()),
    ("a byte more", |job| job.texts.push(b'a')),
    ("a byte less", |job| shorten(&mut job.texts)),
    ("256 bytes more", |job| job.texts.extend([b'a'; 256])),
    ("65536 bytes more", |job| job.texts.extend([b'a'; 1 << 16])),
    ("a length more", |job| job.lengths.push(0)),
    ("a length first", |job| job.lengths.insert(0, 0)),
    ("two lengths more", |job| job.lengths.extend([0, 0])),
    ("a length of 1 more", |job| job.lengths.push(1)),
    ("a length less", |job| shorten(&mut job.lengths)),
    ("a kind more", |job| job.kinds.push(1)),
    ("a kind of 0 more", |job| job.kinds.push(0)),
    ("a kind less", |job| shorten(&mut job.kinds)),
    ("lengths doubled", |job| {
        job.lengths.extend(job.lengths.clone())
    }),
    ("kinds doubled", |job| job.kinds.extend(job.kinds.clone())),
    ("texts doubled", |job| job.texts.extend(job.texts.clone())),
    ("no lengths of 0", |job| {
        job.lengths.retain(|&length| length != 0)
    }),
    ("a length of 0 before each", |job| {
        job.lengths = job.lengths.iter().flat_map(|&one| [0, one]).collect()
    }),
];

/// The job with each of these changes.
fn other_lists(job: &Job) -> impl Iterator<Item = (&'static str, Job)> + '_ {
    CHANGES.into_iter().map(|(what, change)| {
        let mut job = job.clone();
        change(&mut job);
        (what, job)
    })
}

fn shorten<T>(list: &mut Vec<T>) {
    list.pop();
}

/// Other lengths: next to this one, and ones that fewer bits take for it.
fn other_lengths(length: usize) -> Vec<usize> {
    let near = [0, length.wrapping_sub(1), length + 1, 2 * length];
    let far = [usize::MAX, usize::MAX - 1, 1 << 63, 1 << 32];
    let round = (3..64).map(|bits| length.wrapping_add(1 << bits));
    near.into_iter().chain(far).chain(round).collect()
}

/// Two reasons to refuse at once, for the order of the answers; the buffers that
/// are lent are a third.
fn two_faults(take: Taker) {
    let long = uri_text(70_000);
    let over: [Vec<(u8, &[u8])>; 3] = [
        vec![(URI, &long)],
        vec![(DNS, b"b"); 6_000],
        vec![(URI, &long[..16_377])],
    ];
    let bad: [(u8, &[u8]); 7] = [
        (DNS, b"-"),
        (DNS, b""),
        (SRV, b"m.b"),
        (URI, b"h://a.b/\xC3\xA9"),
        (URI, b"h:/a.b"),
        (0, b"b"),
        (4, b"b"),
    ];
    for names in over {
        for bad in bad {
            for place in [0, 1, names.len()] {
                let mut names = names.clone();
                names.insert(place, bad);
                take((
                    "over the limit, with a bad text".to_string(),
                    Job::san(names),
                ));
            }
        }
        for (change, job) in other_lists(&Job::san(names.clone())) {
            take((format!("over the limit, {change}"), job));
        }
    }
    for (change, job) in other_lists(&Job::records([RECORDS[0]; 17])) {
        take((format!("17 records, {change}"), job));
    }
}
