//! Jobs for the writers out of a case's own names (request 4/13): what its SAN
//! and its records hold, to be written back.

use super::{Case, Job, Random};
use crate::longest;
use crate::name::kind as row_kind;
use crate::records::kind::{DNS, SRV, URI};
use crate::records::{record, DOMAIN, RECORD, SERVICE};
use crate::san;
use crate::writer::is_name;

/// A job, and the bytes that it writes, where the case has them.
#[derive(Clone, Debug)]
pub struct Rewrite {
    pub job: Job,
    pub back: Option<Vec<u8>>,
}

impl From<Job> for Rewrite {
    /// A job for which the case has no bytes.
    fn from(job: Job) -> Self {
        Rewrite { job, back: None }
    }
}

/// The jobs of one case.
pub fn rewrites(random: &mut Random, case: &Case) -> Vec<Rewrite> {
    let mut rewrites = of_san(random, &case.san);
    rewrites.push(of_records(&case.references));
    rewrites
}

/// "a present, readable SAN within its limit, made only of such names, writes
/// back to the same bytes." Of any other SAN the names that the writer may be
/// asked for, as far as it can be read; and where some of these are none of
/// their kind, also the rest alone, and the rest with one of them.
fn of_san(random: &mut Random, san: &[u8]) -> Vec<Rewrite> {
    let (mut names, mut others) = (Vec::new(), 0);
    let read = san::read(san, |name| match kind(name.row.kind) {
        Some(kind) => names.push((kind, name.text)),
        None => others += 1,
    });
    let places = (0..names.len()).filter(|&place| {
        let (kind, text) = names[place];
        !is_name(kind, text)
    });
    let bad: Vec<usize> = places.collect();
    let such = read.is_some() && san.len() <= longest::SAN && others == 0 && bad.is_empty();
    let mut rewrites = vec![Rewrite {
        job: Job::san(names.iter().copied()),
        back: (such && !san.is_empty()).then(|| san.to_vec()),
    }];
    if !bad.is_empty() && names.len() > 1 {
        let rest_with = |kept: Option<usize>| {
            let kept = |place: &usize| bad.binary_search(place).is_err() || kept == Some(*place);
            let places = (0..names.len()).filter(kept);
            Job::san(places.map(|place| names[place]))
        };
        let one = *random.pick(&bad);
        rewrites.push(rest_with(Some(one)).into());
        rewrites.push(rest_with(None).into());
    }
    rewrites
}

/// The writer's number for the kind of a row.
fn kind(row: usize) -> Option<u8> {
    match row {
        row_kind::DNS => Some(DNS),
        row_kind::SRV => Some(SRV),
        row_kind::URI => Some(URI),
        _ => None,
    }
}

/// Readable records write back to the same bytes. Of any others, what their
/// length bytes say of their fields.
fn of_records(references: &[u8]) -> Rewrite {
    let readable = record(references, 0).answer == 0;
    Rewrite {
        job: Job::records(references.chunks_exact(RECORD).map(parts)),
        back: readable.then(|| references.to_vec()),
    }
}

/// Kind, service and domain of a record; a length that is too long for its field
/// gives all of the field.
fn parts(record: &[u8]) -> (u8, &[u8], &[u8]) {
    let (service, domain) = (&record[SERVICE..DOMAIN], &record[DOMAIN..]);
    (
        record[0],
        &service[..usize::from(record[2]).min(service.len())],
        &domain[..usize::from(record[3]).min(domain.len())],
    )
}
