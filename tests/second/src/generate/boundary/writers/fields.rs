//! Records: how many there are, and how long their texts.

use super::{mixed, Taker, RECORDS};
use crate::examples::domain_of;
use crate::generate::Job;
use crate::records::kind::{CN, DNS, SRV, URI};
use crate::records::MOST_RECORDS;

/// Hands over the lines about records.
pub fn each(take: Taker) {
    record_counts(take);
    record_fields(take);
}

/// 1 to 20 records, and more, all good, and with a bad one at each place or at
/// some. 205 and 410 records are few in 16 bits.
fn record_counts(take: Taker) {
    const MORE: [usize; 13] = [31, 32, 33, 63, 64, 204, 205, 206, 255, 256, 257, 272, 410];
    let bad: [(u8, &[u8], &[u8]); 5] = [
        (DNS, b"", b"b"),
        (DNS, b"m", b"a.b"),
        (SRV, b"", b"a.b"),
        (5, b"", b"a.b"),
        (CN, b"", b"*.b.c"),
    ];
    for count in (1..=20).chain(MORE) {
        for record in RECORDS {
            let good = vec![record; count];
            take((format!("{count} records"), Job::records(good.clone())));
            let places = (0..count).filter(|place| count <= 20 || place % 16 == count % 16);
            for place in places.chain([count - 1]) {
                let mut records = good.clone();
                records[place] = bad[(place + count) % bad.len()];
                let what = format!("{count} records, {place} is bad");
                take((what, Job::records(records)));
            }
        }
    }
    let all = RECORDS.into_iter().cycle().take(MOST_RECORDS);
    take(("16 records of all kinds".to_string(), Job::records(all)));
}

/// Records of every kind with services and domains of every length near a
/// limit, and of lengths that a byte takes for such a one.
fn record_fields(take: Taker) {
    let few = 0..=8;
    let field = 58..=68;
    let byte = 125..=130;
    let services = few.clone().chain(field.clone()).chain(byte.clone());
    let round = 250..=330;
    let far = [
        511, 512, 515, 574, 575, 65_535, 65_536, 65_537, 65_539, 65_598,
    ];
    for length in services.chain(round.clone()).chain(far) {
        let letters = vec![b's'; length];
        let with_digit = mixed(length.max(1));
        for kind in [DNS, SRV, URI, CN] {
            for service in [&letters, &with_digit] {
                let what = format!("kind {kind}, service of {length}");
                let record = (kind, service.as_slice(), b"a.b".as_slice());
                take((what, Job::records([record])));
            }
        }
    }
    let domains = few.chain(field).chain(byte).chain(240..=330);
    for length in domains.chain(far).chain([65_789, 65_790]) {
        for domain in [domain_of(length), short_domain(length)] {
            for (kind, service, _) in RECORDS {
                let what = format!("kind {kind}, domain of {length}");
                take((what, Job::records([(kind, service, domain.as_slice())])));
            }
        }
    }
    both_fields(take);
}

/// A domain of this many bytes that begins with `a.b`, so that it is one too
/// where it is cut.
fn short_domain(length: usize) -> Vec<u8> {
    let mut domain = domain_of(length);
    for (place, byte) in domain.iter_mut().zip(b"a.b") {
        *place = *byte;
    }
    domain
}

/// Services and domains that fill their fields, or are longer by one, together.
fn both_fields(take: Taker) {
    for kind in [DNS, SRV, URI, CN] {
        for service in [0, 1, 61, 62, 63, 64] {
            for domain in [3, 252, 253, 254] {
                let (service, domain) = (vec![b's'; service], short_domain(domain));
                let what = format!("kind {kind}, {} and {}", service.len(), domain.len());
                let record = (kind, service.as_slice(), domain.as_slice());
                take((what.clone(), Job::records([record])));
                let behind = [RECORDS[0], record, RECORDS[1]];
                take((what, Job::records(behind)));
            }
        }
    }
}
