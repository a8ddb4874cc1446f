//! Unit tables for the reference records and the record reader.

use second::examples::domain_of;
use second::records::kind::{CN, DNS, SRV, URI};
use second::tree::record as write;
use second::{record, RecordView};

fn answer(references: &[u8]) -> u32 {
    record(references, 0).answer
}

fn refused() -> RecordView {
    RecordView {
        answer: 6,
        ..RecordView::default()
    }
}

#[test]
fn one_record_of_each_kind() {
    let view = |kind, service_length, domain_length| RecordView {
        answer: 0,
        kind: u32::from(kind),
        service_length,
        domain_length,
    };
    assert_eq!(record(&write(DNS, b"", b"a.b"), 0), view(DNS, 0, 3));
    assert_eq!(record(&write(SRV, b"mail", b"b.c"), 0), view(SRV, 4, 3));
    assert_eq!(record(&write(URI, b"h", b"a.b"), 0), view(URI, 1, 3));
    assert_eq!(
        record(&write(CN, b"", &domain_of(253)), 0),
        view(CN, 0, 253)
    );
}

#[test]
fn counts_and_indexes() {
    let one = write(DNS, b"", b"a.b");
    assert_eq!(answer(&[]), 6);
    for count in 1..=16 {
        let references = one.repeat(count);
        assert_eq!(record(&references, count - 1).domain_length, 3);
        assert_eq!(record(&references, count), RecordView::default());
        assert_eq!(record(&references, usize::MAX), RecordView::default());
        assert_eq!(answer(&references[1..]), 6);
    }
    assert_eq!(answer(&one.repeat(17)), 7);
    assert_eq!(answer(&[0; 5_120]), 6);
    assert_eq!(answer(&[0; 5_121]), 7);
    let last_broken = [one.repeat(15), write(9, b"", b"a.b")].concat();
    assert_eq!(record(&last_broken, 0), refused());
}

#[test]
fn fields() {
    let readable = [
        write(SRV, &[b's'; 62], b"a.b"),
        write(URI, &[b'u'; 63], b"a.b"),
        write(URI, b"a+b-c.d", b"a.b"),
        write(DNS, b"", &[&[b'l'; 63], b".b".as_slice()].concat()),
        write(DNS, b"", &[b"b.".as_slice(), &[b'l'; 63]].concat()),
    ];
    for record in readable {
        assert_eq!(answer(&record), 0, "{record:?}");
    }
    let unreadable = [
        write(0, b"", b"a.b"),
        write(5, b"", b"a.b"),
        write(DNS, b"s", b"a.b"),
        write(CN, b"s", b"a.b"),
        write(SRV, b"", b"a.b"),
        write(SRV, &[b's'; 63], b"a.b"),
        write(SRV, b"_s", b"a.b"),
        write(URI, b"", b"a.b"),
        write(URI, &[b'u'; 64], b"a.b"),
        write(URI, b"9", b"a.b"),
        write(DNS, b"", b""),
        write(DNS, b"", b"*.a"),
        write(DNS, b"", b"*.a.b"),
        write(DNS, b"", b"a."),
        write(DNS, b"", b"a.b."),
        write(DNS, b"", b".a.b"),
        write(DNS, b"", &[&[b'l'; 64], b".b".as_slice()].concat()),
        write(DNS, b"", &[b"b.".as_slice(), &[b'l'; 64]].concat()),
        write(DNS, b"", &domain_of(254)),
    ];
    for record in unreadable {
        assert_eq!(answer(&record), 6, "{record:?}");
    }
}

/// Request 1/13: "a reference record whose domain has one label is refused
/// with 6".
#[test]
fn one_label() {
    let long = [b'l'; 63];
    for (kind, service) in [(DNS, ""), (SRV, "m"), (URI, "m"), (CN, "")] {
        let write = |domain: &[u8]| write(kind, service.as_bytes(), domain);
        for domain in [b"b".as_slice(), b"B", b"0", b"a-b", b"xn--p1ai", &long] {
            assert_eq!(record(&write(domain), 0), refused(), "{kind} {domain:?}");
            let second = [domain, b".c"].concat();
            assert_eq!(record(&write(&second), 0).answer, 0, "{kind} {second:?}");
        }
        one_refuses_all(&write(b"b.c"), &write(b"b"));
    }
}

/// A bad record at each place of sixteen is refused at every index.
fn one_refuses_all(good: &[u8], bad: &[u8]) {
    for place in 0..16 {
        let mut records = vec![good; 16];
        assert_eq!(record(&records.concat(), place).answer, 0);
        records[place] = bad;
        for index in 0..17 {
            assert_eq!(record(&records.concat(), index), refused(), "{bad:?}");
        }
    }
}

/// Request 2/13: "the last label of a domain may not be all digits. This holds
/// for [...] records (6)".
#[test]
fn last_label_of_digits() {
    let digits = [b"a.".as_slice(), &[b'0'; 63]].concat();
    for (kind, service) in [(DNS, ""), (SRV, "7"), (URI, "m7"), (CN, "")] {
        let write = |domain: &[u8]| write(kind, service.as_bytes(), domain);
        for domain in [b"4.example".as_slice(), b"a.7b", b"a.0x7", b"7.7-7"] {
            assert_eq!(record(&write(domain), 0).answer, 0, "{kind} {domain:?}");
        }
        for domain in [b"10.4.0.7".as_slice(), b"7", b"a.7", b"a.b.10", &digits] {
            assert_eq!(record(&write(domain), 0), refused(), "{kind} {domain:?}");
        }
        one_refuses_all(&write(b"7.7b"), &write(b"7b.7"));
    }
}

#[test]
fn zeros_outside_of_the_texts() {
    let good = write(SRV, b"mail", b"a.b");
    for place in (0..320).filter(|place| ![0, 2, 3].contains(place)) {
        let mut changed = good.clone();
        changed[place] ^= 0x80;
        assert_eq!(answer(&changed), 6, "byte {place}");
    }
    for place in (8..67).chain(70..320) {
        let mut changed = good.clone();
        changed[place] = b'x';
        assert_eq!(answer(&changed), 6, "byte {place}");
    }
}
