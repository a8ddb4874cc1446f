//! Unit tables for the DER of the three certificate strings, seen through the
//! listing, and for the listing's tables.

use second::examples::{domain_of, J};
use second::tree::*;
use second::{list, list_into, Listed, Row, Viewer, Which};

fn answer(bytes: &[u8], which: Which) -> u32 {
    list(bytes, which).answer
}

fn rows(bytes: &[u8], which: Which) -> Vec<[usize; 4]> {
    let rows = list(bytes, which).rows;
    rows.iter()
        .map(|row| [row.kind, row.start, row.length, row.group])
        .collect()
}

#[test]
fn lengths_in_their_shortest_form() {
    for (length, header) in [
        (0, 1),
        (1, 1),
        (127, 1),
        (128, 2),
        (255, 2),
        (256, 3),
        (300, 3),
    ] {
        for form in [
            Length::Shortest,
            Length::Long(1),
            Length::Long(2),
            Length::Long(3),
            Length::Indefinite,
        ] {
            let mut name = bytes(0x87, &vec![0; length]);
            name.length = form;
            let shortest = name.write().len() == 1 + header + length
                && matches!(form, Length::Shortest | Length::Long(1) | Length::Long(2))
                && !(length > 255 && matches!(form, Length::Long(1)));
            let read = answer(&san(vec![name]).write(), Which::San);
            assert_eq!(
                read,
                if shortest { 0 } else { 3 },
                "{length} bytes, {form:?}"
            );
        }
    }
}

#[test]
fn every_tag_of_a_general_name() {
    let named = [0x81, 0x82, 0x86, 0x87, 0x88, 0xA3, 0xA4, 0xA5];
    for tag in 0..=255 {
        let read = answer(&[0x30, 0x02, tag, 0x00], Which::San);
        assert_eq!(
            read,
            if named.contains(&tag) { 0 } else { 3 },
            "tag {tag:02X}"
        );
    }
    // An otherName needs its parts.
    let whole = san(vec![other_name(&[1], bytes(0x00, b""))]).write();
    assert_eq!(rows(&whole, Which::San), [[0, 2, 9, 0]]);
}

#[test]
fn bytes_above_127() {
    for (tag, read) in [
        (0x81, 3),
        (0x82, 3),
        (0x86, 3),
        (0x87, 0),
        (0x88, 0),
        (0xA3, 0),
        (0xA4, 0),
        (0xA5, 0),
    ] {
        assert_eq!(
            answer(&[0x30, 0x03, tag, 0x01, 0x80], Which::San),
            read,
            "tag {tag:02X}"
        );
        assert_eq!(
            answer(&[0x30, 0x03, tag, 0x01, 0x7F], Which::San),
            0,
            "tag {tag:02X}"
        );
    }
}

#[test]
fn other_names() {
    let read = |node: Node| answer(&san(vec![node]).write(), Which::San);
    let srv = second::general_name::SRV_NAME_OID;
    assert_eq!(read(srv_name(b"x")), 0);
    assert_eq!(read(srv_name(b"")), 3);
    assert_eq!(read(srv_name(b"\x80")), 3);
    assert_eq!(read(other_name(&srv, bytes(0x0C, b"x"))), 3);
    assert_eq!(read(other_name(&srv[..7], bytes(0x0C, b"\x80"))), 0);
    assert_eq!(read(other_name(b"", bytes(0x0C, b"x"))), 3);
    assert_eq!(read(other_name(&[1], bytes(0x1F, b"x"))), 3);
    assert_eq!(read(parts(0xA0, vec![bytes(0x06, &[1])])), 3);
    assert_eq!(
        read(parts(0xA0, vec![bytes(0x06, &[1]), parts(0xA0, vec![])])),
        3
    );
    let two = parts(0xA0, vec![bytes(0x05, b""), bytes(0x05, b"")]);
    assert_eq!(read(parts(0xA0, vec![bytes(0x06, &[1]), two])), 3);
    assert_eq!(
        read(parts(
            0xA0,
            vec![bytes(0x06, &[1]), parts(0xA1, vec![bytes(0x05, b"")])]
        )),
        3
    );
}

#[test]
fn rows_of_a_san() {
    let entries = vec![
        srv_name(b"x"),
        email(b"a"),
        dns_name(b"b"),
        uri_name(b"c"),
        ip_address(b"d"),
    ];
    let wanted = [
        [9, 2, 17, 0],
        [1, 19, 3, 1],
        [2, 22, 3, 2],
        [6, 25, 3, 3],
        [7, 28, 3, 4],
    ];
    assert_eq!(rows(&san(entries).write(), Which::San), wanted);
    assert_eq!(rows(&[], Which::San), [[0; 4]; 0]);
    assert_eq!(answer(&[], Which::San), 0);
}

#[test]
fn subjects() {
    assert_eq!(answer(&[], Which::Subject), 4);
    assert_eq!(answer(&[0x30, 0x00], Which::Subject), 0);
    assert_eq!(answer(&[0x30, 0x02, 0x31, 0x00], Which::Subject), 4);
    assert_eq!(rows(&J, Which::Subject), [[10, 4, 12, 0]]);
    let kinds = vec![
        common_name(0x0C, b"a"),
        common_name(0x13, b"a"),
        common_name(0x16, b"a"),
        common_name(0x14, b"a"),
        common_name(0x1E, b""),
        attribute(&[0x55, 0x04, 0x0A], bytes(0x0C, b"")),
    ];
    let sets = kinds.into_iter().map(|one| rdn(vec![one])).collect();
    let listed = rows(&subject(sets).write(), Which::Subject);
    assert_eq!(
        listed.iter().map(|row| row[0]).collect::<Vec<_>>(),
        [10, 10, 10, 11, 11, 12]
    );
    assert_eq!(
        listed.iter().map(|row| row[3]).collect::<Vec<_>>(),
        [0, 1, 2, 3, 4, 5]
    );
    assert_eq!(
        answer(
            &subject(vec![rdn(vec![attribute(b"", bytes(0x0C, b""))])]).write(),
            Which::Subject
        ),
        4
    );
}

#[test]
fn order_of_a_set() {
    let (low, high) = (common_name(0x0C, b"a"), common_name(0x0C, b"b"));
    let longer = common_name(0x0C, b"aa");
    let read = |set: Vec<&Node>| {
        let set = unsorted_rdn(set.into_iter().cloned().collect());
        answer(&subject(vec![set]).write(), Which::Subject)
    };
    assert_eq!(read(vec![&low, &high]), 0);
    assert_eq!(read(vec![&high, &low]), 4);
    assert_eq!(read(vec![&low, &low, &high, &high]), 0);
    // The length stands before the content.
    assert_eq!(read(vec![&high, &longer]), 0);
    assert_eq!(read(vec![&longer, &high]), 4);
    assert_eq!(read(vec![&low, &longer, &high]), 4);
}

#[test]
fn rows_of_constraints() {
    let both = constraints(
        vec![subtree(srv_name(b"_m")), subtree(dns_name(b""))],
        vec![subtree(email(b"a"))],
    );
    let wanted = [[9, 6, 18, 0], [2, 26, 2, 0], [1, 32, 3, 1]];
    assert_eq!(rows(&both.write(), Which::Constraints), wanted);
    assert_eq!(rows(&[], Which::Constraints), [[0; 4]; 0]);
}

#[test]
fn shapes_of_constraints() {
    let read = |sides: Vec<Node>| answer(&parts(0x30, sides).write(), Which::Constraints);
    let side = |tag| parts(tag, vec![subtree(dns_name(b"b"))]);
    assert_eq!(read(vec![side(0xA0)]), 0);
    assert_eq!(read(vec![side(0xA1)]), 0);
    assert_eq!(read(vec![side(0xA0), side(0xA1)]), 0);
    assert_eq!(read(vec![]), 5);
    assert_eq!(read(vec![side(0xA1), side(0xA0)]), 5);
    assert_eq!(read(vec![side(0xA0), side(0xA0)]), 5);
    assert_eq!(read(vec![side(0xA1), side(0xA1)]), 5);
    assert_eq!(read(vec![side(0xA2)]), 5);
    assert_eq!(read(vec![parts(0xA0, vec![])]), 5);
    assert_eq!(read(vec![parts(0xA0, vec![dns_name(b"b")])]), 5);
    let with = |more: Node| parts(0xA0, vec![parts(0x30, vec![dns_name(b"b"), more])]);
    assert_eq!(read(vec![with(bytes(0x80, &[0]))]), 5);
    assert_eq!(read(vec![with(bytes(0x81, &[9]))]), 5);
    assert_eq!(read(vec![parts(0xA0, vec![subtree(srv_name(b"*.b"))])]), 5);
}

/// Request 2/13: "This holds for [...] restriction texts (5)"; since request 6/13
/// for dNSNames too. Other forms are "read and passed over".
#[test]
fn restrictions_that_end_in_digits() {
    let read = |base: Node| {
        let side = |tag| parts(0x30, vec![parts(tag, vec![subtree(base.clone())])]).write();
        let answers = [0xA0, 0xA1].map(|tag| answer(&side(tag), Which::Constraints));
        assert_eq!(answers[0], answers[1]);
        answers[0]
    };
    for text in ["10.4.0.7", "7", "a.7", "_m.7", "_7.10.4.0.7"] {
        assert_eq!(read(srv_name(text.as_bytes())), 5, "{text}");
        assert_eq!(read(dns_name(text.as_bytes())), 5, "{text}");
        assert_eq!(read(uri_name(text.as_bytes())), 0, "{text}");
    }
    for text in ["_7", "4.example", "a.7b", "_m.4.example", "_7.a.7b", "7b"] {
        assert_eq!(read(srv_name(text.as_bytes())), 0, "{text}");
    }
    let two = vec![subtree(srv_name(b"_m")), subtree(srv_name(b"10.4.0.7"))];
    assert_eq!(
        answer(&constraints(two, vec![]).write(), Which::Constraints),
        5
    );
    // A SAN is readable whatever its SRVNames say.
    assert_eq!(answer(&san(vec![srv_name(b"_m.7")]).write(), Which::San), 0);
}

/// Request 6/13: "an empty text contains every name; any other text must be a
/// domain, else 5." The listing and the viewer refuse such a string too.
#[test]
fn dns_restrictions() {
    let long = domain_of(253);
    let good: [&[u8]; 6] = [b"", b"b", b"a.b", b"4.example", b"A.7b", &long];
    let longer = domain_of(254);
    let bad: [&[u8]; 12] = [
        b".b", b"b.", b"*.b.c", b"7", b".", b"a..b", b"*", b"a_b", b"-a", b"a-", b"a.7", &longer,
    ];
    for (texts, wanted) in [(&good[..], 0), (&bad[..], 5)] {
        for text in texts {
            for tag in [0xA0, 0xA1] {
                let side = parts(tag, vec![subtree(email(b"")), subtree(dns_name(text))]);
                let bytes = parts(0x30, vec![side]).write();
                assert_eq!(answer(&bytes, Which::Constraints), wanted, "{text:?}");
                let (opening, mut viewer) = Viewer::open(&bytes, Which::Constraints);
                assert_eq!(opening, wanted, "{text:?}");
                assert_eq!(viewer.step().is_some(), wanted == 0, "{text:?}");
            }
        }
        // A SAN is readable whatever its dNSNames say.
        let names = texts.iter().map(|text| dns_name(text)).collect();
        assert_eq!(answer(&san(names).write(), Which::San), 0);
    }
}

const OLD: [Row; 5] = [Row {
    kind: 77,
    start: 78,
    length: 79,
    group: 80,
}; 5];

#[test]
fn tables_that_are_short_or_long() {
    let three = san(vec![dns_name(b"a"), dns_name(b"b"), dns_name(b"c")]).write();
    for lent in 0..=5 {
        let mut table = OLD;
        let listed = list_into(&mut table[..lent], &three, Which::San);
        let (answer, written) = if lent < 3 { (8, 0) } else { (0, 3) };
        assert_eq!(listed, Listed { answer, count: 3 });
        assert_eq!(table[..written], list(&three, Which::San).rows[..written]);
        assert_eq!(table[written..], OLD[written..]);
    }
}

#[test]
fn tables_after_a_refusal() {
    let refused = [
        (Which::San, 2, 3),
        (Which::San, 16_384, 3),
        (Which::San, 16_385, 7),
        (Which::Subject, 0, 4),
        (Which::Subject, 4_096, 4),
        (Which::Subject, 4_097, 7),
        (Which::Constraints, 16_384, 5),
        (Which::Constraints, 16_385, 7),
    ];
    for (which, length, answer) in refused {
        let mut table = OLD;
        let listed = list_into(&mut table, &vec![0x30; length], which);
        assert_eq!(listed, Listed { answer, count: 0 }, "{which:?} of {length}");
        assert_eq!(table, OLD);
    }
}
