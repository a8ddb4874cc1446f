//! The desk examples and old faults of document 01 and the examples of requests
//! 1/13 to 3/13 and 6/13, by number.

use second::examples::issuers::string;
use second::examples::{table, J, S};
use second::records::kind::{CN, DNS, SRV, URI};
use second::tree::*;
use second::{list_into, program, text_place, Listed, Place, Row, Which};

#[test]
fn every_example_has_its_verdict() {
    for example in table() {
        let numbers = example.case.judged().verdict.numbers();
        assert_eq!(numbers, example.verdict, "example {}", example.number);
    }
}

#[test]
fn every_number_is_in_the_table() {
    let numbers: Vec<String> = table().into_iter().map(|example| example.number).collect();
    let wanted = (1..=16).map(|number| format!("P{number}"));
    let wanted = wanted.chain((1..=7).map(|number| format!("D{number}")));
    let wanted = wanted.chain((1..=9).map(|number| format!("L{number}")));
    let wanted = wanted.chain((11..=14).map(|number| format!("L{number}")));
    let wanted = wanted.chain((7..=27).map(|number| format!("A{number}")));
    let wanted = wanted.chain((30..=37).map(|number| format!("A{number}")));
    let wanted = wanted.chain((1..=11).map(|number| format!("V{number}")));
    let wanted = wanted.chain((1..=15).map(|number| format!("I{number}")));
    let wanted = wanted.chain((17..=33).map(|number| format!("I{number}")));
    let wanted = wanted.chain((37..=38).map(|number| format!("I{number}")));
    let wanted = wanted.chain((41..=68).map(|number| format!("I{number}")));
    for number in wanted.chain(["F1", "F2", "F3", "F4"].map(String::from)) {
        assert!(numbers.contains(&number), "{number} is missing");
    }
    let starting = |start: &str| numbers.iter().filter(|one| one.starts_with(start)).count();
    assert_eq!(starting("D8"), 11);
    assert_eq!(starting("L10"), 12);
    for number in ["A1:", "A2:", "A3:", "A4:", "A5:"] {
        assert_eq!(starting(number), 3, "{number}");
    }
    let counts = [("A6", 4), ("A28", 36), ("A29", 8)];
    let counts = counts
        .into_iter()
        .chain([("A38", 8), ("A39", 6), ("A40", 4)])
        .chain([("I16:", 44), ("I34:", 8), ("I35:", 8), ("I36:", 40)])
        .chain([("I39:", 32), ("I40:", 32), ("I57", 2), ("I63", 2)]);
    for (number, count) in counts {
        assert_eq!(starting(number), count, "{number}");
    }
}

#[test]
fn p16_output_of_the_program() {
    let output = program::output(&S, &J, &[], &record(DNS, b"", b"A.B"));
    assert_eq!(output, "0 0 0 2 5 0\n2 2 5 0\n");
}

#[test]
fn output_of_the_program_for_other_sans() {
    let references = record(DNS, b"", b"a.b");
    let output = |san: &[u8]| program::output(san, &J, &[], &references);
    assert_eq!(output(&[]), "1 0 0 0 0 0\n");
    assert_eq!(output(&[0x30, 0x00]), "3 0 0 0 0 0\n");
    assert_eq!(output(&[0x30; 16_385]), "7 0 0 0 0 0\n");
    let empty_names = |count| san(vec![dns_name(b""); count]).write();
    assert_eq!(output(&empty_names(512)).lines().count(), 513);
    assert_eq!(output(&empty_names(513)), "1 0 0 0 0 0\nrows 513\n");
    // Refused references do not keep the SAN's rows back.
    assert_eq!(program::output(&S, &J, &[], &[]), "6 0 0 0 0 0\n2 2 5 0\n");
}

/// "it still reads nc.der alone", as the string of one issuer.
#[test]
fn output_of_the_program_under_constraints() {
    let references = record(DNS, b"", b"a.b");
    let output = |constraints: &[u8]| program::output(&S, &J, constraints, &references);
    assert_eq!(output(&string("+b")), "0 0 0 2 5 0\n2 2 5 0\n");
    assert_eq!(output(&string("-b")), "2 0 0 0 0 0\n2 2 5 0\n");
    assert_eq!(output(&string("+.b")), "5 0 0 0 0 0\n2 2 5 0\n");
    assert_eq!(output(&[0x30; 16_384]), "5 0 0 0 0 0\n2 2 5 0\n");
    for length in [16_385, 65_536, 65_537] {
        assert_eq!(output(&vec![0x30; length]), "7 0 0 0 0 0\n2 2 5 0\n");
    }
}

#[test]
fn f5_rows_left_from_the_last_certificate() {
    let mut table = [Row::default(); 3];
    let three = san(vec![dns_name(b"a"), dns_name(b"b"), dns_name(b"c")]).write();
    assert_eq!(
        list_into(&mut table, &three, Which::San),
        Listed {
            answer: 0,
            count: 3
        }
    );
    let before = table;
    assert_eq!(
        list_into(&mut table, &S, Which::San),
        Listed {
            answer: 0,
            count: 1
        }
    );
    assert_eq!(
        table[0],
        Row {
            kind: 2,
            start: 2,
            length: 5,
            group: 0
        }
    );
    assert_eq!(table[1..], before[1..]);
}

#[test]
fn place_of_the_witness_text() {
    let place = |entry: Node, references: &[u8]| {
        let names = san(vec![ip_address(b"xyz"), entry]).write();
        text_place(&names, &J, &[], &[], references)
    };
    let at = |start, length| Place { start, length };
    assert_eq!(place(dns_name(b"a.b"), &record(DNS, b"", b"a.b")), at(9, 3));
    assert_eq!(
        place(uri_name(b"h://a.b"), &record(URI, b"h", b"a.b")),
        at(9, 7)
    );
    assert_eq!(
        place(srv_name(b"_m.a.b"), &record(SRV, b"m", b"a.b")),
        at(23, 6)
    );
    assert_eq!(place(email(b"a@b"), &record(CN, b"", b"a.b")), at(13, 3));
    assert_eq!(place(dns_name(b"a.b"), &record(DNS, b"", b"a.c")), at(0, 0));
}
