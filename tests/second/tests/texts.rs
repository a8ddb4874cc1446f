//! Unit tables for the texts of names.

use second::examples::{domain_of, LABEL};
use second::text::*;

#[test]
fn domains() {
    let good = [
        "a", "0x", "a.b", "1.2.3.4a", "a-b.c", "xn--p1ai", "0.9.A.Z", "a--b",
    ];
    for text in good {
        assert!(is_domain(text.as_bytes()), "{text}");
    }
    let bad = [
        "", ".", "a.", ".a", "a..b", "-a", "a-", "a.-b", "a-.b", "a_b", "*", "*.a", "a b", "a\0",
        "a/b", "a@b", "é", "a[b", "a`b", "a{b", "a:b",
    ];
    for text in bad {
        assert!(!is_domain(text.as_bytes()), "{text}");
    }
}

/// Request 2/13: "the last label of a domain may not be all digits."
#[test]
fn last_labels() {
    let good = "4.example a.7b 7b b7 a.b7 a.0x7 7-7 a.7-7 10.4.0.7b 10.4.0.b7 a.7.b 7.a.0.b \
                0.1.2.3.4.5.6.7.8.9.a 9.z 0.A a.9Z9 1--1 a.00000000x";
    for text in good.split(' ') {
        assert!(is_domain(text.as_bytes()), "{text}");
    }
    let bad = "10.4.0.7 7 a.7 a.b.7 0 9 a.0 a.9 a.10 xn--p1ai.0123456789 1.2.3.4 A.Z.0.9 b.00 \
               7b.7 a.7b.7 7-7.7 a.7. a.-7 a.7- a.7:7 a.7/7 a./ a.: a.7_7";
    for text in bad.split(' ') {
        assert!(!is_domain(text.as_bytes()), "{text}");
    }
    let long = domain_of(251);
    assert!(!is_domain(&[&long, b".7".as_slice()].concat()));
    assert!(is_domain(&[&long, b".z".as_slice()].concat()));
}

#[test]
fn digits_and_one_other_byte_in_a_last_label() {
    for digit in b'0'..=b'9' {
        assert!(!is_domain(&[b'a', b'.', digit]));
        assert!(!is_domain(&[b"a.".as_slice(), &[digit; 63]].concat()));
        for other in [b'a', b'z', b'A', b'Z', b'-'] {
            for place in 0..63 {
                let mut label = [digit; 63];
                label[place] = other;
                let inside = other != b'-' || (1..62).contains(&place);
                assert_eq!(is_domain(&[b"a.".as_slice(), &label].concat()), inside);
            }
        }
    }
}

#[test]
fn lengths_of_labels_and_domains() {
    assert!(is_domain(&[b'a'; 63]));
    assert!(!is_domain(&[b'a'; 64]));
    assert!(is_domain(&[&[b'a'; 63], b".b".as_slice()].concat()));
    assert!(!is_domain(&[&[b'a'; 64], b".b".as_slice()].concat()));
    assert!(!is_domain(&[b"b.".as_slice(), &[b'a'; 64]].concat()));
    assert!(is_domain(&domain_of(253)));
    assert!(!is_domain(&domain_of(254)));
}

/// Request 1/13: "a wildcard needs at least two labels after it".
#[test]
fn what_a_wildcard_leaves() {
    for (domain, left) in [("a.b.c", "b.c"), ("a.b.c.d", "b.c.d"), ("1.0.x", "0.x")] {
        assert_eq!(parent(domain.as_bytes()), Some(left.as_bytes()), "{domain}");
    }
    for domain in ["a", "a.b", "branch.example", "a-b.c-d"] {
        assert_eq!(parent(domain.as_bytes()), None, "{domain}");
    }
    for (domain, two) in [("b", false), ("a-b", false), ("a.b", true), ("a.b.c", true)] {
        assert_eq!(has_two_labels(domain.as_bytes()), two, "{domain}");
    }
}

#[test]
fn services() {
    for text in ["m", "9", "xmpp-server", "a--b"] {
        assert!(is_service(text.as_bytes()), "{text}");
    }
    for text in ["", "-", "-a", "a-", "a.b", "_a", "a_b", "a+b"] {
        assert!(!is_service(text.as_bytes()), "{text}");
    }
    assert!(is_service(&[b's'; 62]));
    assert!(!is_service(&[b's'; 63]));
}

#[test]
fn schemes() {
    for text in ["h", "HTTP", "a+b-c.d", "x9", "a-", "a."] {
        assert!(is_scheme(text.as_bytes()), "{text}");
    }
    for text in ["", "9x", "+a", "-a", ".a", "a_b", "a:b", "a/b"] {
        assert!(!is_scheme(text.as_bytes()), "{text}");
    }
    assert!(is_scheme(&[b'u'; 63]));
    assert!(!is_scheme(&[b'u'; 64]));
}

#[test]
fn srv_ids() {
    let parts = |text: &'static str| srv_id(text.as_bytes());
    assert_eq!(parts("_m.b"), Some((b"m".as_slice(), b"b".as_slice())));
    assert_eq!(
        parts("_m-n.a.b"),
        Some((b"m-n".as_slice(), b"a.b".as_slice()))
    );
    for text in ["_7.a.b", "_m.4.example", "_m.a.7b", "_7.7b"] {
        assert!(parts(text).is_some(), "{text}");
    }
    for text in [
        "",
        "_",
        "_m",
        "_m.",
        "_.b",
        "m.b",
        "__m.b",
        "_m._tcp.b",
        "_m.*.b",
        "_m-.b",
        "_-m.b",
        "_m.b.",
        "_m..b",
        "_m.7",
        "_m.10.4.0.7",
        "_7.7",
    ] {
        assert_eq!(parts(text), None, "{text}");
    }
    assert!(srv_id(&[b"_".as_slice(), &[b's'; 62], b".", &domain_of(253)].concat()).is_some());
    assert!(srv_id(&[b"_".as_slice(), &[b's'; 63], b".", &domain_of(253)].concat()).is_none());
    assert!(srv_id(&[b"_".as_slice(), &[b's'; 62], b".", &domain_of(254)].concat()).is_none());
}

/// Whether this text is a URI-ID of scheme h and domain a.b.
fn is_uri_of_a_b(text: &str) -> bool {
    uri_parts(text.as_bytes()) == Some((b"h".as_slice(), b"a.b".as_slice()))
}

#[test]
fn texts_that_are_uri_ids() {
    let after_scheme = [
        "a.b",
        "a.b/",
        "a.b?",
        "a.b#",
        "a.b/x@y:z",
        "a.b?@c",
        "a.b#/:@",
        "a.b/ \0",
        "@a.b",
        "u@a.b",
        "u:p@a.b",
        "c.d:80@a.b",
        "a.b:",
        "a.b:0",
        "a.b:443/",
        "u@a.b:99999999999",
        ":@a.b:",
    ];
    for rest in after_scheme {
        assert!(is_uri_of_a_b(&format!("h://{rest}")), "{rest}");
    }
}

#[test]
fn texts_that_are_no_uri_ids() {
    let after_scheme = [
        "",
        "/a.b",
        "a.b:8a",
        "a.b:-1",
        "a.b::",
        "a.b:80:80",
        "u@v@a.b",
        "@@a.b",
        "a.b@",
        "a.b:80@",
        "a.b.",
        "a.b\0",
        "[a.b]",
        "a.b\\",
        "u/@a.b",
        "u?@a.b",
        "u#@a.b",
        "a.b ",
        "*.b",
    ];
    for rest in after_scheme {
        assert!(!is_uri_of_a_b(&format!("h://{rest}")), "{rest}");
    }
}

#[test]
fn texts_without_scheme_or_authority() {
    let whole = [
        "",
        "h",
        "h:",
        "h:/",
        "h:a.b",
        "h:/a.b",
        "//a.b",
        "://a.b",
        " h://a.b",
        "h ://a.b",
        "x:h://a.b",
    ];
    for text in whole {
        assert!(!is_uri_of_a_b(text), "{text}");
    }
}

#[test]
fn subtrees() {
    for text in [
        "_m", "_m.b", "_m.a.b", "b", "a.b", "7b", "1.b", "_7", "_7.b", "_m.4.b",
    ] {
        assert!(is_srv_subtree(text.as_bytes()), "{text}");
    }
    for text in [
        "",
        "_",
        "_.b",
        "_m.",
        "_m..b",
        ".b",
        "b.",
        "*",
        "*.b",
        "_m.*.b",
        "_-m",
        "__m",
        "_m-.b",
        "_m\0",
        "7",
        "a.7",
        "10.4.0.7",
        "_m.7",
        "_m.10.4.0.7",
        "_7.7",
        "_m.b.0",
    ] {
        assert!(!is_srv_subtree(text.as_bytes()), "{text}");
    }
    assert!(is_srv_subtree(&[b"_".as_slice(), &[b's'; 62]].concat()));
    assert!(!is_srv_subtree(&[b"_".as_slice(), &[b's'; 63]].concat()));
    assert!(is_srv_subtree(&domain_of(253)));
    assert!(!is_srv_subtree(&domain_of(254)));
}

#[test]
fn names_inside_and_outside_of_subtrees() {
    let name = (b"Mail".as_slice(), b"Host.branch.example".as_slice());
    for subtree in [
        "_mail",
        "_MAIL.example",
        "example",
        "branch.EXAMPLE",
        "host.branch.example",
        "_mail.host.branch.example",
    ] {
        assert!(lies_in(name, subtree.as_bytes()), "{subtree}");
    }
    for subtree in [
        "_mai",
        "_mails",
        "_ntp.example",
        "xample",
        "ost.branch.example",
        "a.host.branch.example",
        "host",
        "_mail.b",
    ] {
        assert!(!lies_in(name, subtree.as_bytes()), "{subtree}");
    }
}

/// The edges of "Letters compare without case": both texts, and whether they
/// are the same.
const SAME: [(&[u8], &[u8], bool); 34] = [
    (b"", b"", true),
    (b"", b"a", false),
    (b"", b"\0", false),
    (b"", b" ", false),
    (b"A", b"a", true),
    (b"Z", b"z", true),
    (b"M", b"m", true),
    (b"a", b"b", false),
    (b"A", b"Z", false),
    (b"@", b"`", false),
    (b"[", b"{", false),
    (b"@", b"@", true),
    (b"{", b"{", true),
    (b"@", b"A", false),
    (b"Z", b"[", false),
    (b"`", b"a", false),
    (b"z", b"{", false),
    (b"1", b"\x11", false),
    (b"-", b"\r", false),
    (b".", b"\x0E", false),
    (b"_", b"\x7F", false),
    (b"*", b"\n", false),
    (b" ", b"\0", false),
    (b"?", b"\x1F", false),
    (b"\xC3", b"\xE3", false),
    (b"\xC3", b"\xC3", true),
    (b"\xC3\x89", b"\xC3\xA9", false),
    (b"A", b"\xC1", false),
    (b"a", b"\xE1", false),
    (b"k", b"\xE2\x84\xAA", false),
    (b"s", b"\xC5\xBF", false),
    (b"a.b", b"a.b.c", false),
    (b"a.b", b"a.b\0", false),
    (b"Desk-1.Branch", b"dESK-1.bRANCH", true),
];

#[test]
fn letters_compare_without_case() {
    for (one, other, same) in SAME {
        assert_eq!(same_text(one, other), same, "{one:?} and {other:?}");
        assert_eq!(same_text(other, one), same, "{other:?} and {one:?}");
    }
}

/// A letter's place in the alphabet, whatever its case.
fn place_in_alphabet(byte: u8) -> Option<usize> {
    let alphabets = [b"ABCDEFGHIJKLMNOPQRSTUVWXYZ", b"abcdefghijklmnopqrstuvwxyz"];
    let mut places = alphabets
        .iter()
        .filter_map(|alphabet| alphabet.iter().position(|&letter| letter == byte));
    places.next()
}

/// Whether two bytes are the same letter, or the same byte.
fn same_byte(one: u8, other: u8) -> bool {
    let letters = (place_in_alphabet(one), place_in_alphabet(other));
    one == other || matches!(letters, (Some(one), Some(other)) if one == other)
}

/// Every pair of bytes alone, and at several places of a label of 63 bytes.
#[test]
fn every_pair_of_bytes() {
    for one in 0..=255 {
        for other in 0..=255 {
            let same = same_byte(one, other);
            assert_eq!(same_text(&[one], &[other]), same, "{one:02X} {other:02X}");
            for place in [0, 7, 8, 15, 16, 62] {
                let (mut first, mut second) = (LABEL, LABEL.map(|byte| byte.to_ascii_lowercase()));
                (first[place], second[place]) = (one, other);
                assert_eq!(same_text(&first, &second), same, "at {place}");
            }
        }
    }
}

/// Texts of different lengths are not the same, whatever they begin with.
#[test]
fn texts_of_different_lengths() {
    let text = domain_of(253);
    for one in 0..=text.len() {
        for other in 0..=text.len() {
            let same = same_text(&text[..one], &text[..other]);
            assert_eq!(same, one == other, "{one} and {other}");
        }
    }
}
