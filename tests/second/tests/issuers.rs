//! The constraint strings of every issuer (request 6/13): how lengths cut them,
//! and how the verdict takes them.

use second::examples::issuers::{chain, string};
use second::examples::{J, S};
use second::generate::Chain;
use second::records::kind::DNS;
use second::text::{dns_breaks, dns_lies_in};
use second::tree::record;
use second::{judge, judge_from_c, Issuers, Outcome};

fn owned(issuers: Issuers) -> Vec<Vec<u8>> {
    let strings = issuers.strings().iter();
    strings.map(|string| string.to_vec()).collect()
}

/// The strings that lengths cut, or `None` for 7.
fn cut(bytes: &[u8], lengths: &[usize]) -> Option<Vec<Vec<u8>>> {
    Issuers::cut(bytes, lengths.iter().copied()).map(owned)
}

/// The same from C's lengths.
fn cut_from_c(bytes: &[u8], lengths: &[u8]) -> Option<Vec<Vec<u8>>> {
    Issuers::from_c(bytes, lengths).map(owned)
}

fn strings(strings: &[&str]) -> Option<Vec<Vec<u8>>> {
    Some(
        strings
            .iter()
            .map(|string| string.as_bytes().to_vec())
            .collect(),
    )
}

#[test]
fn lengths_that_cut() {
    assert_eq!(cut(b"", &[]), strings(&[]));
    assert_eq!(cut(b"", &[0]), strings(&[""]));
    assert_eq!(cut(b"abc", &[3]), strings(&["abc"]));
    assert_eq!(cut(b"abc", &[0, 1, 0, 2]), strings(&["", "a", "", "bc"]));
    assert_eq!(cut(b"abcdefgh", &[1; 8]).map(|cut| cut.len()), Some(8));
    assert_eq!(cut_from_c(b"", &[]), strings(&[]));
    assert_eq!(cut_from_c(b"", &[0, 0]), strings(&[""]));
    assert_eq!(cut_from_c(b"abc", &[0, 3]), strings(&["abc"]));
    assert_eq!(
        cut_from_c(b"abc", &[0, 0, 0, 1, 0, 2]),
        strings(&["", "a", "bc"])
    );
    assert_eq!(cut_from_c(&[7; 258], &[1, 2]), Some(vec![vec![7; 258]]));
    let cut = cut_from_c(&[7; 771], &[1, 0, 2, 3]);
    assert_eq!(cut, Some(vec![vec![7; 256], vec![7; 515]]));
}

#[test]
fn lengths_with_another_sum() {
    for lengths in [
        &[][..],
        &[2],
        &[4],
        &[1, 1],
        &[3, 1],
        &[1, 3],
        &[4, 0],
        &[259],
        &[65_539],
        &[0, 0],
    ] {
        assert_eq!(cut(b"abc", lengths), None, "{lengths:?}");
    }
    assert_eq!(cut(b"", &[1]), None);
    let odd: [&[u8]; 3] = [&[0], &[0, 3, 0], &[3]];
    let other: [&[u8]; 5] = [&[], &[3, 0], &[0, 2], &[1, 3], &[0, 3, 0, 1]];
    for lengths in odd.into_iter().chain(other) {
        assert_eq!(cut_from_c(b"abc", lengths), None, "{lengths:?}");
    }
    assert_eq!(cut_from_c(b"", &[0]), None);
    assert_eq!(cut_from_c(b"", &[0; 15]), None);
}

/// The sum does not wrap, be it in 64 bits, in 32 or in 16.
#[test]
fn sums_that_wrap() {
    let most = usize::MAX;
    for lengths in [
        &[most, 4][..],
        &[4, most],
        &[most - 2, 6],
        &[3, 1, most],
        &[most, 1, 3],
        &[most / 2 + 1, most / 2 + 1, 3],
        &[3, 1 << 32],
        &[(1 << 32) - 1, 4],
        &[65_535, 4],
        &[most],
    ] {
        assert_eq!(cut(b"abc", lengths), None, "{lengths:?}");
        let verdict = judge(&S, &J, b"abc", lengths, &[]).verdict;
        assert_eq!(verdict.numbers(), [7, 0, 0, 0, 0, 0], "{lengths:?}");
    }
    assert_eq!(cut_from_c(b"abc", &[0xFF, 0xFF, 0, 4]), None);
}

#[test]
fn a_ninth() {
    for count in 0..=20 {
        let fits = count <= 8;
        assert_eq!(cut(b"", &vec![0; count]).is_some(), fits, "{count}");
        assert_eq!(cut(&vec![7; count], &vec![1; count]).is_some(), fits);
        assert_eq!(cut_from_c(b"", &vec![0; 2 * count]).is_some(), fits);
    }
    assert_eq!(cut(b"abc", &[3, 0, 0, 0, 0, 0, 0, 0, 0]), None);
    assert_eq!(cut(b"abc", &[0, 0, 0, 0, 0, 0, 0, 0, 3]), None);
}

/// "each keeps its own length limit"
#[test]
fn limits() {
    for count in 1..=8 {
        let bytes = vec![7; 16_384 * count];
        assert!(cut(&bytes, &vec![16_384; count]).is_some());
        for place in 0..count {
            let mut lengths = vec![16_384; count];
            lengths[place] += 1;
            let longer = vec![7; bytes.len() + 1];
            assert_eq!(cut(&longer, &lengths), None, "{place} of {count}");
            let mut alone = vec![0; count];
            alone[place] = 16_385;
            assert_eq!(cut(&longer[..16_385], &alone), None, "{place} of {count}");
        }
    }
}

fn from_rust(chain: &Chain, references: &[u8]) -> Outcome {
    let lengths: Vec<usize> = chain.strings().iter().map(|string| string.len()).collect();
    judge(&S, &J, &chain.bytes, &lengths, references)
}

/// Lengths from Rust and from C say the same.
#[test]
fn both_ways() {
    let references = record(DNS, b"", b"a.b");
    for (strings, numbers) in [
        (&["+a.b", "+b"][..], [0, 0, 0, 2, 5, 0]),
        (&["+a.b", "+c"], [2, 0, 0, 0, 0, 1]),
        (&["", "", "", "", "", "", "", "+c"], [2, 0, 0, 0, 0, 7]),
        (&["", "", "", "", "", "", "", "", "+b"], [7, 0, 0, 0, 0, 0]),
    ] {
        let chain = chain(strings);
        let (bytes, lengths) = (&chain.bytes, &chain.lengths);
        let from_c = judge_from_c(&S, &J, bytes, lengths, &references);
        assert_eq!(from_c.verdict.numbers(), numbers, "{strings:?}");
        assert_eq!(from_rust(&chain, &references), from_c, "{strings:?}");
    }
}

/// "7 for any of the four inputs, then 6, 3, 4, 5, 2": each refusal with all
/// later ones beside it, and the issuer's index with answer 2 alone.
#[test]
fn order() {
    let good = record(DNS, b"", b"a.b");
    let (broken, unreadable) = (string("+c"), string("+.c"));
    let lengths = [broken.len(), unreadable.len()];
    let both = [broken.as_slice(), &unreadable].concat();
    let bad: &[u8] = b"\x30";
    let numbers = |outcome: Outcome| outcome.verdict.numbers();
    let bare = |answer: u32| [answer, 0, 0, 0, 0, 0];
    let judged = judge(bad, bad, &both, &[lengths[0], lengths[1] + 1], &[]);
    assert_eq!(numbers(judged), bare(7));
    assert_eq!(numbers(judge(bad, bad, &both, &lengths, &[])), bare(6));
    assert_eq!(numbers(judge(bad, bad, &both, &lengths, &good)), bare(3));
    assert_eq!(numbers(judge(&S, bad, &both, &lengths, &good)), bare(4));
    assert_eq!(numbers(judge(&S, &J, &both, &lengths, &good)), bare(5));
    let twice = [string("+b"), broken].concat();
    let lengths = [lengths[0], lengths[0]];
    assert_eq!(
        numbers(judge(&S, &J, &twice, &lengths, &good)),
        [2, 0, 0, 0, 0, 1]
    );
}

/// A DNS-ID, a subtree, whether it lies there, and whether it breaks it where it
/// is excluded.
const SUBTREES: [(&str, &str, bool, bool); 28] = [
    ("a.b", "", true, true),
    ("a.b", "b", true, true),
    ("a.b", "a.b", true, true),
    ("A.b", "a.B", true, true),
    ("a.b", "c", false, false),
    ("a.b", "a", false, false),
    ("a.b", "x.a.b", false, false),
    ("xa.b", "a.b", false, false),
    ("a.b", "xa.b", false, false),
    ("x.a.b", "a.b", true, true),
    ("x.a.b", "c.b", false, false),
    ("b", "b", true, true),
    ("b", "a.b", false, false),
    ("*.a.b", "", true, true),
    ("*.a.b", "b", true, true),
    ("*.a.b", "A.B", true, true),
    ("*.a.b", "x.a.b", false, true),
    ("*.a.b", "X.A.b", false, true),
    ("*.a.b", "y.x.a.b", false, false),
    ("*.a.b", "xa.b", false, false),
    ("*.a.b", "x.b", false, false),
    ("*.a.b", "x.xa.b", false, false),
    ("*.a.b", "a", false, false),
    ("*.a.b", "x.a", false, false),
    ("*.a.b", "a.b.c", false, false),
    ("*.a.b.c", "x.b.c", false, false),
    ("*.a.b.c", "x.a.b.c", false, true),
    ("*.a.b.c", "c", true, true),
];

#[test]
fn subtrees() {
    for (name, subtree, inside, broken) in SUBTREES {
        let (one, other) = (name.as_bytes(), subtree.as_bytes());
        assert_eq!(dns_lies_in(one, other), inside, "{name} in {subtree}");
        assert_eq!(dns_breaks(one, other), broken, "{name} and -{subtree}");
    }
}
