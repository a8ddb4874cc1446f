//! Examples of request 6/13: constraints of every issuer, and dNSName subtrees.

use super::{bare, case, example, Example, J, S};
use crate::generate::{Case, Chain};
use crate::longest;
use crate::records::kind::{CN, DNS, URI};
use crate::tree::*;

/// One constraint string: subtrees that are permitted, each behind a `+`, and
/// excluded ones, each behind a `-`, with a space between two. A text that begins
/// with `_` is an SRVName's, any other a dNSName's. No subtree is the empty
/// string.
pub fn string(subtrees: &str) -> Vec<u8> {
    let side = |sign: char| {
        let words = subtrees.split(' ');
        let texts = words.filter_map(|word| word.strip_prefix(sign));
        texts.map(base).map(subtree).collect()
    };
    match subtrees {
        "" => Vec::new(),
        _ => constraints(side('+'), side('-')).write(),
    }
}

fn base(text: &str) -> Node {
    match text.starts_with('_') {
        true => srv_name(text.as_bytes()),
        false => dns_name(text.as_bytes()),
    }
}

/// The strings of some issuers.
pub fn chain(strings: &[&str]) -> Chain {
    Chain::new(strings.iter().map(|subtrees| string(subtrees)))
}

/// S and J for the reference DNS `a.b`, under these strings.
fn under(constraints: Chain) -> Case {
    Case {
        constraints,
        ..case(S.to_vec(), record(DNS, b"", b"a.b"))
    }
}

/// The verdict on S where it matches.
const MATCH: [u32; 6] = [0, 0, 0, 2, 5, 0];

/// A verdict for constraints that a name breaks.
fn broken(presented: u32, issuer: u32) -> [u32; 6] {
    [2, 0, presented, 0, 0, issuer]
}

pub fn table() -> Vec<Example> {
    let mut table = chains();
    table.extend(unreadable());
    table.extend(counts());
    table.extend(lengths());
    table.extend(own_limits());
    table.extend(restriction_texts());
    table.extend(no_dns_ids());
    table.extend(wildcards());
    table.extend(both_forms());
    table.extend(free_names());
    table
}

/// "All of them must hold. [...] lowest issuer first": strings are judged one by
/// one, and an empty one keeps its place.
fn chains() -> Vec<Example> {
    let chains: [(&str, &[&str], [u32; 6]); 12] = [
        ("I1", &["+a.b", "+b"], MATCH),
        ("I2", &["+a.b", "+c"], broken(0, 1)),
        ("I3", &["", "", "", "", "", "", "", "+c"], broken(0, 7)),
        ("I4", &["+c", "+a.b"], broken(0, 0)),
        ("I5", &["+c +a.b"], MATCH),
        ("I6", &["+A.B", "", "+B", "-c", "-x.a.b"], MATCH),
        ("I7", &["-c", "", "-b", "-a.b"], broken(0, 2)),
        ("I8", &["+a.b -b"], broken(0, 0)),
        ("I9", &["+a.b", "-a.b"], broken(0, 1)),
        ("I10", &["-ab", "-1a.b", "-c.b", "-a.b.c", "-a"], MATCH),
        ("I11", &["+ab"], broken(0, 0)),
        ("I12", &["+_n", "-_m.b"], MATCH),
    ];
    let line = |(number, strings, verdict)| example(number, under(chain(strings)), verdict);
    chains.into_iter().map(line).collect()
}

/// A string that is unreadable: answer 5 with issuer 0, wherever it stands and
/// whatever another one is broken by.
fn unreadable() -> Vec<Example> {
    let strings = [string("+c"), b"\x30".to_vec()];
    let behind = Chain::new(&strings);
    let before = Chain::new(strings.iter().rev());
    let last = Chain::new([string(""), string("+a.b"), b"\x30\x00".to_vec()]);
    vec![
        example("I13", under(behind), bare(5)),
        example("I14", under(before), bare(5)),
        example("I15", under(last), bare(5)),
    ]
}

/// "Take 0 to 8 constraint strings [...]; a ninth [...] is 7", which comes before
/// 6.
fn counts() -> Vec<Example> {
    let mut table = Vec::new();
    for count in 0..=10 {
        for string in ["", "+b"] {
            let good = under(chain(&vec![string; count]));
            let bad = Case {
                references: Vec::new(),
                ..good.clone()
            };
            let answers = if count > 8 {
                [bare(7), bare(7)]
            } else {
                [MATCH, bare(6)]
            };
            for (case, verdict) in [good, bad].into_iter().zip(answers) {
                table.push(example(&format!("I16: {count}"), case, verdict));
            }
        }
    }
    table
}

/// "lengths with another sum, is 7 [...] From C each length is two bytes, high
/// first; an odd count is 7." The string has 11 bytes.
fn lengths() -> Vec<Example> {
    let lengths: [(&str, &[u8], [u32; 6]); 17] = [
        ("I17", &[0, 11], MATCH),
        ("I18", &[11, 0], bare(7)),
        ("I19", &[], bare(7)),
        ("I20", &[0, 10], bare(7)),
        ("I21", &[0, 12], bare(7)),
        ("I22", &[11], bare(7)),
        ("I23", &[0, 11, 0], bare(7)),
        ("I24", &[0], bare(7)),
        ("I25", &[0, 0, 0, 11, 0, 0], MATCH),
        ("I26", &[0, 1, 0, 10], bare(5)),
        ("I27", &[0, 11, 0, 1], bare(7)),
        ("I28", &[0, 11, 0, 11], bare(7)),
        ("I29", &[1, 11], bare(7)),
        ("I30", &[0xFF, 0xFF, 0, 12], bare(7)),
        ("I31", &[0xFF, 0xF5, 0, 22], bare(7)),
        ("I67", &[0x40, 0, 0x40, 0, 0x40, 0, 0x40, 0, 0, 11], bare(7)),
        ("I68", &[0, 11, 0x40, 0, 0x40, 0, 0x40, 0, 0x40, 0], bare(7)),
    ];
    let mut table = Vec::new();
    for (number, lengths, verdict) in lengths {
        let chain = Chain {
            bytes: string("+a.b"),
            lengths: lengths.to_vec(),
        };
        assert_eq!(chain.bytes.len(), 11);
        table.push(example(number, under(chain.clone()), verdict));
        if verdict == bare(7) {
            let no_records = Case {
                references: Vec::new(),
                ..under(chain)
            };
            table.push(example(
                &format!("{number}: no records"),
                no_records,
                verdict,
            ));
        }
    }
    let absent = Chain {
        bytes: Vec::new(),
        lengths: vec![0],
    };
    table.push(example("I32", under(absent), bare(7)));
    table
}

/// "each keeps its own length limit": eight strings of 16,384 bytes, and the same
/// with one of them a byte longer.
fn own_limits() -> Vec<Example> {
    let of = |size: usize| {
        let room = content_of(content_of(size));
        let address = ip_address(&vec![0; content_of(content_of(room))]);
        let string = constraints(vec![subtree(address)], Vec::new()).write();
        assert_eq!(string.len(), size);
        string
    };
    let longest = vec![of(longest::CONSTRAINTS); 8];
    let mut table = vec![example("I33", under(Chain::new(&longest)), MATCH)];
    for index in 0..8 {
        let mut longer = longest.clone();
        longer[index] = of(longest::CONSTRAINTS + 1);
        let case = under(Chain::new(&longer));
        table.push(example(&format!("I34: {index}"), case, bare(7)));
        let mut alone = vec![Vec::new(); 8];
        alone[index] = of(longest::CONSTRAINTS + 1);
        let case = under(Chain::new(&alone));
        table.push(example(&format!("I35: {index}"), case, bare(7)));
    }
    table
}

/// "an empty text contains every name; any other text must be a domain, else 5."
fn restriction_texts() -> Vec<Example> {
    let texts = [
        ".b", "b.", "*.b.c", "7", "*", ".", "a..b", "-a.b", "a_b", "a.7",
    ];
    let mut table = Vec::new();
    for text in texts {
        for sign in ["+", "-"] {
            let strings = [format!("{sign}{text}"), "-c".to_string()];
            for strings in [[&strings[0], &strings[1]], [&strings[1], &strings[0]]] {
                let case = under(chain(&strings.map(String::as_str)));
                let number = format!("I36: {}, {}", strings[0], strings[1]);
                table.push(example(&number, case, bare(5)));
            }
        }
    }
    table.push(example("I37", under(chain(&["+"])), MATCH));
    table.push(example("I38", under(chain(&["-"])), broken(0, 0)));
    table
}

/// "With any dNSName subtree in a string, a dNSName that is no DNS-ID breaks it."
fn no_dns_ids() -> Vec<Example> {
    let mut table = Vec::new();
    for text in [
        "", "*", "*.b", "10.4.0.7", "a.b.", ".a.b", "x.*.a.b", "a*.a.b",
    ] {
        for (strings, verdict) in [
            (["+", "-_n"], broken(1, 0)),
            (["-q.r", "-_n"], broken(1, 0)),
            (["-_n", "+b"], broken(1, 1)),
            (["-_n", "+_m"], MATCH),
        ] {
            let name = dns_name(text.as_bytes());
            let case = Case {
                san: san(vec![dns_name(b"a.b"), name.clone()]).write(),
                ..under(chain(&strings))
            };
            let number = format!("I39: {text}, {strings:?}");
            table.push(example(&number, case.clone(), verdict));
            let alone = Case {
                san: san(vec![name]).write(),
                ..case
            };
            let verdict = match verdict {
                MATCH => bare(1),
                [answer, .., issuer] => [answer, 0, 0, 0, 0, issuer],
            };
            let number = format!("I40: {text}, {strings:?}");
            table.push(example(&number, alone, verdict));
        }
    }
    table
}

/// "A wildcard name lies in a subtree if the subtree's labels are its last
/// labels, the star taken as an ordinary label. It also breaks an excluded
/// subtree made of one label and then the text after `*.`".
fn wildcards() -> Vec<Example> {
    let kept = [0, 0, 0, 2, 7, 0];
    let strings = [
        ("I41", "+a.b", kept),
        ("I42", "+b", kept),
        ("I43", "+", kept),
        ("I44", "-y.x.a.b", kept),
        ("I45", "-xa.b", kept),
        ("I46", "+x.a.b", bare(2)),
        ("I47", "-X.A.B", bare(2)),
        ("I48", "-a.b", bare(2)),
        ("I49", "-b", bare(2)),
        ("I50", "-", bare(2)),
        ("I51", "-q.a.b", bare(2)),
        ("I52", "-x.a", kept),
        ("I53", "-a", kept),
        ("I54", "-a.b.c", kept),
        ("I55", "+A.B -c.b", kept),
        ("I56", "+x.a.b +b", kept),
    ];
    let line = |(number, subtrees, verdict)| {
        let case = Case {
            san: san(vec![dns_name(b"*.a.b")]).write(),
            references: record(DNS, b"", b"q.a.b"),
            ..under(chain(&[subtrees]))
        };
        example(number, case, verdict)
    };
    strings.map(line).into()
}

/// An example's number, strings, and the verdicts where the dNSName stands before
/// the SRVName and where it stands behind it.
type TwoOrders<'a> = (&'a str, &'a [&'a str], [u32; 6], [u32; 6]);

/// "lowest issuer first, then lowest name", of either form.
fn both_forms() -> Vec<Example> {
    let strings: [TwoOrders; 7] = [
        ("I57", &["+_n", "+c"], broken(1, 0), broken(0, 0)),
        ("I58", &["+_n +c"], broken(0, 0), broken(0, 0)),
        ("I59", &["+c", "+_n"], broken(0, 0), broken(1, 0)),
        ("I60", &["+_m +b", "-_m"], broken(1, 1), broken(0, 1)),
        ("I61", &["+_m +b", "-_n -a.b"], broken(0, 1), broken(1, 1)),
        (
            "I62",
            &["+_m", "+b", "-_n", "-c"],
            MATCH,
            [0, 0, 1, 22, 5, 0],
        ),
        ("I63", &["", "-_m.b -a.b"], broken(0, 1), broken(0, 1)),
    ];
    let mut table = Vec::new();
    for (number, strings, before, behind) in strings {
        let names = [dns_name(b"a.b"), srv_name(b"_m.b")];
        let [dns, srv] = names.clone();
        for (names, verdict) in [(names, before), ([srv, dns], behind)] {
            let case = Case {
                san: san(names.into()).write(),
                ..under(chain(strings))
            };
            table.push(example(number, case, verdict));
        }
    }
    table
}

/// "The CN stays free." So do URIs.
fn free_names() -> Vec<Example> {
    let no_san = Case {
        san: Vec::new(),
        references: record(CN, b"", b"a.b"),
        ..under(chain(&["-"]))
    };
    let uri = Case {
        san: san(vec![uri_name(b"h://a.b")]).write(),
        references: record(URI, b"h", b"a.b"),
        ..under(chain(&["-", "+c +_n"]))
    };
    let email = Case {
        san: san(vec![email(b"a.b")]).write(),
        subject: J.to_vec(),
        ..no_san.clone()
    };
    vec![
        example("I64", no_san, [0, 0, 0, 4, 12, 0]),
        example("I65", uri, [0, 0, 0, 2, 9, 0]),
        example("I66", email, [0, 0, 0, 4, 12, 0]),
    ]
}
