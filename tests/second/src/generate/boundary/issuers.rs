//! Request 6/13: constraint strings of several issuers. How many there are, how
//! long each is, what their lengths say, and which of them is broken by which
//! name.

use super::{base, permitted, put, Case, Chain, Taker};
use crate::examples::issuers::{chain, string};
use crate::generate::draft::padded_constraints;
use crate::records::kind::{CN, DNS, SRV};
use crate::tree::*;
use crate::{longest, MOST_ISSUERS};

/// Hands over the lines about issuers.
pub fn each(take: Taker) {
    counts(take);
    sums(take);
    borders(take);
    two_bytes(take);
    limits(take);
    several_names(take);
    one_of_eight(take);
    two_of_eight(take);
    long_strings(take);
    one_by_one(take);
    order(take);
}

/// The base case under these constraints.
fn under(constraints: Chain) -> Case {
    Case {
        constraints,
        ..base()
    }
}

/// "Take 0 to 8 constraint strings [...]; a ninth [...] is 7": all empty, all
/// kept, and the last one broken; with records that are refused too.
fn counts(take: Taker) {
    const COUNTS: [usize; 21] = [
        0, 1, 2, 3, 4, 5, 6, 7, 8, 9, 10, 15, 16, 17, 31, 127, 128, 129, 255, 256, 257,
    ];
    for count in COUNTS {
        for (strings, last) in [("", ""), ("+b", "+b"), ("", "+c"), ("-c", "-b"), ("+b", "")] {
            let mut strings = vec![strings; count];
            if let Some(place) = strings.last_mut() {
                *place = last;
            }
            let case = under(chain(&strings));
            take((format!("{count} strings"), case.clone()));
            let refused = Case {
                references: Vec::new(),
                ..case
            };
            take((format!("{count} strings, no records"), refused));
        }
    }
}

/// Chains whose lengths are spoilt: each of them one more or less, 256 more or
/// less, in the other order of bytes; one length more or less, one byte more or
/// less, at either end; and a byte more or less of the strings.
fn sums(take: Taker) {
    for count in 0..=MOST_ISSUERS + 1 {
        for strings in [vec!["+b"; count], vec![""; count], alternating(count)] {
            let good = chain(&strings);
            for lengths in spoilt(&good.lengths) {
                let chain = Chain {
                    lengths,
                    bytes: good.bytes.clone(),
                };
                take((format!("{count} strings, lengths spoilt"), under(chain)));
            }
            let mut longer = good.clone();
            longer.bytes.push(0);
            take((format!("{count} strings and a byte"), under(longer)));
            let mut shorter = good;
            if shorter.bytes.pop().is_some() {
                take((format!("{count} strings less a byte"), under(shorter)));
            }
        }
    }
}

/// Empty strings and others by turns.
fn alternating(count: usize) -> Vec<&'static str> {
    let both = ["", "-q.r"];
    both.into_iter().cycle().take(count).collect()
}

/// What is made of the bytes of lengths.
fn spoilt(lengths: &[u8]) -> Vec<Vec<u8>> {
    let mut all = vec![
        Vec::new(),
        [lengths, &[0]].concat(),
        [&[0], lengths].concat(),
    ];
    for more in [[0, 0], [0, 1], [1, 0], [0xFF, 0xFF]] {
        all.push([lengths, &more].concat());
        all.push([&more, lengths].concat());
    }
    // The right sum, less what 16 bits hold.
    for more in [[0x40, 0].repeat(4), [0x20, 0].repeat(8)] {
        all.push([lengths, &more].concat());
        all.push([&more, lengths].concat());
        all.push(more);
    }
    for end in [1, 2, 3] {
        if let Some(left) = lengths.len().checked_sub(end) {
            all.push(lengths[..left].to_vec());
            all.push(lengths[end..].to_vec());
        }
    }
    for place in 0..lengths.len() {
        for by in [1, 255] {
            let mut changed = lengths.to_vec();
            changed[place] = changed[place].wrapping_add(by);
            all.push(changed);
        }
    }
    let swapped = lengths
        .chunks(2)
        .flat_map(|pair| pair.iter().rev().copied());
    all.push(swapped.collect());
    all
}

/// Three strings, of which the second decides, cut at every place: only one cut
/// is good, and each has the right sum.
fn borders(take: Taker) {
    for subtrees in ["+b", "-b"] {
        let good = chain(&["-q", subtrees, "-r"]);
        let all = good.bytes.len();
        for first in 0..=all {
            for second in first..=all {
                let lengths = [first, second - first, all - second];
                let lengths = lengths.map(|length| (length as u16).to_be_bytes()).concat();
                let chain = Chain {
                    lengths,
                    bytes: good.bytes.clone(),
                };
                take((format!("cut at {first} and {second}"), under(chain)));
            }
        }
    }
}

/// Strings of exactly so many bytes, before one that is broken and one that is
/// not: lengths on both sides of what one byte holds, and with either byte zero.
fn two_bytes(take: Taker) {
    // No element has 259 bytes.
    const SIZES: [usize; 19] = [
        16, 17, 127, 128, 129, 254, 255, 256, 257, 258, 511, 512, 513, 768, 1023, 1024, 4095, 4096,
        4097,
    ];
    for size in SIZES {
        let long = sized(size);
        for behind in ["+b", "+c", ""] {
            for place in 0..3 {
                let mut strings = vec![string(behind); 2];
                strings.insert(place, long.clone());
                let good = Chain::new(&strings);
                take((format!("string of {size} at {place}"), under(good.clone())));
                let mut low_first = good.clone();
                low_first.lengths.chunks_mut(2).for_each(<[u8]>::reverse);
                take((
                    format!("string of {size}, low byte first"),
                    under(low_first),
                ));
                let mut one_byte = good;
                one_byte.lengths[2 * place] = 0;
                take((format!("string of {size}, no high byte"), under(one_byte)));
            }
        }
    }
}

/// A string of this many bytes that every name keeps.
fn sized(size: usize) -> Vec<u8> {
    let of = |content: usize| permitted(ip_address(&vec![0x5A; content]));
    let mut contents = 0..size;
    let content = contents.find(|&content| of(content).len() == size);
    of(content.expect("a size that an element has"))
}

/// "each keeps its own length limit": a string next to the limit at each place
/// among empty ones, among short ones and among others at the limit.
fn limits(take: Taker) {
    let most = longest::CONSTRAINTS;
    let long: Vec<Vec<u8>> = (most - 1..=most + 2)
        .map(|size| padded_constraints(size).write())
        .collect();
    for count in [1, 2, 3, 8] {
        for place in 0..count {
            for one in &long {
                for others in [Vec::new(), string("+b"), long[1].clone()] {
                    let mut strings = vec![others; count];
                    strings[place] = one.clone();
                    let what = format!("string of {} at {place} of {count}", one.len());
                    take((what, under(Chain::new(&strings))));
                }
            }
        }
    }
    // The same with bytes that no string has: 7 comes first.
    for count in 1..=MOST_ISSUERS + 1 {
        for size in [most, most + 1, 32_768, 65_535] {
            let mut strings = vec![vec![0x30]; count];
            strings[count - 1] = vec![0x30; size];
            take((
                format!("{size} bytes as the last of {count}"),
                under(Chain::new(&strings)),
            ));
        }
    }
}

/// Names of both forms, three in any order, under three issuers each of which is
/// broken by any of them: "lowest issuer first, then lowest name".
fn several_names(take: Taker) {
    let names = [dns_name(b"a.b"), srv_name(b"_m.c"), dns_name(b"*.d.e")];
    let breaks = ["-a.b", "-_m", "-x.d.e"];
    let orders = [[0, 1, 2], [1, 0, 2], [2, 1, 0]];
    for broken in 0..512_usize {
        let subtrees = |issuer: usize| {
            let bits = broken >> (3 * issuer) & 7;
            let broken = (0..3).filter(|name| bits >> name & 1 == 1);
            let texts: Vec<&str> = broken.map(|name| breaks[name]).collect();
            texts.join(" ")
        };
        let strings = [0, 1, 2].map(subtrees);
        let strings = strings.each_ref().map(String::as_str);
        for order in orders {
            let case = Case {
                san: san(order.map(|name| names[name].clone()).into()).write(),
                ..under(chain(&strings))
            };
            take((format!("broken {broken:09b}"), case));
        }
    }
}

/// One of up to eight issuers whose string is broken, by one of four names.
fn one_of_eight(take: Taker) {
    let texts = ["a.b", "_m.b", "*.c.d", "_n.a.c"];
    let entries = |texts: [&str; 4]| {
        let entry = |text: &str| match text.starts_with('_') {
            true => srv_name(text.as_bytes()),
            false => dns_name(text.as_bytes()),
        };
        san(texts.map(entry).into()).write()
    };
    for count in 1..=MOST_ISSUERS {
        for issuer in 0..count {
            for (place, text) in texts.iter().enumerate() {
                let text = text.trim_start_matches("*.");
                for good in ["", "+b +c.d", "-q -_q"] {
                    let excluded = format!("-{text}");
                    let mut strings = vec![good; count];
                    strings[issuer] = &excluded;
                    let case = Case {
                        san: entries(texts),
                        ..under(chain(&strings))
                    };
                    take((format!("issuer {issuer} of {count}, name {place}"), case));
                }
            }
        }
    }
}

/// Two of eight issuers whose strings are broken, each by another name, or one of
/// them unreadable.
fn two_of_eight(take: Taker) {
    for first in 0..MOST_ISSUERS {
        for second in 0..MOST_ISSUERS {
            for (one, other) in [("-a.b", "-_m"), ("-_m", "-a.b"), ("-b", "-b"), ("-b", "+7")] {
                let mut strings = [""; MOST_ISSUERS];
                strings[first] = one;
                strings[second] = other;
                let case = Case {
                    san: san(vec![dns_name(b"a.b"), srv_name(b"_m.b")]).write(),
                    ..under(chain(&strings))
                };
                take((format!("issuers {first} and {second}"), case));
            }
        }
    }
}

/// Long strings in which the last subtree decides, at each issuer; the others'
/// are empty, or as long and kept.
fn long_strings(take: Taker) {
    for size in [200, 300, 1_000, 5_000, 16_200] {
        let idle = vec![subtree(dns_name(b"idle.z")); size / 10];
        let deciding = |text: &[u8], excluded: bool| {
            let mut side = idle.clone();
            side.push(subtree(dns_name(text)));
            match excluded {
                false => constraints(side, Vec::new()).write(),
                true => constraints(Vec::new(), side).write(),
            }
        };
        let kept = deciding(b"b", false);
        for issuer in 0..MOST_ISSUERS {
            for (text, excluded) in [(b"c", false), (b"b", true), (b"c", true)] {
                for others in [Vec::new(), kept.clone()] {
                    let mut strings = vec![others; MOST_ISSUERS];
                    strings[issuer] = deciding(text, excluded);
                    let what =
                        format!("string of {} bytes, issuer {issuer}", strings[issuer].len());
                    take((what, under(Chain::new(&strings))));
                }
            }
        }
    }
}

/// Strings that hold one by one, but would not as one, and the other way round:
/// sides, forms and permitted subtrees are those of each string alone.
fn one_by_one(take: Taker) {
    const STRINGS: [&str; 14] = [
        "", "+a.b", "+b", "+c", "-a.b", "-c", "+_m", "+_n", "-_m", "-_n", "+a.b +c", "+b -c",
        "+_m +a.b", "+",
    ];
    const NAMES: [&[&str]; 6] = [
        &["a.b"],
        &["_m.b"],
        &["a.b", "_m.b"],
        &["a.b", "c"],
        &["*"],
        &[],
    ];
    for names in NAMES {
        let entry = |text: &&str| match text.starts_with('_') {
            true => srv_name(text.as_bytes()),
            false => dns_name(text.as_bytes()),
        };
        let mut entries: Vec<Node> = names.iter().map(entry).collect();
        entries.push(email(b"e"));
        for one in STRINGS {
            for other in STRINGS {
                let mut case = Case {
                    san: san(entries.clone()).write(),
                    ..under(chain(&[one, other]))
                };
                let records = [record(DNS, b"", b"a.b"), record(SRV, b"m", b"b.c")];
                case.references = [records.concat(), record(CN, b"", b"a.b")].concat();
                take((format!("{names:?} under {one} and {other}"), case));
            }
        }
    }
}

/// "7 for any of the four inputs, then 6, 3, 4, 5, 2": each with each other, with
/// the reasons for 7, 5 and 2 at each issuer.
fn order(take: Taker) {
    for bad in 0..64_usize {
        for issuer in 0..4 {
            let mut strings = vec![string("+b"); 4];
            if bad & 1 != 0 {
                strings[issuer] = string("-a.b");
            }
            if bad & 2 != 0 {
                strings[3 - issuer] = string("+.b");
            }
            let mut case = under(Chain::new(&strings));
            for (bit, input) in [(4, 1), (8, 0), (16, 3)] {
                if bad & bit != 0 {
                    put(&mut case, input, vec![0x30; 2]);
                }
            }
            if bad & 32 != 0 {
                for lengths in spoilt(&case.constraints.lengths).into_iter().step_by(5) {
                    let mut worse = case.clone();
                    worse.constraints.lengths = lengths;
                    take((format!("refusals {bad:06b}, lengths spoilt"), worse));
                }
            }
            take((format!("refusals {bad:06b}, issuer {issuer}"), case));
        }
    }
}
