//! The generator gives enough of what request 6/13 decides: constraints of every
//! issuer, and dNSName subtrees.

use second::constraints::{self, Restrictions, EXCLUDED, PERMITTED};
use second::generate::{case, Case};
use second::name::kind::{DNS, SRV};
use second::name::Name;
use second::text::{dns_breaks, dns_lies_in, is_dns_id, is_dns_subtree};
use second::{answer, san, Outcome, MOST_ISSUERS};
use std::cmp::Ordering;

const CASES: u64 = 40_000;

/// One case, and what it is made of.
struct Told<'a> {
    case: &'a Case,
    outcome: Outcome,
    strings: Vec<&'a [u8]>,
    names: Vec<Name<'a>>,
    /// The dNSName subtrees of each string, as far as it can be read.
    subtrees: Vec<Vec<Name<'a>>>,
}

impl<'a> Told<'a> {
    fn new(case: &'a Case) -> Self {
        let strings = case.constraints.strings();
        let mut names = Vec::new();
        let _read = san::read(&case.san, |name| names.push(name));
        let subtrees = strings.iter().map(|string| {
            let mut subtrees = Vec::new();
            let _read = constraints::read(string, |subtree| subtrees.push(subtree));
            subtrees.retain(|subtree| subtree.row.kind == DNS);
            subtrees
        });
        Told {
            outcome: case.judged(),
            subtrees: subtrees.collect(),
            case,
            strings,
            names,
        }
    }

    fn answer(&self) -> u32 {
        self.outcome.verdict.answer
    }

    /// The issuer whose string is broken and the name that breaks it.
    fn broken(&self) -> Option<(usize, Name<'a>)> {
        let verdict = self.outcome.verdict;
        let presented = verdict.presented as usize;
        let is = verdict.answer == answer::CONSTRAINTS_BROKEN;
        is.then(|| (verdict.issuer as usize, self.names[presented]))
    }

    /// The broken string's dNSName subtrees and the dNSName that breaks it.
    fn broken_dns(&self) -> Option<(&[Name<'a>], &'a [u8])> {
        let (issuer, name) = self.broken().filter(|(_, name)| name.row.kind == DNS)?;
        Some((&self.subtrees[issuer], name.text))
    }

    /// Whether a DNS-ID breaks its string by excluded subtrees alone, all of which
    /// pass the test.
    fn broken_by(&self, test: fn(&[u8], &[u8]) -> bool) -> bool {
        self.broken_dns().is_some_and(|(subtrees, name)| {
            let breaking = subtrees
                .iter()
                .filter(|subtree| subtree.row.group == EXCLUDED && dns_breaks(name, subtree.text));
            let breaking: Vec<&Name> = breaking.collect();
            let all = breaking.iter().all(|subtree| test(name, subtree.text));
            is_dns_id(name) && !breaking.is_empty() && all
        })
    }

    /// Whether a dNSName that keeps all strings and a subtree of a side pass the
    /// test.
    fn kept_by(&self, side: usize, test: fn(&[u8], &[u8]) -> bool) -> bool {
        let subtrees = || self.subtrees.iter().flatten();
        let mut names = self.names.iter().filter(|name| name.row.kind == DNS);
        self.answer() <= answer::MISMATCH
            && names.any(|name| {
                let mut subtrees = subtrees().filter(|subtree| subtree.row.group == side);
                subtrees.any(|subtree| test(name.text, subtree.text))
            })
    }

    /// The number of lengths, whether their count of bytes is odd, and how their
    /// sum is to the bytes.
    fn lengths(&self) -> (usize, bool, Ordering) {
        let chain = &self.case.constraints;
        let pairs = chain.lengths.chunks_exact(2);
        let odd = !pairs.remainder().is_empty();
        let length = |pair: &[u8]| usize::from(u16::from_be_bytes([pair[0], pair[1]]));
        let sum: usize = pairs.clone().map(length).sum();
        (pairs.len(), odd, sum.cmp(&chain.bytes.len()))
    }

    /// Whether a lower name breaks the string of a later issuer.
    fn lower_name_later(&self) -> bool {
        self.broken().is_some_and(|(issuer, name)| {
            let later = self.strings[issuer + 1..].iter();
            let mut later = later.filter_map(|string| Restrictions::read(string));
            later.any(|string| {
                let first = string.first_broken(&self.case.san);
                first.is_some_and(|first| first < name.row.group)
            })
        })
    }
}

fn is_wildcard(name: &[u8]) -> bool {
    name.starts_with(b"*.")
}

/// A kind of case: what it is, how often it must be there, and how it is told.
type Kind = (&'static str, u32, fn(&Told) -> bool);

const KINDS: [Kind; 25] = [
    ("match under two strings or more", 500, |told| {
        told.answer() == answer::MATCH && told.strings.len() > 1
    }),
    ("match under eight strings", 50, |told| {
        told.answer() == answer::MATCH && told.strings.len() == MOST_ISSUERS
    }),
    ("one string", 10_000, |told| told.strings.len() == 1),
    ("an empty string before a broken one", 100, |told| {
        told.broken()
            .is_some_and(|(issuer, _)| told.strings[..issuer].contains(&&b""[..]))
    }),
    (
        "a name behind the first, an issuer behind the first",
        100,
        |told| {
            told.broken()
                .is_some_and(|(issuer, name)| issuer > 0 && name.row.group > 0)
        },
    ),
    (
        "a lower name breaks the string of a later issuer",
        50,
        |told| told.lower_name_later(),
    ),
    ("broken by a name that is no DNS-ID", 100, |told| {
        told.broken_dns().is_some_and(|(_, name)| !is_dns_id(name))
    }),
    (
        "broken by a wildcard, in no permitted subtree",
        30,
        |told| {
            told.broken_dns().is_some_and(|(subtrees, name)| {
                let mut subtrees = subtrees.iter();
                is_wildcard(name)
                    && is_dns_id(name)
                    && subtrees.all(|subtree| !dns_breaks(name, subtree.text))
            })
        },
    ),
    (
        "the same, one label and its rest are permitted",
        10,
        |told| {
            told.broken_dns().is_some_and(|(subtrees, name)| {
                let mut subtrees = subtrees.iter();
                subtrees.any(|subtree| {
                    subtree.row.group == PERMITTED
                        && dns_breaks(name, subtree.text)
                        && !dns_lies_in(name, subtree.text)
                })
            })
        },
    ),
    ("broken by one label and a wildcard's rest", 50, |told| {
        told.broken_by(|name, subtree| !dns_lies_in(name, subtree))
    }),
    ("broken by the empty text", 20, |told| {
        told.broken_by(|_, subtree| subtree.is_empty())
    }),
    ("broken by the same text", 50, |told| {
        told.broken_by(|name, subtree| name == subtree)
    }),
    ("broken by the same text in other letters", 50, |told| {
        told.broken_by(|name, subtree| name != subtree && name.len() == subtree.len())
    }),
    ("broken by a text of fewer labels", 50, |told| {
        told.broken_by(|name, subtree| !subtree.is_empty() && subtree.len() < name.len())
    }),
    (
        "kept, two labels and a wildcard's rest excluded",
        30,
        |told| {
            told.kept_by(EXCLUDED, |name, subtree| {
                is_wildcard(name)
                    && subtree.len() > name.len()
                    && subtree
                        .to_ascii_lowercase()
                        .ends_with(&name[1..].to_ascii_lowercase())
            })
        },
    ),
    ("kept, the same last bytes excluded", 20, |told| {
        told.kept_by(EXCLUDED, |name, subtree| {
            let (name, subtree) = (name.to_ascii_lowercase(), subtree.to_ascii_lowercase());
            !subtree.is_empty() && name.ends_with(&subtree)
        })
    }),
    ("kept, a subtree below a domain excluded", 50, |told| {
        told.kept_by(EXCLUDED, |name, subtree| {
            !is_wildcard(name) && subtree != name && dns_lies_in(subtree, name)
        })
    }),
    ("kept by the empty text", 100, |told| {
        told.kept_by(PERMITTED, |_, subtree| subtree.is_empty())
    }),
    ("a wildcard kept by its rest", 50, |told| {
        told.kept_by(PERMITTED, |name, subtree| {
            is_wildcard(name) && name[2..].eq_ignore_ascii_case(subtree)
        })
    }),
    ("5 by a dNSName restriction", 50, |told| {
        told.answer() == answer::CONSTRAINTS_UNREADABLE && unfit_restriction(told)
    }),
    ("7 by an odd count", 100, |told| {
        matches!(told.lengths(), (0..=8, true, _))
    }),
    ("7 by nine", 100, |told| {
        told.lengths() == (9, false, Ordering::Equal)
    }),
    ("7 by a small sum", 100, |told| {
        matches!(told.lengths(), (0..=8, false, Ordering::Less))
    }),
    ("7 by a great sum", 50, |told| {
        matches!(told.lengths(), (0..=8, false, Ordering::Greater))
    }),
    ("7 by one of several strings that is too long", 50, |told| {
        let longest = told.strings.iter().map(|string| string.len()).max();
        told.lengths().0 > 1 && longest.is_some_and(|longest| longest == 16_385)
    }),
];

/// Whether a string's only dNSName restriction is what makes it unreadable: it
/// is read with that text left out.
fn unfit_restriction(told: &Told) -> bool {
    let unread = |string: &&&[u8]| Restrictions::read(string).is_none();
    told.strings.iter().filter(unread).any(|string| {
        let mut unfit = false;
        let mut at = 0;
        while let Some(found) = string[at..].iter().position(|&byte| byte == 0x82) {
            at += found + 1;
            let length = string.get(at).map_or(0, |&length| usize::from(length));
            let text = string.get(at + 1..at + 1 + length).unwrap_or_default();
            unfit |= length < 128 && !is_dns_subtree(text);
        }
        unfit
    })
}

#[test]
fn the_chains_of_request_6_are_tried() {
    let mut counts = [0; KINDS.len()];
    let mut issuers = [[0; MOST_ISSUERS]; 2];
    for number in 0..CASES {
        let case = case(7, number);
        let told = Told::new(&case);
        for (count, (_, _, is)) in counts.iter_mut().zip(KINDS) {
            *count += u32::from(is(&told));
        }
        if let Some((issuer, name)) = told.broken() {
            issuers[usize::from(name.row.kind == SRV)][issuer] += 1;
        }
    }
    for (count, (what, least, _)) in counts.into_iter().zip(KINDS) {
        assert!(count >= least, "{what}: {count} of {CASES}");
    }
    let enough = issuers.iter().flatten().all(|&count: &u32| count >= 10);
    assert!(enough, "dNSNames and SRVNames by issuer: {issuers:?}");
}
