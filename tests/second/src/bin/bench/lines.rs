//! The lines of the tables: what the archive, the second program and the verdict
//! written for speed take for the same input.

use crate::measure::{least, timer};
use second::archive::{self, Inputs};
use second::best::verdict_from_c;
use second::generate::Case;
use second::{judge_from_c, Verdict};
use std::hint::black_box;

/// The ns of one verdict, and what the archive's are to the others'.
#[derive(Clone, Copy)]
pub struct Times {
    pub archive: f64,
    pub plain: f64,
    pub best: f64,
}

impl Times {
    pub fn to_plain(self) -> f64 {
        self.archive / self.plain
    }

    pub fn to_best(self) -> f64 {
        self.archive / self.best
    }
}

pub fn inputs(case: &Case) -> Inputs<'_> {
    Inputs {
        san: &case.san,
        subject: &case.subject,
        constraints: &case.constraints.bytes,
        lengths: &case.constraints.lengths,
        references: &case.references,
    }
}

/// One verdict by one of the two Rust programs, with all six numbers.
fn judged(judge: impl Fn(&[u8], &[u8], &[u8], &[u8], &[u8]) -> Verdict, case: &Case) -> Verdict {
    let Inputs {
        san,
        subject,
        constraints,
        lengths,
        references,
    } = black_box(inputs(case));
    black_box(judge(san, subject, constraints, lengths, references))
}

/// By the second program.
fn plain(case: &Case) -> Verdict {
    judged(|s, n, c, l, r| judge_from_c(s, n, c, l, r).verdict, case)
}

/// By the one that is written for speed.
fn best(case: &Case) -> Verdict {
    judged(verdict_from_c, case)
}

/// Measures the verdict of one case, which must be the same in all three.
pub fn times(what: &str, case: &Case) -> Times {
    let verdict = plain(case);
    let theirs = archive::judge_at_once(inputs(case)).verdict;
    assert_eq!(theirs, verdict, "{what}: different verdicts of the archive");
    assert_eq!(best(case), verdict, "{what}: different verdicts of best");
    let [archive, plain, best] = least([
        &timer(|| archive::answer(black_box(inputs(case)))),
        &timer(|| plain(case).answer),
        &timer(|| best(case).answer),
    ]);
    Times {
        archive,
        plain,
        best,
    }
}

/// The heading over lines of verdicts, each of which begins with `what`.
pub fn verdict_heading(what: &str) {
    println!(
        "{what:38}{:>12}{:>12}{:>12}{:>9}{:>9}",
        "archive", "plain", "best", "/plain", "/best"
    );
}

/// Prints the times of one verdict, in ns or in something longer.
pub fn verdict_line(what: &str, times: Times, ns: f64, digits: usize) {
    let [archive, plain, best] = [times.archive, times.plain, times.best].map(|time| time / ns);
    println!(
        "{what:38}{archive:12.digits$}{plain:12.digits$}{best:12.digits$}{:9.2}{:9.2}",
        times.to_plain(),
        times.to_best()
    );
}

/// The heading over lines of what the archive and the second program do.
pub fn heading(what: &str, one: &str, other: &str) {
    println!("{what:38}{one:>12}{other:>12}{:>9}", "ratio");
}

/// Measures two functions that must answer the same, and prints their line.
pub fn both(what: &str, one: impl Fn() -> u32, other: impl Fn() -> u32) {
    assert_eq!(one(), other(), "{what}: different answers");
    let [one, other] = least([&timer(one), &timer(other)]);
    println!("{what:38}{one:12.1}{other:12.1}{:9.2}", one / other);
}
