//! Names held against the subtrees of eight issuers (request 6/13).

use crate::lines::{times, Times};
use crate::samples::{certificate, filled, form_name, names, shortest, subtrees, Form};
use second::generate::Chain;
use second::records::kind::{DNS, SRV};
use second::tree::*;
use second::{answer, longest, MOST_ISSUERS};

/// The time of holding 400 names against 40 subtrees of each of eight issuers.
/// Every subtree is looked at for every name: the last alone permits it, or none
/// that is excluded is broken.
pub fn issuers() {
    println!("\n400 names of 20 bytes, 40 subtrees of each of 8 issuers, ns");
    heading();
    for form in [DNS, SRV] {
        let names: Vec<Node> = names(form, 20).take(400).collect();
        for (what, permitted) in [("permitted by the last", true), ("excluded by none", false)] {
            let mut side: Vec<Node> = subtrees(form, 20).take(40).collect();
            if permitted {
                side[39] = subtree(general_name(form, b"kiosk.example"));
            }
            let string = match permitted {
                true => constraints(side, Vec::new()),
                false => constraints(Vec::new(), side),
            };
            line(&format!("{}, {what}", form_name(form)), &names, string, 40);
        }
    }
}

/// The time of the longest strings: a SAN full of names against eight strings
/// full of excluded subtrees, none of which is broken.
pub fn worst() {
    println!("\na SAN full of names, 8 strings full of excluded subtrees that none breaks, ns");
    heading();
    for form in [DNS, SRV] {
        for size in [shortest(form), 20, 253] {
            // Outer headers of four bytes: one of a SAN, two of constraints.
            let names = filled(names(form, size), longest::SAN - 4);
            let side = filled(subtrees(form, size), longest::CONSTRAINTS - 8);
            let what = format!("{} of {size} bytes", form_name(form));
            let count = side.len();
            line(&what, &names, constraints(Vec::new(), side), count);
        }
    }
}

fn heading() {
    println!(
        "{:48}{:>14}{:>14}{:>14}{:>8}{:>8}{:>11}{:>9}{:>7}{:>7}",
        "", "archive", "plain", "best", "/plain", "/best", "pairs", "archive", "plain", "best"
    );
    println!("{:117}{:>23}", "", "ns a pair");
}

/// Measures a verdict under the same string from eight issuers.
fn line(what: &str, names: &[Node], string: Node, subtrees: usize) {
    let asked = record(DNS, b"", &Form::Hosts.domain(5000));
    let mut case = certificate(names.to_vec(), vec![asked]);
    let string = string.write();
    assert!(string.len() <= longest::CONSTRAINTS, "{what}: too long");
    case.constraints = Chain::new(vec![string; MOST_ISSUERS]);
    let what = format!("{what}: {} x {subtrees} x 8", names.len());
    assert_eq!(
        case.judged().verdict.answer,
        answer::MISMATCH,
        "{what}: not every pair is looked at"
    );
    let pairs = names.len() * subtrees * MOST_ISSUERS;
    let all = times(&what, &case);
    let Times {
        archive,
        plain,
        best,
    } = all;
    let each = [archive, plain, best].map(|time| time / pairs as f64);
    println!(
        "{what:48}{archive:14.1}{plain:14.1}{best:14.1}{:8.2}{:8.2}{pairs:11}{:9.2}{:7.2}{:7.2}",
        all.to_plain(),
        all.to_best(),
        each[0],
        each[1],
        each[2]
    );
}
