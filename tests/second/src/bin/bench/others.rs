//! What else is measured: all numbers by one call, paging, writing, and comparing
//! labels. These have no form written for speed.

use crate::lines::{both, heading, inputs};
use crate::samples::{sample, service, subtrees, text, Form, Hit};
use second::archive;
use second::generate::{Chain, Job};
use second::records::kind::DNS;
use second::text::{same_text, LONGEST_LABEL};
use second::tree::constraints;
use second::{answer, Outcome, Viewer, Which, Writer, MOST_ISSUERS};
use std::cell::RefCell;
use std::hint::black_box;

/// The time of all numbers of a verdict: by the eight calls for one number each,
/// and by `beckethand_verdict`.
pub fn at_once() {
    println!("\nall numbers of a verdict through the archive, ns");
    heading("", "eight calls", "one call");
    let plain = sample(40, 16, Hit::Last, Form::Hosts);
    let mut issued = plain.clone();
    let side = subtrees(DNS, 20).take(40).collect();
    let string = constraints(Vec::new(), side).write();
    issued.constraints = Chain::new(vec![string; MOST_ISSUERS]);
    for (what, case) in [
        ("40 names, 16 refs", plain),
        ("the same, 8 x 40 subtrees", issued),
    ] {
        let eight = || archive::judge(black_box(inputs(&case)));
        let one = || archive::judge_at_once(black_box(inputs(&case)));
        assert_eq!(eight(), one(), "{what}");
        assert_eq!(one().verdict.answer, answer::MATCH, "{what}");
        let answer = |outcome: Outcome| black_box(outcome).verdict.answer;
        both(what, || answer(eight()), || answer(one()));
    }
}

/// The time of paging through a SAN.
pub fn paging() {
    println!("\npaging through a SAN of dNSNames to its end, ns in all");
    heading("names", "archive", "plain");
    for names in [2, 40, 400] {
        let san = sample(names, 1, Hit::Never, Form::Hosts).san;
        let theirs = || {
            page_through(|at| {
                let sight = archive::view(black_box(&san), 0, at);
                (sight.shown == 1).then_some(sight.at)
            })
        };
        let ours = || {
            page_through(|at| {
                let mut viewer = Viewer::at(black_box(&san), Which::San, at);
                viewer.step().map(|_| viewer.position())
            })
        };
        both(&format!("{names:5}"), theirs, ours);
    }
}

/// The rows that are shown step by step from position 0.
fn page_through(step: impl Fn(usize) -> Option<usize>) -> u32 {
    let (mut rows, mut at) = (0, 0);
    while let Some(next) = step(at) {
        (rows, at) = (rows + 1, next);
    }
    rows
}

/// The time of writing a SAN and of writing records.
pub fn writing() {
    println!("\nwriting dNSNames, SRVNames and URIs, or 16 records of them, ns in all");
    heading("", "archive", "plain");
    let name = |index: usize| (Form::Mixed.kind(index), Form::Mixed.domain(index));
    for names in [3, 400] {
        let mut job = Job::new(Writer::San);
        for (kind, domain) in (0..names).map(name) {
            job.push(kind, &[&text(kind, &domain)]);
        }
        write_line(&format!("{names} names"), &job);
    }
    let mut job = Job::new(Writer::Records);
    for (kind, domain) in (0..16).map(name) {
        job.push(kind, &[service(kind), &domain]);
    }
    write_line("16 records", &job);
}

/// Measures how long a list takes to be written.
fn write_line(what: &str, job: &Job) {
    let lent = || RefCell::new(vec![0; job.writer.longest()]);
    let (their_buffer, our_buffer) = (lent(), lent());
    let theirs = || {
        let buffer = &mut their_buffer.borrow_mut();
        archive::write(job.writer, buffer, black_box(job.lists())).length as u32
    };
    let ours = || {
        let buffer = &mut our_buffer.borrow_mut();
        job.writer.write(buffer, black_box(job.lists())).length as u32
    };
    assert_ne!(ours(), 0, "{what}: refused");
    both(what, theirs, ours);
}

/// The time of comparing two labels, of as many bytes as a label may have.
pub fn labels() {
    println!("\ncomparing two labels of 63 letters without case, ns");
    heading("", "archive", "plain");
    let label: Vec<u8> = (b'a'..=b'z').cycle().take(LONGEST_LABEL).collect();
    let other_letter = |at: usize| {
        let mut other = label.clone();
        other[at] = b'q';
        other
    };
    for (what, other) in [
        ("equal", label.clone()),
        ("first letters differ", other_letter(0)),
        ("every letter's case", label.to_ascii_uppercase()),
        ("last letters differ", other_letter(LONGEST_LABEL - 1)),
    ] {
        let theirs = || archive::same_text(black_box(&label), black_box(&other));
        let ours = || u32::from(same_text(black_box(&label), black_box(&other)));
        both(what, theirs, ours);
    }
}
