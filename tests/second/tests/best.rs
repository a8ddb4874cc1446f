//! The verdict that is written for speed gives the numbers of the one that is
//! written to be read: on the desk examples, on the boundary table and on
//! generated cases.

use second::best::verdict_from_c;
use second::generate::{boundary, case, Case};
use second::{answer, examples};

const CASES: u64 = 60_000;
const SEED: u64 = 13;

/// The numbers of both, which must be the same, and then the answer.
fn compare(what: &str, case: &Case) -> usize {
    let Case {
        san,
        subject,
        constraints,
        references,
    } = case;
    let (bytes, lengths) = (&constraints.bytes, &constraints.lengths);
    let fast = verdict_from_c(san, subject, bytes, lengths, references);
    let plain = case.judged().verdict;
    assert_eq!(fast.numbers(), plain.numbers(), "{what}: {case:02X?}");
    plain.answer as usize
}

#[test]
fn the_same_on_the_desk_examples() {
    for example in examples::table() {
        compare(&example.number, &example.case);
    }
}

#[test]
fn the_same_on_the_boundary_table() {
    boundary::each(&mut |(what, case)| {
        compare(&what, &case);
    });
}

#[test]
fn the_same_on_generated_cases() {
    let mut answers = [0; answer::TOO_LONG as usize + 1];
    for number in 0..CASES {
        let answer = compare(&format!("case {number}"), &case(SEED, number));
        answers[answer] += 1;
    }
    let least = CASES / 100;
    assert!(answers.iter().all(|&count| count >= least), "{answers:?}");
}
