//! Measures the time of one verdict on the same inputs in one run (request 7/13):
//! through the archive (*archive*), by the second program, which is written to be
//! read (*plain*), and by the verdict that is written for speed (*best*). Then what
//! else the archive does. It ends with 1 where one of the points that the request
//! names takes more than twice the time of *plain*, and stops where answers differ.
//!
//! One verdict is one call: `beckethand_answer` for the archive, all six numbers
//! for the other two.

#[path = "bench/constrained.rs"]
mod constrained;
#[path = "bench/lines.rs"]
mod lines;
#[path = "bench/measure.rs"]
mod measure;
#[path = "bench/others.rs"]
mod others;
#[path = "bench/samples.rs"]
mod samples;

use lines::{times, verdict_heading, verdict_line, Times};
use measure::{FEW_REPETITIONS, REPETITIONS, SLOW};
use samples::{form_name, full, sample, sized, Form, Hit};
use second::longest;
use second::records::kind::{CN, DNS, SRV, URI};
use std::process::ExitCode;

/// "We ask for no more than twice the Rust time at any point."
const MOST: f64 = 2.0;

/// Over the numbers of names and of references that begin a line.
const NAMES_REFERENCES: &str = "names  refs";

fn main() -> ExitCode {
    println!(
        "best of {REPETITIONS} repetitions, or of {FEW_REPETITIONS} where one takes over {} ms; \
         ns per verdict, and the archive's time divided by the others'",
        SLOW.as_millis()
    );
    let slow: Vec<String> = Form::ALL.into_iter().flat_map(points).collect();
    growth();
    constrained::issuers();
    worst();
    constrained::worst();
    others::at_once();
    others::paging();
    others::writing();
    others::labels();
    println!("\npoints over {MOST} times plain: {}", slow.len());
    for point in &slow {
        println!("{point}");
    }
    ExitCode::from(u8::from(!slow.is_empty()))
}

/// Measures "2, 40 and 400 names, 1 and 16 references, match first, last and
/// never", and answers the points that take too long.
fn points(form: Form) -> Vec<String> {
    println!("\n{}", form.title());
    verdict_heading(NAMES_REFERENCES);
    let mut all = Vec::new();
    let mut slow = Vec::new();
    for names in [2, 40, 400] {
        for references in [1, 16] {
            for hit in [Hit::First, Hit::Last, Hit::Never] {
                let what = format!("{names:5} {references:5} {hit:?}");
                let times = times(&what, &sample(names, references, hit, form));
                verdict_line(&what, times, 1.0, 1);
                all.push((references, times));
                if times.to_plain() > MOST {
                    slow.push(format!(
                        "{what:24} {:.2} {}",
                        times.to_plain(),
                        form.title()
                    ));
                }
            }
        }
    }
    for references in [1, 16] {
        let chosen = all.iter().filter(|(count, _)| *count == references);
        extremes(references, chosen.map(|(_, times)| *times));
    }
    slow
}

/// Prints the greatest and the least of both ratios.
fn extremes(references: usize, all: impl Iterator<Item = Times> + Clone) {
    let ratios = |of: fn(Times) -> f64| {
        let least = all.clone().map(of).fold(f64::MAX, f64::min);
        let greatest = all.clone().map(of).fold(0.0, f64::max);
        format!("{least:.2} to {greatest:.2}")
    };
    println!(
        "{references:11} refs: {} of plain, {} of best",
        ratios(Times::to_plain),
        ratios(Times::to_best)
    );
}

/// Measures SANs of a quarter of the longest one, of two, three and four.
fn growth() {
    println!("\ngrowth with the SAN's size: hosts, no match");
    verdict_heading(NAMES_REFERENCES);
    for quarters in 1..=4 {
        for references in [1, 16] {
            let size = longest::SAN * quarters / 4;
            let (names, case) = sized(size, references);
            let what = format!("{names:5} {references:5} {size} bytes");
            verdict_line(&what, times(&what, &case), 1.0, 1);
        }
    }
}

/// Measures 16 references of each kind for a SAN, or for CNs a subject, full of
/// names of that kind: hosts; the shortest dNSNames; and dNSNames that have the
/// references' first bytes.
fn worst() {
    println!("\n16 references of a kind, a SAN or subject full of names of that kind, ms");
    verdict_heading("");
    let line = |what: &str, case| verdict_line(what, times(what, &case), 1e6, 4);
    let host = |number: usize| Form::Hosts.domain(number % 5_000);
    let asked = |index: usize| Form::Hosts.domain(5_000 + index);
    for kind in [DNS, SRV, URI, CN] {
        line(form_name(kind), full(kind, host, asked));
    }
    line("dNSNames of no byte", full(DNS, |_| Vec::new(), asked));
    line("dNSNames of one byte", full(DNS, |_| b"a".to_vec(), asked));
    let alike = |number: usize| format!("desk.graz.branch.example.k{number:04}").into_bytes();
    let asked = |index: usize| alike(9_900 + index);
    line("dNSNames, last bytes differ", full(DNS, alike, asked));
}
