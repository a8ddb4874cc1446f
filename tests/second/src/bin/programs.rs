//! Compares the program `namecheck` with this implementation, on folders of
//! generated files.
//!
//! `programs PROGRAM --cases N --seed S` writes one folder after the other and
//! runs the program in it. Standard output and the exit status must be what
//! this implementation says. It ends with 1 at the first difference, or where
//! something that is to be shown never occurred.

use second::generate::{self, Case};
use second::{answer, list, program, Which};
use std::path::{Path, PathBuf};
use std::process::{Command, ExitCode, Output};
use std::{env, fs, io, process};

const FILES: [&str; 4] = ["san.der", "subject.der", "nc.der", "refs.rec"];

/// One folder in so many has a file that cannot be read.
const UNREADABLE_EVERY: u64 = 16;

fn main() -> ExitCode {
    let arguments: Vec<String> = env::args().skip(1).collect();
    let Some((program, cases, seed)) = parse(&arguments) else {
        eprintln!("usage: programs PROGRAM --cases N --seed S");
        return ExitCode::from(2);
    };
    match compare(&program, cases, seed) {
        Ok(()) => ExitCode::SUCCESS,
        Err(reason) => {
            println!("{reason}");
            ExitCode::FAILURE
        }
    }
}

fn parse(arguments: &[String]) -> Option<(PathBuf, u64, u64)> {
    match arguments {
        [program, cases_word, cases, seed_word, seed]
            if cases_word == "--cases" && seed_word == "--seed" =>
        {
            let program = fs::canonicalize(program).ok()?;
            Some((program, cases.parse().ok()?, seed.parse().ok()?))
        }
        _ => None,
    }
}

/// Runs the program on the cases of one seed.
fn compare(program: &Path, cases: u64, seed: u64) -> Result<(), String> {
    let mut tally = Tally::default();
    for number in 0..cases {
        let case = generate::case(seed, number);
        let unreadable = (number % UNREADABLE_EVERY == UNREADABLE_EVERY - 1)
            .then_some((number / UNREADABLE_EVERY % 4) as usize);
        let got = run(program, &case, number, unreadable)
            .map_err(|error| format!("seed {seed}, case {number}: {error}"))?;
        let wanted = wanted(&case, number, unreadable);
        if (got.stdout.as_slice(), got.status.code()) != (wanted.0.as_bytes(), Some(wanted.1)) {
            let stdout = String::from_utf8_lossy(&got.stdout);
            return Err(format!(
                "DIFFERENT: seed {seed}, case {number}, unreadable {unreadable:?}\n\
                 this    {wanted:?}\nprogram {stdout:?}, {}",
                got.status
            ));
        }
        tally.count(one_string(&case, number), unreadable, &wanted.0);
    }
    tally.print();
    println!("{cases} folders of seed {seed} alike");
    match tally.missing() {
        None => Ok(()),
        Some(missing) => Err(format!("never occurred: {missing}")),
    }
}

/// Writes a folder, runs the program in it, and removes it. An empty input is
/// an empty file in one folder, and a missing one in the next.
fn run(program: &Path, case: &Case, number: u64, unreadable: Option<usize>) -> io::Result<Output> {
    let folder = env::temp_dir().join(format!("programs-{}-{number}", process::id()));
    fs::create_dir(&folder)?;
    let inputs: [&[u8]; 4] = [
        &case.san,
        &case.subject,
        one_string(case, number),
        &case.references,
    ];
    for (index, (name, bytes)) in FILES.into_iter().zip(inputs).enumerate() {
        let path = folder.join(name);
        if unreadable == Some(index) {
            fs::create_dir(path)?;
        } else if !bytes.is_empty() || number.is_multiple_of(2) {
            fs::write(path, bytes)?;
        }
    }
    let output = Command::new(program).current_dir(&folder).output();
    fs::remove_dir_all(&folder)?;
    output
}

/// What standard output has to hold, and the exit status: nothing and 2 where
/// a file cannot be read, otherwise 0 for a match and 1 for the rest.
fn wanted(case: &Case, number: u64, unreadable: Option<usize>) -> (String, i32) {
    if unreadable.is_some() {
        return (String::new(), 2);
    }
    let constraints = one_string(case, number);
    let lines = program::output(&case.san, &case.subject, constraints, &case.references);
    let matched = lines.starts_with(&format!("{} ", answer::MATCH));
    (lines, i32::from(!matched))
}

/// What stands in `nc.der`: one of the constraint strings.
fn one_string(case: &Case, number: u64) -> &[u8] {
    let strings = case.constraints.strings();
    match strings.len() {
        0 => &[],
        count => strings[number as usize % count],
    }
}

/// How often each thing occurred.
struct Tally {
    counts: [(&'static str, u64); 12],
}

impl Default for Tally {
    fn default() -> Self {
        let names = [
            "answer 0",
            "answer 1",
            "answer 2",
            "answer 3",
            "answer 4",
            "answer 5",
            "answer 6",
            "answer 7",
            "readable nc.der",
            "rows written",
            "rows counted",
            "unreadable file",
        ];
        Tally {
            counts: names.map(|name| (name, 0)),
        }
    }
}

impl Tally {
    fn count(&mut self, constraints: &[u8], unreadable: Option<usize>, lines: &str) {
        if unreadable.is_some() {
            self.counts[11].1 += 1;
            return;
        }
        let answer = usize::from(lines.as_bytes()[0] - b'0');
        self.counts[answer].1 += 1;
        let readable = list(constraints, Which::Constraints).answer == answer::MATCH;
        self.counts[8].1 += u64::from(readable && !constraints.is_empty());
        let counted = lines.contains("rows");
        self.counts[9].1 += u64::from(lines.lines().count() > 1 && !counted);
        self.counts[10].1 += u64::from(counted);
    }

    fn print(&self) {
        for (name, count) in self.counts {
            println!("{name:24}{count:10}");
        }
    }

    /// What did not occur, if anything did not.
    fn missing(&self) -> Option<String> {
        let missing = self.counts.iter().filter(|(_, count)| *count == 0);
        let missing: Vec<&str> = missing.map(|(name, _)| *name).collect();
        (!missing.is_empty()).then(|| missing.join(", "))
    }
}
