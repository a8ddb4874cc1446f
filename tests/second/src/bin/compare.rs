//! Compares this implementation with the archive of the other one.
//!
//! `compare --cases N --seed S` runs the desk examples, the boundary tables and
//! N generated cases, and ends with 1 if an answer, a kind of match, a form or an
//! issuer with answer 2, a reason of lengths for answer 7, something that a viewer
//! shows, an answer of a writer or one about two texts never occurred. With `--first K` it runs the N cases from number K on and nothing
//! else. `compare --soak` runs cases under fresh seeds until it is stopped. All
//! end with 1 at the first difference.

#[path = "compare/texts.rs"]
mod texts;
#[path = "compare/writers.rs"]
mod writers;

use second::archive::{self, CListed, CSight, Inputs};
use second::generate::positions::{pages, positions};
use second::generate::{self, boundary, lists, Case, Chain, Random};
use second::name::kind as row_kind;
use second::records::RECORD;
use second::{examples, judge_from_c, list, record, Outcome, Row, Viewer, Which, MOST_ISSUERS};
use std::cmp::Ordering;
use std::ops::Range;
use std::process::ExitCode;
use std::time::{Instant, SystemTime, UNIX_EPOCH};
use std::{env, fmt};

/// Cases under one seed of a soak.
const SOAK_ROUND: u64 = 100_000;

/// Indexes past the last record; all but one are 0 in fewer bits.
const FAR_INDEXES: [usize; 4] = [1 << 8, 1 << 16, 1 << 32, usize::MAX];

/// Steps of a paging behind the last row: the end, and two further.
const ENDS: usize = 3;

fn main() -> ExitCode {
    let arguments: Vec<String> = env::args().skip(1).collect();
    let Some(run) = Run::parse(&arguments) else {
        eprintln!("usage: compare --cases N --seed S [--first K] | compare --soak");
        return ExitCode::from(2);
    };
    let result = match run {
        Run::Fixed { cases, seed } => fixed(cases, seed),
        Run::Again { cases, seed, first } => {
            generated(cases, seed, first).map(|tally| tally.print())
        }
        Run::Soak => soak(),
    };
    match result {
        Ok(()) => ExitCode::SUCCESS,
        Err(reason) => {
            println!("{reason}");
            ExitCode::FAILURE
        }
    }
}

/// What the arguments ask for.
enum Run {
    Fixed { cases: u64, seed: u64 },
    Again { cases: u64, seed: u64, first: u64 },
    Soak,
}

impl Run {
    fn parse(arguments: &[String]) -> Option<Self> {
        if arguments == ["--soak"] {
            return Some(Run::Soak);
        }
        let (mut cases, mut seed, mut first) = (None, None, None);
        for pair in arguments.chunks(2) {
            let [name, value] = pair else { return None };
            let number = match name.as_str() {
                "--cases" => &mut cases,
                "--seed" => &mut seed,
                "--first" => &mut first,
                _ => return None,
            };
            *number = Some(value.parse().ok()?);
        }
        let (cases, seed) = (cases?, seed?);
        Some(match first {
            None => Run::Fixed { cases, seed },
            Some(first) => Run::Again { cases, seed, first },
        })
    }
}

/// The examples, the boundary tables and the generated cases of one seed.
fn fixed(cases: u64, seed: u64) -> Result<(), String> {
    let started = Instant::now();
    tables()?;
    writer_table()?;
    text_table()?;
    let tally = generated(cases, seed, 0)?;
    tally.print();
    let seconds = started.elapsed().as_secs_f64();
    println!("{cases} cases of seed {seed} alike, {seconds:.1} s in all");
    match tally.missing() {
        None => Ok(()),
        Some(missing) => Err(format!("never occurred: {missing}")),
    }
}

/// The desk examples and the boundary table.
fn tables() -> Result<(), String> {
    let mut tally = Tally::default();
    let mut old = Old::new(0, 0);
    for example in examples::table() {
        compare(&example.case, &mut old, &mut tally)
            .map_err(|difference| format!("example {}\n{difference}", example.number))?;
    }
    let mut lines = 0;
    let mut result = Ok(());
    boundary::each(&mut |(what, case)| {
        if result.is_ok() {
            result = compare(&case, &mut old, &mut tally)
                .map_err(|difference| format!("boundary line {lines}: {what}\n{difference}"));
            lines += 1;
        }
    });
    println!(
        "{} desk examples and {lines} boundary lines",
        examples::table().len()
    );
    result
}

/// The boundary table of the writers.
fn writer_table() -> Result<(), String> {
    let mut tally = writers::Tally::default();
    let mut old_bytes = Old::new(0, 1).bytes;
    let mut lines = 0;
    let mut result = Ok(());
    boundary::writers::each(&mut |(what, job)| {
        if result.is_ok() {
            result = writers::compare_job(job, &mut old_bytes, &mut tally)
                .map_err(|difference| format!("writers' line {lines}: {what}\n{difference}"));
            lines += 1;
        }
    });
    println!("{lines} boundary lines of writers");
    result
}

/// The table of pairs of texts.
fn text_table() -> Result<(), String> {
    let mut tally = texts::Tally::default();
    let result = texts::compare_table(&mut tally);
    println!("{} pairs of texts", tally.count());
    result
}

/// The generated cases of one seed.
fn generated(cases: u64, seed: u64, first: u64) -> Result<Tally, String> {
    let mut tally = Tally::default();
    for number in first..first.saturating_add(cases) {
        let case = generate::case(seed, number);
        let mut old = Old::new(!seed, number);
        let mut result = compare(&case, &mut old, &mut tally);
        for job in lists::jobs(seed, number) {
            let writers = &mut tally.writers;
            result = result.and_then(|()| writers::compare_job(job, &mut old.bytes, writers));
        }
        result = result.and_then(|()| texts::compare_pairs(seed, number, &mut tally.texts));
        result.map_err(|difference| format!("seed {seed}, case {number}\n{difference}"))?;
    }
    Ok(tally)
}

/// Rounds under seeds from the clock, until a difference or the end of the
/// process.
fn soak() -> Result<(), String> {
    loop {
        let now = SystemTime::now().duration_since(UNIX_EPOCH);
        let seed = now.unwrap_or_default().as_nanos() as u64;
        println!("seed {seed}, {SOAK_ROUND} cases");
        generated(SOAK_ROUND, seed, 0)?;
    }
}

/// One case whose inputs lie in allocations of exactly their size.
struct Exact {
    inputs: [Box<[u8]>; 5],
    /// One of the constraint strings, to be listed and viewed.
    string: Box<[u8]>,
}

impl Exact {
    fn new(case: &Case, random: &mut Random) -> Self {
        let inputs = [
            &case.san,
            &case.subject,
            &case.constraints.bytes,
            &case.constraints.lengths,
            &case.references,
        ];
        Exact {
            inputs: inputs.map(|input| input.as_slice().into()),
            string: one_string(&case.constraints, random).into(),
        }
    }

    fn inputs(&self) -> Inputs<'_> {
        let [san, subject, constraints, lengths, references] = &self.inputs;
        Inputs {
            san,
            subject,
            constraints,
            lengths,
            references,
        }
    }
}

/// Listing and viewer take one string: one of several, and now and then all of
/// them as one.
fn one_string<'a>(chain: &'a Chain, random: &mut Random) -> &'a [u8] {
    let strings = chain.strings();
    match strings.len() {
        0 => &chain.bytes,
        1 => strings[0],
        _ if random.one_in(8) => &chain.bytes,
        count => strings[random.below(count)],
    }
}

/// What stood before in the tables and buffers that are lent, and how long these
/// are: one stream for writers, and one for the rest.
struct Old {
    rows: Random,
    bytes: Random,
}

/// Keeps the two streams apart.
const BYTES: u64 = 0x4279_7465;

impl Old {
    fn new(seed: u64, number: u64) -> Self {
        Old {
            rows: Random::new(seed, number),
            bytes: Random::new(seed ^ BYTES, number),
        }
    }
}

/// Compares everything that both implementations tell of one case, and what they
/// write of it.
fn compare(case: &Case, old: &mut Old, tally: &mut Tally) -> Result<(), String> {
    compare_readers(case, &mut old.rows, tally)?;
    writers::compare_case(case, &mut old.bytes, &mut tally.writers)
}

/// Compares what both implementations read.
fn compare_readers(case: &Case, old_rows: &mut Random, tally: &mut Tally) -> Result<(), String> {
    let exact = Exact::new(case, old_rows);
    let inputs = exact.inputs();
    let ours = judge_from_c(
        inputs.san,
        inputs.subject,
        inputs.constraints,
        inputs.lengths,
        inputs.references,
    );
    equal("verdict", inputs, &ours, &archive::judge(inputs))?;
    let at_once = archive::judge_at_once(inputs);
    equal("verdict by one call", inputs, &ours, &at_once)?;
    tally.count_verdict(case, &ours);
    let strings = [inputs.san, inputs.subject, &exact.string];
    for (which, bytes) in Which::ALL.into_iter().zip(strings) {
        compare_listing(inputs, bytes, which, old_rows, tally)?;
        compare_viewers(inputs, bytes, which, old_rows, tally)?;
    }
    let far = *old_rows.pick(&FAR_INDEXES);
    for index in (0..inputs.references.len() / RECORD + 2).chain([far]) {
        let ours = record(inputs.references, index);
        equal(
            format_args!("record {index}"),
            inputs,
            &ours,
            &archive::record(inputs.references, index),
        )?;
    }
    Ok(())
}

/// Lists one string into tables of several lengths.
fn compare_listing(
    inputs: Inputs,
    bytes: &[u8],
    which: Which,
    old_rows: &mut Random,
    tally: &mut Tally,
) -> Result<(), String> {
    let count = list(bytes, which).rows.len();
    for lent in lengths(count, old_rows) {
        let old: Box<[Row]> = (0..lent).map(|_| old_row(old_rows)).collect();
        let (mut our_table, mut their_table) = (old.clone(), old);
        let listed = second::list_into(&mut our_table, bytes, which);
        tally.answers[listed.answer as usize] +=
            u64::from(listed.answer == second::answer::TABLE_TOO_SHORT);
        let ours = CListed {
            answer: listed.answer as usize,
            count: listed.count,
        };
        let theirs = archive::list_into(&mut their_table, bytes, number(which, old_rows));
        let what = format!("listing of {which:?} with {lent} rows lent");
        equal(&what, inputs, &ours, &theirs)?;
        equal(
            format_args!("{what}, table after it"),
            inputs,
            &our_table,
            &their_table,
        )?;
    }
    Ok(())
}

/// Opens viewers of one string, views it from many positions, and pages
/// through it.
fn compare_viewers(
    inputs: Inputs,
    bytes: &[u8],
    which: Which,
    random: &mut Random,
    tally: &mut Tally,
) -> Result<(), String> {
    let string = Viewed {
        inputs,
        bytes,
        which,
        number: number(which, random),
    };
    let tally = &mut tally.viewers[which as usize];
    string.compare_openings(tally)?;
    let rows = string.listed();
    for at in positions(random, bytes.len(), &rows) {
        string.compare_steps(&mut Viewer::at(bytes, which, at), tally)?;
    }
    for pages in pages(random, bytes.len(), rows.len()) {
        string.compare_pages(&rows, pages, tally)?;
    }
    Ok(())
}

/// One string that both viewers are given.
struct Viewed<'a> {
    inputs: Inputs<'a>,
    bytes: &'a [u8],
    which: Which,
    /// What asks the archive for this string.
    number: usize,
}

impl Viewed<'_> {
    /// The rows of the archive's own listing; none where it refuses.
    fn listed(&self) -> Vec<Row> {
        let count = archive::list_into(&mut [], self.bytes, self.number).count;
        let mut rows = vec![Row::default(); count];
        archive::list_into(&mut rows, self.bytes, self.number);
        rows
    }

    fn compare_openings(&self, tally: &mut ViewerTally) -> Result<(), String> {
        let (ours, _) = Viewer::open(self.bytes, self.which);
        let theirs = archive::opening(self.bytes, self.number);
        self.equal("opening", &ours, &theirs)?;
        tally.openings[ours as usize] += 1;
        Ok(())
    }

    /// One step of our viewer, and one of the archive's from the same position.
    fn compare_steps(
        &self,
        viewer: &mut Viewer,
        tally: &mut ViewerTally,
    ) -> Result<CSight, String> {
        let at = viewer.position();
        let row = viewer.step();
        let ours = CSight {
            shown: usize::from(row.is_some()),
            row: row.unwrap_or_default(),
            at: viewer.position(),
        };
        let theirs = archive::view(self.bytes, self.number, at);
        self.equal(format_args!("step from {at}"), &ours, &theirs)?;
        tally.steps[ours.shown] += 1;
        Ok(theirs)
    }

    /// Pages through some of the rows and, behind the last row, on to the end
    /// and two steps further. "From an opening the steps show exactly the
    /// listing's rows, in order, then the end at every further step."
    fn compare_pages(
        &self,
        rows: &[Row],
        pages: Range<usize>,
        tally: &mut ViewerTally,
    ) -> Result<(), String> {
        let (_, mut viewer) = Viewer::open(self.bytes, self.which);
        if let Some(before) = pages.start.checked_sub(1) {
            let at = rows[before].start + rows[before].length;
            viewer = Viewer::at(self.bytes, self.which, at);
        }
        let whole = pages.len() == rows.len();
        tally.pagings[usize::from(whole)] += u64::from(!rows.is_empty());
        let ends = if pages.end == rows.len() { ENDS } else { 0 };
        for page in pages.start..pages.end + ends {
            let sight = self.compare_steps(&mut viewer, tally)?;
            let shown = (sight.shown == 1).then_some(&sight.row);
            let what = format_args!("archive's own row {page}, listed and shown");
            self.equal(what, &rows.get(page), &shown)?;
        }
        Ok(())
    }

    fn equal<T: PartialEq + fmt::Debug>(
        &self,
        what: impl fmt::Display,
        ours: &T,
        theirs: &T,
    ) -> Result<(), String> {
        let what = format_args!("viewer of {:?}, {what}", self.which);
        equal(what, self.inputs, ours, theirs)
    }
}

/// Lengths of tables for this many rows: exactly long enough, longer, one row
/// too short, and now and then still shorter.
fn lengths(count: usize, random: &mut Random) -> Vec<usize> {
    let more = if random.one_in(8) { 40 } else { 5 };
    let mut lengths = vec![count, count + 1 + random.below(more)];
    lengths.extend(count.checked_sub(1));
    if count > 1 && random.one_in(4) {
        lengths.push(random.below(count - 1));
    }
    lengths
}

/// A number that asks the archive for this string.
fn number(which: Which, random: &mut Random) -> usize {
    match which {
        Which::San => 0,
        Which::Subject => 1,
        Which::Constraints => *random.pick(&[2, 2, 3, 256, 1 << 32, usize::MAX]),
    }
}

/// A row left from the last certificate.
fn old_row(random: &mut Random) -> Row {
    let mut number = || random.bits() as usize;
    Row {
        kind: number(),
        start: number(),
        length: number(),
        group: number(),
    }
}

/// The inputs and both results, where they differ.
fn equal<T: PartialEq + fmt::Debug>(
    what: impl fmt::Display,
    inputs: Inputs,
    ours: &T,
    theirs: &T,
) -> Result<(), String> {
    if ours == theirs {
        return Ok(());
    }
    let lines = [
        format!("DIFFERENT: {what}"),
        format!("san {}", hex(inputs.san)),
        format!("subject {}", hex(inputs.subject)),
        format!("constraints {}", hex(inputs.constraints)),
        format!("lengths {}", hex(inputs.lengths)),
        format!("references {}", hex(inputs.references)),
        format!("this    {ours:?}"),
        format!("archive {theirs:?}"),
    ];
    Err(lines.join("\n"))
}

fn hex(bytes: &[u8]) -> String {
    bytes.iter().map(|byte| format!("{byte:02X}")).collect()
}

/// How often each answer and each kind of match occurred, what broke which
/// issuer's constraints, what was wrong with lengths, what viewers of each of the
/// three strings showed, what writers answered, and how many pairs of
/// texts were the same.
#[derive(Default)]
struct Tally {
    answers: [u64; 9],
    matches: [u64; MATCHES.len()],
    /// Answer 2 by form: dNSName, SRVName.
    broken: [u64; 2],
    /// Answer 2 by issuer.
    issuers: [u64; MOST_ISSUERS],
    /// What is wrong with lengths that are answered with 7.
    lengths: [u64; LENGTHS.len()],
    viewers: [ViewerTally; 3],
    writers: writers::Tally,
    texts: texts::Tally,
}

/// What viewers of one string showed.
#[derive(Default)]
struct ViewerTally {
    /// By answer.
    openings: [u64; 8],
    /// At the end, and with a row.
    steps: [u64; 2],
    /// Through some of the rows, and through all of them.
    pagings: [u64; 2],
}

impl ViewerTally {
    fn lines(&self, which: Which) -> Vec<(String, u64)> {
        let answers = [0, which.unreadable(), second::answer::TOO_LONG];
        let openings = answers.map(|answer| {
            let count = self.openings[answer as usize];
            (format!("{which:?}: opening {answer}"), count)
        });
        let [ends, rows] = self.steps;
        let [parts, whole] = self.pagings;
        let others = [
            ("step with a row", rows),
            ("step at the end", ends),
            ("paging of all rows", whole),
            ("paging of some rows", parts),
        ];
        let others = others.map(|(name, count)| (format!("{which:?}: {name}"), count));
        openings.into_iter().chain(others).collect()
    }
}

const MATCHES: [&str; 6] = [
    "DNS exact",
    "DNS wildcard",
    "SRV",
    "URI",
    "CN exact",
    "CN wildcard",
];

const BROKEN: [&str; 2] = ["dNSName", "SRVName"];

const LENGTHS: [&str; 4] = ["an odd count", "nine", "a small sum", "a great sum"];

impl Tally {
    fn count_verdict(&mut self, case: &Case, outcome: &Outcome) {
        let verdict = outcome.verdict;
        self.answers[verdict.answer as usize] += 1;
        if let Some(kind) = match_kind(case, outcome) {
            self.matches[kind] += 1;
        }
        match verdict.answer {
            second::answer::CONSTRAINTS_BROKEN => {
                let entry = list(&case.san, Which::San).rows[verdict.presented as usize];
                self.broken[usize::from(entry.kind == row_kind::SRV)] += 1;
                self.issuers[verdict.issuer as usize] += 1;
            }
            second::answer::TOO_LONG => {
                if let Some(reason) = wrong_lengths(&case.constraints) {
                    self.lengths[reason] += 1;
                }
            }
            _ => {}
        }
    }

    fn lines(&self) -> Vec<(String, u64)> {
        let answers = self.answers.iter().enumerate();
        let answers = answers.map(|(answer, &count)| (format!("answer {answer}"), count));
        let matches = MATCHES.iter().zip(self.matches);
        let matches = matches.map(|(name, count)| (format!("match by {name}"), count));
        let broken = BROKEN.iter().zip(self.broken);
        let broken = broken.map(|(form, count)| (format!("answer 2 by a {form}"), count));
        let issuers = self.issuers.iter().enumerate();
        let issuers = issuers.map(|(issuer, &count)| (format!("answer 2, issuer {issuer}"), count));
        let lengths = LENGTHS.iter().zip(self.lengths);
        let lengths = lengths.map(|(reason, count)| (format!("answer 7 by {reason}"), count));
        let viewers = Which::ALL.into_iter().zip(&self.viewers);
        let viewers = viewers.flat_map(|(which, tally)| tally.lines(which));
        answers
            .chain(matches)
            .chain(broken)
            .chain(issuers)
            .chain(lengths)
            .chain(viewers)
            .chain(self.writers.lines())
            .chain(self.texts.lines())
            .collect()
    }

    fn print(&self) {
        for (name, count) in self.lines() {
            println!("{name:32}{count:10}");
        }
    }

    /// What did not occur, if anything did not.
    fn missing(&self) -> Option<String> {
        let missing: Vec<String> = self
            .lines()
            .into_iter()
            .filter(|(_, count)| *count == 0)
            .map(|(name, _)| name)
            .collect();
        (!missing.is_empty()).then(|| missing.join(", "))
    }
}

/// The place in `LENGTHS` of what is wrong with the lengths and with nothing else
/// of them.
fn wrong_lengths(chain: &Chain) -> Option<usize> {
    let pairs = chain.lengths.chunks_exact(2);
    let odd = !pairs.remainder().is_empty();
    let count = pairs.len();
    let sum: usize = pairs
        .map(|pair| usize::from(pair[0]) << 8 | usize::from(pair[1]))
        .sum();
    match (
        odd,
        count.cmp(&(MOST_ISSUERS + 1)),
        sum.cmp(&chain.bytes.len()),
    ) {
        (true, Ordering::Less, _) => Some(0),
        (false, Ordering::Equal, Ordering::Equal) => Some(1),
        (false, Ordering::Less, Ordering::Less) => Some(2),
        (false, Ordering::Less, Ordering::Greater) => Some(3),
        _ => None,
    }
}

/// The place in `MATCHES` of a match.
fn match_kind(case: &Case, outcome: &Outcome) -> Option<usize> {
    if outcome.verdict.answer != second::answer::MATCH {
        return None;
    }
    let kind = case.references[outcome.verdict.reference as usize * RECORD];
    let holder = if kind == 4 { &case.subject } else { &case.san };
    let wildcard = usize::from(holder[outcome.text.start as usize] == b'*');
    match kind {
        1 => Some(wildcard),
        2 => Some(2),
        3 => Some(3),
        _ => Some(4 + wildcard),
    }
}
