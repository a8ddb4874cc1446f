//! A seeded generator of whole cases: the inputs of a name check; of jobs for
//! the writers; and of pairs of texts.

mod alike;
pub mod boundary;
pub mod buffers;
mod crowd;
mod draft;
pub mod flips;
mod issuers;
pub mod lists;
mod mutate;
pub mod positions;
pub mod random;
pub mod rewrite;
pub mod texts;
mod uri;
mod words;

use crate::{judge_from_c, Lists, Outcome, Writer};
use draft::Draft;
pub use random::Random;
use words::Pool;

/// The constraint strings of a chain of issuers, end to end, and their lengths
/// as C hands them over (request 6/13).
#[derive(Clone, Debug, Default, PartialEq, Eq)]
pub struct Chain {
    pub bytes: Vec<u8>,
    pub lengths: Vec<u8>,
}

impl Chain {
    pub fn new<T: AsRef<[u8]>>(strings: impl IntoIterator<Item = T>) -> Self {
        let mut chain = Chain::default();
        for string in strings {
            chain.push(string.as_ref());
        }
        chain
    }

    /// Appends a string. Of a length that two bytes do not hold the low ones
    /// stand there, so that the lengths have another sum.
    pub fn push(&mut self, string: &[u8]) {
        self.bytes.extend(string);
        self.lengths.extend((string.len() as u16).to_be_bytes());
    }

    /// The strings; where the lengths do not cut the bytes to the last one, all
    /// bytes as one string.
    pub fn strings(&self) -> Vec<&[u8]> {
        self.cut().unwrap_or_else(|| vec![&self.bytes])
    }

    fn cut(&self) -> Option<Vec<&[u8]>> {
        let mut rest = self.bytes.as_slice();
        let mut strings = Vec::new();
        for pair in self.lengths.chunks(2) {
            let length = u16::from_be_bytes(pair.try_into().ok()?);
            let (string, behind) = rest.split_at_checked(length.into())?;
            strings.push(string);
            rest = behind;
        }
        rest.is_empty().then_some(strings)
    }
}

/// The string of one issuer, or of none where it is empty.
impl From<Vec<u8>> for Chain {
    fn from(string: Vec<u8>) -> Self {
        Chain::new(Some(string).filter(|string| !string.is_empty()))
    }
}

/// The inputs of one check.
#[derive(Clone, Debug, Default, PartialEq, Eq)]
pub struct Case {
    pub san: Vec<u8>,
    pub subject: Vec<u8>,
    pub constraints: Chain,
    pub references: Vec<u8>,
}

impl Case {
    /// What the check says of it.
    pub fn judged(&self) -> Outcome {
        judge_from_c(
            &self.san,
            &self.subject,
            &self.constraints.bytes,
            &self.constraints.lengths,
            &self.references,
        )
    }
}

/// What one of the writers is handed (request 4/13).
#[derive(Clone, Debug, Default, PartialEq, Eq)]
pub struct Job {
    pub writer: Writer,
    pub texts: Vec<u8>,
    pub lengths: Vec<usize>,
    pub kinds: Vec<u8>,
}

impl Job {
    /// A job without a name.
    pub fn new(writer: Writer) -> Self {
        Job {
            writer,
            ..Job::default()
        }
    }

    /// The names of a SAN: kinds and texts.
    pub fn san<'a>(names: impl IntoIterator<Item = (u8, &'a [u8])>) -> Self {
        let mut job = Job::new(Writer::San);
        for (kind, text) in names {
            job.push(kind, &[text]);
        }
        job
    }

    /// Records: kinds, services and domains.
    pub fn records<'a>(records: impl IntoIterator<Item = (u8, &'a [u8], &'a [u8])>) -> Self {
        let mut job = Job::new(Writer::Records);
        for (kind, service, domain) in records {
            job.push(kind, &[service, domain]);
        }
        job
    }

    /// Appends a name.
    pub fn push(&mut self, kind: u8, texts: &[&[u8]]) {
        self.kinds.push(kind);
        for text in texts {
            self.lengths.push(text.len());
            self.texts.extend(*text);
        }
    }

    pub fn lists(&self) -> Lists<'_> {
        Lists {
            texts: &self.texts,
            lengths: &self.lengths,
            kinds: &self.kinds,
        }
    }

    /// The texts, one for each length, where these cut them to the last byte.
    pub fn cut(&self) -> Option<Vec<&[u8]>> {
        let mut rest = self.texts.as_slice();
        let mut texts = Vec::with_capacity(self.lengths.len());
        for &length in &self.lengths {
            let (text, behind) = rest.split_at_checked(length)?;
            texts.push(text);
            rest = behind;
        }
        rest.is_empty().then_some(texts)
    }
}

/// The case of this number under this seed; no other case has a part in it.
pub fn case(seed: u64, number: u64) -> Case {
    let mut random = Random::new(seed, number);
    let pool = Pool::new(&mut random);
    let mut draft = match random.below(100) {
        0 => Draft::bulk(&mut random, &pool),
        1 => Draft::far_name(&mut random, &pool),
        2 => Draft::far_broken(&mut random, &pool),
        3 => Draft::far_set(&mut random, &pool),
        4..=5 => Draft::far_subtree(&mut random, &pool),
        6..=8 => Draft::sized(&mut random, &pool),
        9..=27 => Draft::constrained(&mut random, &pool),
        28..=43 => Draft::subject_only(&mut random, &pool),
        44..=67 => Draft::plain(&mut random, &pool),
        68..=80 => Draft::alike(&mut random),
        81..=96 => Draft::issued(&mut random, &pool),
        _ => Draft::uneven(&mut random, &pool),
    };
    if random.one_in(12) {
        issuers::more(&mut random, &mut draft);
    }
    if random.one_in(6) {
        mutate::draft(&mut random, &mut draft);
    }
    if random.one_in(8) {
        mutate::texts(&mut random, &mut draft);
    }
    let mut case = draft.write();
    if random.one_in(9) {
        mutate::case(&mut random, &mut case);
    }
    if random.one_in(40) {
        issuers::spoil_lengths(&mut random, &mut case.constraints);
    }
    case
}
