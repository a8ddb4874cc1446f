//! The writers of request 4/13, held against those of the archive.

use second::archive::{self, CListed, CWritten, Inputs};
use second::examples::J;
use second::generate::buffers::buffers;
use second::generate::rewrite::{rewrites, Rewrite};
use second::generate::{Case, Job, Random};
use second::name::kind as row_kind;
use second::records::kind::{CN, DNS, SRV};
use second::records::References;
use second::text::same_text;
use second::tree::{common_name, name_text, rdn, subject};
use second::{answer, list, san, Lists, RecordView, Row, Which, Writer};
use std::fmt;

/// The answers of a writer.
const ANSWERS: [u32; 5] = [
    answer::WRITTEN,
    answer::EMPTY_LIST,
    answer::UNFIT,
    answer::RESULT_TOO_LONG,
    answer::BUFFER_TOO_SHORT,
];

/// What the writers answered, and how often they wrote bytes of a case again.
#[derive(Default)]
pub struct Tally {
    answers: [[u64; ANSWERS.len()]; Writer::ALL.len()],
    back: [u64; Writer::ALL.len()],
}

impl Tally {
    fn count(&mut self, writer: Writer, answer: u32) {
        for (count, one) in self.answers[writer as usize].iter_mut().zip(ANSWERS) {
            *count += u64::from(one == answer);
        }
    }

    pub fn lines(&self) -> Vec<(String, u64)> {
        let mut lines = Vec::new();
        for writer in Writer::ALL {
            for (answer, count) in ANSWERS.into_iter().zip(self.answers[writer as usize]) {
                lines.push((format!("{writer:?} writer: answer {answer}"), count));
            }
            let back = self.back[writer as usize];
            lines.push((format!("{writer:?} writer: written back"), back));
        }
        lines
    }
}

/// Has the SAN and the records of a case written again.
pub fn compare_case(case: &Case, random: &mut Random, tally: &mut Tally) -> Result<(), String> {
    for rewrite in rewrites(random, case) {
        compare_rewrite(&rewrite, random, tally)?;
    }
    Ok(())
}

/// Has a list written.
pub fn compare_job(job: Job, random: &mut Random, tally: &mut Tally) -> Result<(), String> {
    compare_rewrite(&job.into(), random, tally)
}

/// Compares the writers with buffers of several lengths. What the archive wrote
/// into one that it fills is held against the bytes of the case, which have been
/// read, or else is read back.
fn compare_rewrite(
    rewrite: &Rewrite,
    random: &mut Random,
    tally: &mut Tally,
) -> Result<(), String> {
    let job = Exact::new(&rewrite.job);
    let mut result = None;
    for length in buffers(random, &rewrite.job) {
        let (written, buffer) = job.compare(old_bytes(random, length))?;
        tally.count(job.writer, written.answer as u32);
        let whole = CWritten { answer: 0, length };
        if written == whole {
            result = Some(buffer);
        }
    }
    match (&rewrite.back, result) {
        (Some(back), result) => {
            tally.back[job.writer as usize] += 1;
            let result = result.as_deref().map(Hex);
            job.equal("written back", &Some(Hex(back)), &result)
        }
        (None, None) => Ok(()),
        (None, Some(bytes)) => match job.writer {
            Writer::San => job.read_san(&bytes),
            Writer::Records => job.read_records(&bytes, random.below(job.kinds.len())),
        },
    }
}

/// What stood in a buffer before.
fn old_bytes(random: &mut Random, length: usize) -> Box<[u8]> {
    let mut bytes: Box<[u8]> = vec![0; length].into();
    for chunk in bytes.chunks_mut(8) {
        chunk.copy_from_slice(&random.bits().to_ne_bytes()[..chunk.len()]);
    }
    bytes
}

/// Bytes that are shown as in the documents.
#[derive(PartialEq)]
struct Hex<'a>(&'a [u8]);

impl fmt::Debug for Hex<'_> {
    fn fmt(&self, f: &mut fmt::Formatter) -> fmt::Result {
        f.write_str(&crate::hex(self.0))
    }
}

/// Kind, service and domain of a record.
type Record<'a> = (u8, &'a [u8], &'a [u8]);

/// A job whose lists lie in allocations of exactly their size.
struct Exact<'a> {
    job: &'a Job,
    writer: Writer,
    texts: Box<[u8]>,
    lengths: Box<[usize]>,
    kinds: Box<[u8]>,
}

impl<'a> Exact<'a> {
    fn new(job: &'a Job) -> Self {
        Exact {
            job,
            writer: job.writer,
            texts: job.texts.as_slice().into(),
            lengths: job.lengths.as_slice().into(),
            kinds: job.kinds.as_slice().into(),
        }
    }

    fn lists(&self) -> Lists<'_> {
        Lists {
            texts: &self.texts,
            lengths: &self.lengths,
            kinds: &self.kinds,
        }
    }

    /// The texts of a list that is written.
    fn cut(&self) -> Vec<&'a [u8]> {
        self.job.cut().unwrap_or_default()
    }

    /// Has both write into buffers that held the same, and compares answer,
    /// length and the whole buffers after it.
    fn compare(&self, old: Box<[u8]>) -> Result<(CWritten, Box<[u8]>), String> {
        let (mut our_buffer, mut their_buffer) = (old.clone(), old);
        let written = self.writer.write(&mut our_buffer, self.lists());
        let ours = CWritten {
            answer: written.answer as usize,
            length: written.length,
        };
        let theirs = archive::write(self.writer, &mut their_buffer, self.lists());
        let lent = our_buffer.len();
        self.equal(format_args!("with {lent} bytes lent"), &ours, &theirs)?;
        let what = format_args!("buffer of {lent} bytes after it");
        self.equal(what, &Hex(&our_buffer), &Hex(&their_buffer))?;
        Ok((theirs, their_buffer))
    }

    /// "What is written reads back as that list": the archive lists a row for
    /// each name, and this program reads the names there.
    fn read_san(&self, bytes: &[u8]) -> Result<(), String> {
        let mut names = Vec::new();
        let read = san::read(bytes, |name| names.push((name.row.kind, name.text)));
        self.equal("readable", &Some(()), &read)?;
        let kind = |kind: &u8| match *kind {
            DNS => row_kind::DNS,
            SRV => row_kind::SRV,
            _ => row_kind::URI,
        };
        let asked: Vec<_> = self.kinds.iter().map(kind).zip(self.cut()).collect();
        self.equal("names read back", &asked, &names)?;
        let mut rows: Box<[Row]> = vec![Row::default(); asked.len()].into();
        let listed = archive::list_into(&mut rows, bytes, 0);
        let all = CListed {
            answer: 0,
            count: asked.len(),
        };
        self.equal("listed", &all, &listed)?;
        self.equal("rows", &list(bytes, Which::San).rows[..], &rows)
    }

    /// The same of records: this program reads them all, the archive's record
    /// reader one of them, and that one's name is judged by them.
    fn read_records(&self, bytes: &[u8], index: usize) -> Result<(), String> {
        let asked: Vec<_> = self.records().collect();
        let read = References::read(bytes);
        let read = read.iter().flat_map(|read| read.as_slice());
        let read: Vec<_> = read
            .map(|one| (one.kind, one.service, one.domain))
            .collect();
        self.equal("records read back", &asked, &read)?;
        let (kind, service, domain) = asked[index];
        let view = RecordView {
            answer: 0,
            kind: u32::from(kind),
            service_length: service.len() as u32,
            domain_length: domain.len() as u32,
        };
        let what = format_args!("record {index}");
        self.equal(what, &view, &archive::record(bytes, index))?;
        self.judge_by(bytes, &asked, index)
    }

    /// The records of a list that is written.
    fn records(&self) -> impl Iterator<Item = Record<'a>> + '_ {
        let texts = self.cut();
        let places = 0..self.kinds.len();
        places.map(move |place| (self.kinds[place], texts[2 * place], texts[2 * place + 1]))
    }

    /// The archive, by these records, matches the name that one of them asks
    /// for, with the first record that does.
    fn judge_by(&self, references: &[u8], records: &[Record], asked: usize) -> Result<(), String> {
        let (kind, service, domain) = records[asked];
        let (san, subject) = certificate(kind, service, domain)?;
        let inputs = Inputs {
            san: &san,
            subject: &subject,
            constraints: &[],
            lengths: &[],
            references,
        };
        let verdict = archive::judge(inputs).verdict;
        let same = |(other, its_service, its_domain): &Record| {
            *other == kind && same_text(its_service, service) && same_text(its_domain, domain)
        };
        let first = records.iter().position(same).unwrap_or(asked) as u32;
        let found = (verdict.answer, verdict.reference);
        let what = format_args!("judged by record {asked}");
        self.equal(what, &(answer::MATCH, first), &found)
    }

    /// The job and both results, where they differ.
    fn equal<T: PartialEq + fmt::Debug + ?Sized>(
        &self,
        what: impl fmt::Display,
        ours: &T,
        theirs: &T,
    ) -> Result<(), String> {
        if ours == theirs {
            return Ok(());
        }
        let lines = [
            format!("DIFFERENT: {:?} writer, {what}", self.writer),
            format!("kinds {:?}", self.kinds),
            format!("lengths {:?}", self.lengths),
            format!("texts {:?}", Hex(&self.texts)),
            format!("this    {ours:?}"),
            format!("archive {theirs:?}"),
        ];
        Err(lines.join("\n"))
    }
}

/// A SAN and a subject with the name that a record asks for. The archive writes
/// the SAN.
fn certificate(kind: u8, service: &[u8], domain: &[u8]) -> Result<(Vec<u8>, Vec<u8>), String> {
    if kind == CN {
        let name = subject(vec![rdn(vec![common_name(0x0C, domain)])]);
        return Ok((Vec::new(), name.write()));
    }
    let text = name_text(kind, service, domain);
    let job = Job::san([(kind, text.as_slice())]);
    let mut buffer = vec![0; Writer::San.longest()];
    let written = archive::write(Writer::San, &mut buffer, job.lists());
    buffer.truncate(written.length);
    buffer.shrink_to_fit();
    match written.answer {
        0 => Ok((buffer, J.to_vec())),
        answer => Err(format!(
            "the name of a record is answered with {answer}: {text:?}"
        )),
    }
}
