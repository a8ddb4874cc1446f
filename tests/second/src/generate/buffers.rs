//! Which buffers the writers are lent (request 4/13).

use super::{Job, Random};
use crate::answer;
use crate::records::RECORD;
use crate::writer::Writer;

/// The most bytes that a name of a SAN has beside its text.
const HEADERS: usize = 24;

/// Lengths of buffers for a job that is written: exactly long enough, longer,
/// one byte too short, and now and then much shorter, empty or much longer. For
/// one that is refused: as long as its result might be, and now and then others.
pub fn buffers(random: &mut Random, job: &Job) -> Vec<usize> {
    let mut scratch = vec![0; job.writer.longest()];
    let written = job.writer.write(&mut scratch, job.lists());
    let more = if random.one_in(8) { 400 } else { 5 };
    let more = 1 + random.below(more);
    let (mut lengths, most) = match written.answer {
        answer::WRITTEN => {
            let enough = written.length;
            (vec![enough, enough + more, enough - 1], enough)
        }
        _ => (vec![room(job) + more], room(job)),
    };
    if random.one_in(4) {
        lengths.push(random.below(most + 1));
    }
    if random.one_in(8) {
        lengths.push(0);
    }
    if random.one_in(256) {
        // So long that 16 bits take it for a short one.
        lengths.push((1 << 16) + random.below(8));
    }
    lengths
}

/// At least as many bytes as the result would have, or more than the limit.
fn room(job: &Job) -> usize {
    let names = job.kinds.len().max(job.lengths.len());
    let size = match job.writer {
        Writer::San => job.texts.len() + HEADERS * names,
        Writer::Records => RECORD * names,
    };
    size.min(job.writer.longest() + RECORD)
}
