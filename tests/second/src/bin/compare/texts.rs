//! The comparison of two texts without case, held against the archive's
//! (request 5/13).

use second::archive;
use second::examples::{domain_of, LABEL};
use second::generate::boundary::edges;
use second::generate::texts::pairs;
use second::text::same_text;

/// How many pairs were not the same, and how many were.
#[derive(Default)]
pub struct Tally {
    answers: [u64; 2],
}

impl Tally {
    pub fn lines(&self) -> [(String, u64); 2] {
        let [different, same] = self.answers;
        [
            ("texts: the same without case".to_string(), same),
            ("texts: not the same".to_string(), different),
        ]
    }

    /// How many pairs were compared.
    pub fn count(&self) -> u64 {
        self.answers.iter().sum()
    }
}

/// Every pair of bytes, alone and in two places of labels of 63 bytes, texts of
/// every two lengths, and texts of 1 to 40 bytes that differ in one.
pub fn compare_table(tally: &mut Tally) -> Result<(), String> {
    for one in 0..=255 {
        for other in 0..=255 {
            compare(&[one], &[other], tally)?;
            for place in [31, 62] {
                let (mut first, mut second) = (LABEL, LABEL.map(|byte| byte.to_ascii_lowercase()));
                (first[place], second[place]) = (one, other);
                compare(&first, &second, tally)?;
            }
        }
    }
    let text = domain_of(253);
    for one in 0..=text.len() {
        for other in 0..=text.len() {
            compare(&text[..one], &text[..other], tally)?;
        }
    }
    (1..=40).try_for_each(|length| compare_changed(length, tally))
}

/// A text of this length, as it is and in capitals, and the same with one bit of
/// one byte turned, at each place (request 7/13).
fn compare_changed(length: usize, tally: &mut Tally) -> Result<(), String> {
    let text = edges::domain_of(length);
    for place in 0..length {
        for bit in 0..8 {
            let mut other = text.clone();
            other[place] ^= 1 << bit;
            compare(&text, &other, tally)?;
            compare(&other, &text.to_ascii_uppercase(), tally)?;
        }
    }
    Ok(())
}

/// The pairs of one case number.
pub fn compare_pairs(seed: u64, number: u64, tally: &mut Tally) -> Result<(), String> {
    let mut pairs = pairs(seed, number).into_iter();
    pairs.try_for_each(|(one, other)| compare(&one, &other, tally))
}

/// Compares one pair, in allocations of exactly their size.
fn compare(one: &[u8], other: &[u8], tally: &mut Tally) -> Result<(), String> {
    let (one, other): (Box<[u8]>, Box<[u8]>) = (one.into(), other.into());
    let ours = u32::from(same_text(&one, &other));
    let theirs = archive::same_text(&one, &other);
    if ours != theirs {
        let [one, other] = [one, other].map(|text| crate::hex(&text));
        let numbers = format!("this    {ours}\narchive {theirs}");
        return Err(format!("DIFFERENT: texts\n{one}\n{other}\n{numbers}"));
    }
    tally.answers[ours as usize] += 1;
    Ok(())
}
