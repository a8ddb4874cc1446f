//! The other implementation, called through the C interface of its archive; and
//! its comparison of two texts, which a second archive gives.

use crate::name::Row;
use crate::records::RecordView;
use crate::verdict::{Outcome, Place, Verdict};
use crate::writer::{Lists, Writer};
use std::ptr;

/// "count" and "answer" of a listing, as C sees them.
#[repr(C)]
#[derive(Clone, Copy, Debug, PartialEq, Eq)]
pub struct CListed {
    pub answer: usize,
    pub count: usize,
}

/// What a step of the viewer shows, as C sees it: 1 and a row, or 0 and a row of
/// zeros at the end; and the position after the step.
#[repr(C)]
#[derive(Clone, Copy, Debug, PartialEq, Eq)]
pub struct CSight {
    pub shown: usize,
    pub row: Row,
    pub at: usize,
}

/// Answer and length of what a writer wrote, as C sees them.
#[repr(C)]
#[derive(Clone, Copy, Debug, PartialEq, Eq)]
pub struct CWritten {
    pub answer: usize,
    pub length: usize,
}

/// All numbers of a verdict, as C sees them.
#[repr(C)]
#[derive(Clone, Copy, Debug, PartialEq, Eq)]
pub struct CVerdict {
    pub answer: u32,
    pub reference: u32,
    pub presented: u32,
    pub start: u32,
    pub length: u32,
    pub issuer: u32,
    pub text_start: u32,
    pub text_length: u32,
}

/// Declares C functions on the five slices of a verdict.
macro_rules! on_five_slices {
    ($($function:ident -> $result:ty;)*) => {
        extern "C" {
            $(fn $function(
                san: *const u8, san_len: usize,
                subject: *const u8, subject_len: usize,
                constraints: *const u8, constraints_len: usize,
                lengths: *const u8, lengths_len: usize,
                references: *const u8, references_len: usize,
            ) -> $result;)*
        }
    };
}

on_five_slices! {
    beckethand_answer -> u32;
    beckethand_reference -> u32;
    beckethand_presented -> u32;
    beckethand_start -> u32;
    beckethand_length -> u32;
    beckethand_issuer -> u32;
    beckethand_text_start -> u32;
    beckethand_text_length -> u32;
    beckethand_verdict -> CVerdict;
}

/// Declares a writer: a C function on a lent buffer and three lists.
macro_rules! on_lists {
    ($($function:ident)*) => {
        extern "C" {
            $(fn $function(
                buffer: *mut u8, buffer_len: usize,
                texts: *const u8, texts_len: usize,
                lengths: *const usize, lengths_count: usize,
                kinds: *const u8, kinds_count: usize,
            ) -> CWritten;)*
        }
    };
}

on_lists! {
    beckethand_write_san
    beckethand_write_records
}

extern "C" {
    fn beckethand_record_answer(references: *const u8, references_len: usize, index: usize) -> u32;
    fn beckethand_record_kind(references: *const u8, references_len: usize, index: usize) -> u32;
    fn beckethand_record_service_length(
        references: *const u8,
        references_len: usize,
        index: usize,
    ) -> u32;
    fn beckethand_record_domain_length(
        references: *const u8,
        references_len: usize,
        index: usize,
    ) -> u32;
    fn beckethand_list(
        table: *mut Row,
        lent: usize,
        bytes: *const u8,
        bytes_len: usize,
        which: usize,
    ) -> CListed;
    fn beckethand_opening(bytes: *const u8, bytes_len: usize, which: usize) -> u32;
    fn beckethand_view(bytes: *const u8, bytes_len: usize, which: usize, at: usize) -> CSight;
}

// Of `libprobe.a`, and no part of the C interface.
extern "C" {
    fn probe_same_text(a: *const u8, a_len: usize, b: *const u8, b_len: usize) -> u32;
}

/// Pointer and length; NULL for an empty slice, as C programs write it.
fn pair<T>(items: &[T]) -> (*const T, usize) {
    match items {
        [] => (ptr::null(), 0),
        _ => (items.as_ptr(), items.len()),
    }
}

/// The same for a slice that is lent to be written.
fn lent<T>(items: &mut [T]) -> (*mut T, usize) {
    match items {
        [] => (ptr::null_mut(), 0),
        _ => (items.as_mut_ptr(), items.len()),
    }
}

/// The inputs, as they are handed to the archive. The lengths of the constraint
/// strings have two bytes each, high first.
#[derive(Clone, Copy, Debug)]
pub struct Inputs<'a> {
    pub san: &'a [u8],
    pub subject: &'a [u8],
    pub constraints: &'a [u8],
    pub lengths: &'a [u8],
    pub references: &'a [u8],
}

/// Calls one function on the five slices.
macro_rules! call {
    ($function:ident, $inputs:expr) => {{
        let (san, san_len) = pair($inputs.san);
        let (subject, subject_len) = pair($inputs.subject);
        let (constraints, constraints_len) = pair($inputs.constraints);
        let (lengths, lengths_len) = pair($inputs.lengths);
        let (references, references_len) = pair($inputs.references);
        // SAFETY: each pointer comes from a slice of the length beside it, or
        // is NULL with length 0, and outlives the call.
        unsafe {
            $function(
                san,
                san_len,
                subject,
                subject_len,
                constraints,
                constraints_len,
                lengths,
                lengths_len,
                references,
                references_len,
            )
        }
    }};
}

/// The verdict's answer alone: one call.
pub fn answer(inputs: Inputs) -> u32 {
    call!(beckethand_answer, inputs)
}

/// The six numbers and the place of the witness's text: eight calls.
pub fn judge(inputs: Inputs) -> Outcome {
    let verdict = Verdict {
        answer: answer(inputs),
        reference: call!(beckethand_reference, inputs),
        presented: call!(beckethand_presented, inputs),
        start: call!(beckethand_start, inputs),
        length: call!(beckethand_length, inputs),
        issuer: call!(beckethand_issuer, inputs),
    };
    let text = Place {
        start: call!(beckethand_text_start, inputs),
        length: call!(beckethand_text_length, inputs),
    };
    Outcome { verdict, text }
}

/// The same by one call.
pub fn judge_at_once(inputs: Inputs) -> Outcome {
    let all: CVerdict = call!(beckethand_verdict, inputs);
    let verdict = Verdict {
        answer: all.answer,
        reference: all.reference,
        presented: all.presented,
        start: all.start,
        length: all.length,
        issuer: all.issuer,
    };
    let text = Place {
        start: all.text_start,
        length: all.text_length,
    };
    Outcome { verdict, text }
}

/// The record reader: four calls.
pub fn record(references: &[u8], index: usize) -> RecordView {
    let (bytes, length) = pair(references);
    // SAFETY: as in `call`.
    unsafe {
        RecordView {
            answer: beckethand_record_answer(bytes, length, index),
            kind: beckethand_record_kind(bytes, length, index),
            service_length: beckethand_record_service_length(bytes, length, index),
            domain_length: beckethand_record_domain_length(bytes, length, index),
        }
    }
}

/// The listing into a lent table. Number 0 is the SAN, 1 the subject, any other
/// the constraints.
pub fn list_into(table: &mut [Row], bytes: &[u8], number: usize) -> CListed {
    let (bytes, bytes_len) = pair(bytes);
    let (rows, rows_len) = lent(table);
    // SAFETY: as in `call`; the table is lent for the call alone, and any
    // numbers are a row.
    unsafe { beckethand_list(rows, rows_len, bytes, bytes_len, number) }
}

/// The answer of a viewer's opening. The number is as in `list_into`.
pub fn opening(bytes: &[u8], number: usize) -> u32 {
    let (bytes, bytes_len) = pair(bytes);
    // SAFETY: as in `call`.
    unsafe { beckethand_opening(bytes, bytes_len, number) }
}

/// One step of a viewer from a position. The number is as in `list_into`.
pub fn view(bytes: &[u8], number: usize, at: usize) -> CSight {
    let (bytes, bytes_len) = pair(bytes);
    // SAFETY: as in `call`.
    unsafe { beckethand_view(bytes, bytes_len, number, at) }
}

/// What a writer makes of the lists, in a lent buffer.
pub fn write(writer: Writer, buffer: &mut [u8], lists: Lists<'_>) -> CWritten {
    let function = match writer {
        Writer::San => beckethand_write_san,
        Writer::Records => beckethand_write_records,
    };
    let (buffer, buffer_len) = lent(buffer);
    let (texts, texts_len) = pair(lists.texts);
    let (lengths, lengths_count) = pair(lists.lengths);
    let (kinds, kinds_count) = pair(lists.kinds);
    // SAFETY: as in `call`; the buffer is lent for the call alone, overlaps none
    // of the lists, and any bytes may stand in it.
    unsafe {
        function(
            buffer,
            buffer_len,
            texts,
            texts_len,
            lengths,
            lengths_count,
            kinds,
            kinds_count,
        )
    }
}

/// Whether two texts are the same without case (request 5/13): 1, or 0.
pub fn same_text(one: &[u8], other: &[u8]) -> u32 {
    let (one, one_len) = pair(one);
    let (other, other_len) = pair(other);
    // SAFETY: as in `call`.
    unsafe { probe_same_text(one, one_len, other, other_len) }
}
