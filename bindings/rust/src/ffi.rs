//! The calls of libopb.a as `include/opb.h` declares them, and for each a safe function. All of this crate's unsafe code.
//!
//! The header asks two things of a caller, and the types here give both: a slice's pointer is valid for its length, and what is borrowed mutably overlaps nothing else that is lent.
use crate::assignment::Assignment;
use crate::refusal::{Reason, Refusal};
use crate::table::{Size, Table, Value};

#[repr(C)]
struct OpbTable {
    refusal: u8,
    place: u64,
    rows: u64,
    terms: u64,
}

#[repr(C)]
struct OpbText {
    refusal: u8,
    place: u64,
    length: u64,
}

#[repr(C)]
struct OpbLength {
    refusal: u8,
    place: u64,
    length: u64,
}

#[repr(C)]
struct OpbValue {
    refusal: u8,
    place: u64,
    value: i64,
    holds: u8,
    ones: u64,
}

// In `holds`: the value is an objective's.
const OBJECTIVE: u8 = 2;

#[rustfmt::skip]
extern "C" {
    fn opb_count(file: *const u8, file_length: usize, first: u32) -> OpbTable;

    fn opb_read(
        file: *const u8, file_length: usize, first: u32,
        kinds: *mut u8, kinds_length: usize, firsts: *mut usize, firsts_length: usize, counts: *mut usize, counts_length: usize,
        bounds: *mut i64, bounds_length: usize, weights: *mut i64, weights_length: usize, literals: *mut u32, literals_length: usize,
    ) -> OpbTable;

    fn opb_normalise(
        kinds: *const u8, kinds_length: usize, firsts: *const usize, firsts_length: usize, counts: *const usize, counts_length: usize,
        bounds: *const i64, bounds_length: usize, weights: *const i64, weights_length: usize, literals: *const u32, literals_length: usize,
        out_kinds: *mut u8, out_kinds_length: usize, out_firsts: *mut usize, out_firsts_length: usize, out_counts: *mut usize, out_counts_length: usize,
        out_bounds: *mut i64, out_bounds_length: usize, out_weights: *mut i64, out_weights_length: usize, out_literals: *mut u32, out_literals_length: usize,
    ) -> OpbTable;

    fn opb_evaluate(
        kinds: *const u8, kinds_length: usize, firsts: *const usize, firsts_length: usize, counts: *const usize, counts_length: usize,
        bounds: *const i64, bounds_length: usize, weights: *const i64, weights_length: usize, literals: *const u32, literals_length: usize,
        row: usize, words: *const u64, words_length: usize,
    ) -> OpbValue;

    fn opb_values(
        block: *const u8, block_length: usize, length: u64, values: *mut u64, values_length: usize, known: *mut u64, known_length: usize,
    ) -> OpbLength;

    fn opb_evaluate_known(
        kinds: *const u8, kinds_length: usize, firsts: *const usize, firsts_length: usize, counts: *const usize, counts_length: usize,
        bounds: *const i64, bounds_length: usize, weights: *const i64, weights_length: usize, literals: *const u32, literals_length: usize,
        row: usize, values: *const u64, values_length: usize, known: *const u64, known_length: usize,
    ) -> OpbValue;

    fn opb_judge(
        kinds: *const u8, kinds_length: usize, firsts: *const usize, firsts_length: usize, counts: *const usize, counts_length: usize,
        bounds: *const i64, bounds_length: usize, weights: *const i64, weights_length: usize, literals: *const u32, literals_length: usize,
        row: usize, values: *const u64, values_length: usize, known: *const u64, known_length: usize,
    ) -> OpbValue;

    fn opb_write(
        kinds: *const u8, kinds_length: usize, firsts: *const usize, firsts_length: usize, counts: *const usize, counts_length: usize,
        bounds: *const i64, bounds_length: usize, weights: *const i64, weights_length: usize, literals: *const u32, literals_length: usize,
        text: *const u8, text_length: usize, first: u32, plain: u8, out: *mut u8, out_length: usize,
    ) -> OpbText;

    fn opb_list(
        kinds: *const u8, kinds_length: usize, firsts: *const usize, firsts_length: usize, counts: *const usize, counts_length: usize,
        bounds: *const i64, bounds_length: usize, weights: *const i64, weights_length: usize, literals: *const u32, literals_length: usize,
        rows: usize, first: u32, out: *mut u8, out_length: usize,
    ) -> OpbText;
}

fn accepted(number: u8, place: u64) -> Result<(), Refusal> {
    if number == 0 {
        return Ok(());
    }
    let reason = Reason::of(number).expect("the archive's refusals are those of this crate's version");
    Err(Refusal { reason, place })
}

fn size_of(answer: OpbTable) -> Result<Size, Refusal> {
    accepted(answer.refusal, answer.place)?;
    Ok(Size { rows: answer.rows as usize, terms: answer.terms as usize })
}

fn length_of(answer: OpbText) -> Result<usize, Refusal> {
    accepted(answer.refusal, answer.place)?;
    Ok(answer.length as usize)
}

fn value_of(answer: OpbValue) -> Result<Value, Refusal> {
    accepted(answer.refusal, answer.place)?;
    let (value, ones) = (answer.value, answer.ones);
    Ok(match answer.holds {
        OBJECTIVE => Value::Objective { value, ones },
        holds => Value::Constraint { sum: value, holds: holds == 1, ones },
    })
}

pub(crate) fn count(file: &[u8], first: u32) -> Result<Size, Refusal> {
    // SAFETY: the pointer and the length are of one slice, borrowed for the call; nothing is changed.
    size_of(unsafe { opb_count(file.as_ptr(), file.len(), first) })
}

#[rustfmt::skip]
pub(crate) fn read(file: &[u8], first: u32, t: &mut Table) -> Result<Size, Refusal> {
    // SAFETY: each pointer and length are of one slice, borrowed for the call; the six columns are different vectors, borrowed mutably, so they overlap neither each other nor the file.
    size_of(unsafe {
        opb_read(
            file.as_ptr(), file.len(), first,
            t.kinds.as_mut_ptr(), t.kinds.len(), t.firsts.as_mut_ptr(), t.firsts.len(), t.counts.as_mut_ptr(), t.counts.len(),
            t.bounds.as_mut_ptr(), t.bounds.len(), t.weights.as_mut_ptr(), t.weights.len(), t.literals.as_mut_ptr(), t.literals.len(),
        )
    })
}

#[rustfmt::skip]
pub(crate) fn normalise(t: &Table, n: &mut Table) -> Result<Size, Refusal> {
    // SAFETY: each pointer and length are of one slice, borrowed for the call; the columns of `n` are different vectors, borrowed mutably, so they overlap neither each other nor those of `t`.
    size_of(unsafe {
        opb_normalise(
            t.kinds.as_ptr(), t.kinds.len(), t.firsts.as_ptr(), t.firsts.len(), t.counts.as_ptr(), t.counts.len(),
            t.bounds.as_ptr(), t.bounds.len(), t.weights.as_ptr(), t.weights.len(), t.literals.as_ptr(), t.literals.len(),
            n.kinds.as_mut_ptr(), n.kinds.len(), n.firsts.as_mut_ptr(), n.firsts.len(), n.counts.as_mut_ptr(), n.counts.len(),
            n.bounds.as_mut_ptr(), n.bounds.len(), n.weights.as_mut_ptr(), n.weights.len(), n.literals.as_mut_ptr(), n.literals.len(),
        )
    })
}

#[rustfmt::skip]
pub(crate) fn evaluate(t: &Table, row: usize, words: &[u64]) -> Result<Value, Refusal> {
    // SAFETY: each pointer and length are of one slice, borrowed for the call; nothing is changed.
    value_of(unsafe {
        opb_evaluate(
            t.kinds.as_ptr(), t.kinds.len(), t.firsts.as_ptr(), t.firsts.len(), t.counts.as_ptr(), t.counts.len(),
            t.bounds.as_ptr(), t.bounds.len(), t.weights.as_ptr(), t.weights.len(), t.literals.as_ptr(), t.literals.len(),
            row, words.as_ptr(), words.len(),
        )
    })
}

/// Answers the new length, which is not yet the assignment's.
#[rustfmt::skip]
pub(crate) fn values(block: &[u8], a: &mut Assignment) -> Result<u64, Refusal> {
    // SAFETY: each pointer and length are of one slice, borrowed for the call; the two rows are different vectors, borrowed mutably, so they overlap neither each other nor the block.
    let answer = unsafe {
        opb_values(
            block.as_ptr(), block.len(), a.length, a.values.as_mut_ptr(), a.values.len(), a.known.as_mut_ptr(), a.known.len(),
        )
    };
    accepted(answer.refusal, answer.place)?;
    Ok(answer.length)
}

#[rustfmt::skip]
pub(crate) fn evaluate_known(t: &Table, row: usize, a: &Assignment) -> Result<Value, Refusal> {
    // SAFETY: each pointer and length are of one slice, borrowed for the call; nothing is changed.
    value_of(unsafe {
        opb_evaluate_known(
            t.kinds.as_ptr(), t.kinds.len(), t.firsts.as_ptr(), t.firsts.len(), t.counts.as_ptr(), t.counts.len(),
            t.bounds.as_ptr(), t.bounds.len(), t.weights.as_ptr(), t.weights.len(), t.literals.as_ptr(), t.literals.len(),
            row, a.values.as_ptr(), a.values.len(), a.known.as_ptr(), a.known.len(),
        )
    })
}

#[rustfmt::skip]
pub(crate) fn judge(t: &Table, row: usize, a: &Assignment) -> Result<Value, Refusal> {
    // SAFETY: each pointer and length are of one slice, borrowed for the call; nothing is changed.
    value_of(unsafe {
        opb_judge(
            t.kinds.as_ptr(), t.kinds.len(), t.firsts.as_ptr(), t.firsts.len(), t.counts.as_ptr(), t.counts.len(),
            t.bounds.as_ptr(), t.bounds.len(), t.weights.as_ptr(), t.weights.len(), t.literals.as_ptr(), t.literals.len(),
            row, a.values.as_ptr(), a.values.len(), a.known.as_ptr(), a.known.len(),
        )
    })
}

#[rustfmt::skip]
pub(crate) fn write(t: &Table, text: &[u8], first: u32, plain: bool, out: &mut [u8]) -> Result<usize, Refusal> {
    // SAFETY: each pointer and length are of one slice, borrowed for the call; `out` is borrowed mutably, so it overlaps no other.
    length_of(unsafe {
        opb_write(
            t.kinds.as_ptr(), t.kinds.len(), t.firsts.as_ptr(), t.firsts.len(), t.counts.as_ptr(), t.counts.len(),
            t.bounds.as_ptr(), t.bounds.len(), t.weights.as_ptr(), t.weights.len(), t.literals.as_ptr(), t.literals.len(),
            text.as_ptr(), text.len(), first, plain as u8, out.as_mut_ptr(), out.len(),
        )
    })
}

#[rustfmt::skip]
pub(crate) fn list(t: &Table, rows: usize, first: u32, out: &mut [u8]) -> Result<usize, Refusal> {
    // SAFETY: each pointer and length are of one slice, borrowed for the call; `out` is borrowed mutably, so it overlaps no other.
    length_of(unsafe {
        opb_list(
            t.kinds.as_ptr(), t.kinds.len(), t.firsts.as_ptr(), t.firsts.len(), t.counts.as_ptr(), t.counts.len(),
            t.bounds.as_ptr(), t.bounds.len(), t.weights.as_ptr(), t.weights.len(), t.literals.as_ptr(), t.literals.len(),
            rows, first, out.as_mut_ptr(), out.len(),
        )
    })
}
