//! Planted faults: the library's answers told wrong on purpose, to show that the run finds each.

use crate::library::{Answer, ReadAnswer, Valued};
use crate::rules::{judge, Limits};
use crate::table::{Case, ReadCase};
use rustsat::kind;

pub const NAMES: [&str; 10] = ["bound", "less", "row", "silent", "sign", "value", "tilde", "conflict", "length", "known"];

/// Tells an answer wrong, where it has what the fault needs
pub fn plant(fault: &str, case: &Case, answer: &mut Answer) {
    match (fault, case, answer) {
        ("tilde", _, Answer::Write(answer)) => answer.bytes.retain(|&byte| byte != b'~'),
        (_, _, Answer::Values(answers)) => answers.iter_mut().flatten().for_each(|answer| misvalue(fault, answer)),
        ("silent", Case::Read(case), Answer::Read(answer)) => silent(case, answer),
        ("less", Case::Read(case), Answer::Read(answer)) => less(case, answer),
        (_, Case::Read(_), Answer::Read(answer)) if answer.read.counts.refusal == 0 => misread(fault, answer),
        _ => (),
    }
}

fn misread(fault: &str, answer: &mut ReadAnswer) {
    let table = &mut answer.read.table;
    match fault {
        // a bound off by one
        "bound" => table.kinds.iter().zip(&mut table.bounds).filter(|row| *row.0 == kind::AT_LEAST).for_each(|row| *row.1 = row.1.wrapping_add(1)),
        // a dropped row, the last one where there are two or more
        "row" if table.kinds.len() > 1 => drop_row(answer),
        // a negation lost
        "sign" => table.literals.iter_mut().for_each(|code| *code &= !1),
        // an evaluator that takes "equal" for "at least"
        "value" => answer.values.iter_mut().for_each(|(values, _)| values.iter_mut().zip(&table.kinds).filter(|value| *value.1 == kind::EQUAL).for_each(|value| value.0.holds = 1)),
        _ => (),
    }
}

fn misvalue(fault: &str, answer: &mut Valued) {
    match fault {
        // a conflict that is not seen, as the Rust does not where the variable is true
        "conflict" if answer.refusal == 22 => (answer.refusal, answer.place) = (0, 0),
        // a length that the greatest variable is not within
        "length" if answer.refusal == 0 => answer.length -= u64::from(answer.length > 1),
        // variables that have a value and are not known
        "known" if answer.refusal == 0 => answer.known.iter_mut().for_each(|word| *word &= word.wrapping_sub(1)),
        _ => (),
    }
}

fn drop_row(answer: &mut ReadAnswer) {
    let read = &mut answer.read;
    let count = if read.table.kinds.pop() == Some(kind::COMMENT) { 0 } else { read.table.counts[read.table.counts.len() - 1] };
    read.table.firsts.pop();
    read.table.counts.pop();
    read.table.bounds.pop();
    read.counts.rows -= 1;
    read.counts.terms -= count;
    read.table.weights.truncate(read.counts.terms as usize);
    read.table.literals.truncate(read.counts.terms as usize);
    answer.count = read.counts;
    answer.normal.counts = read.counts;
}

/// `<` read as `<=`
fn less(case: &ReadCase, answer: &mut ReadAnswer) {
    let judged = judge(&case.file, Limits::ours(case.first));
    answer.read.table.bounds.iter_mut().zip(&judged.less).filter(|row| *row.1).for_each(|row| *row.0 += 1);
}

/// the rest of the file dropped in silence from a line that begins no statement, as the Rust does: only where no row stands before it, so that the answer is the empty table
fn silent(case: &ReadCase, answer: &mut ReadAnswer) {
    let judged = judge(&case.file, Limits::ours(case.first));
    if judged.rows.is_empty() && answer.read.counts.refusal == 2 {
        answer.read = Default::default();
        answer.count = Default::default();
    }
}
