//! Holds the library's answers against the oracle's: what 01 promises on its domain, and outside it what docs/DIFFERENCES.md lists.

use crate::library::{Answer, Counts, Filled, ReadAnswer, Value, WriteAnswer};
use crate::meaning::{covered, holds, normalises, sum, Assignment};
use crate::rules::{judge, Index, Judged, Limits};
use crate::table::{Case, ReadCase, WriteCase};
use crate::{valuing, writing};
use rustsat::{kind, Known, Reading, Row, Valuing, Writing};

/// What was seen in a case, for the summary: the refusal, whether it lay in the domain, the differences asserted
#[derive(Debug, Default)]
pub struct Seen {
    pub refusal: u8,
    pub domain: bool,
    pub differences: Vec<&'static str>,
    /// rows and values that were compared with the Rust's
    pub rows: u64,
    pub values: u64,
    /// of each block of value lines its refusal and whether it lay in the domain
    pub blocks: Vec<(u8, bool)>,
}

pub type Verdict = Result<Seen, String>;

/// The oracle's answer to a case
#[derive(Debug)]
pub enum Rust {
    Read(Reading),
    Write(Option<Writing>),
    Values(Vec<Option<(Valuing, Known)>>),
    Unasked,
}

pub fn ask_rust(case: &Case) -> Rust {
    match case {
        Case::Read(case) => Rust::Read(rustsat::read(&case.file, case.first)),
        Case::Write(case) => Rust::Write(ask_writer(case)),
        Case::Values(case) => Rust::Values(valuing::ask(case)),
        Case::Long(_) => Rust::Unasked,
    }
}

/// only rows that the Rust's types can hold are given to it
fn ask_writer(case: &WriteCase) -> Option<Writing> {
    let utf8 = |row: &Row| std::str::from_utf8(&row.text).is_ok();
    match writing::refused(case) {
        Some(_) => None,
        None => case.table.rows(&case.text).filter(|rows| rows.iter().all(utf8)).map(|rows| rustsat::write(&rows, case.first, case.plain)),
    }
}

pub fn compare(case: &Case, answer: &Answer, rust: &Rust) -> Verdict {
    match (case, answer, rust) {
        (Case::Read(case), Answer::Read(answer), Rust::Read(reading)) => compare_read(case, answer, reading),
        (Case::Write(case), Answer::Write(answer), Rust::Write(written)) => compare_write(case, answer, written.as_ref()),
        (Case::Values(case), Answer::Values(answers), Rust::Values(rust)) => valuing::compare(case, answers, rust),
        (Case::Long(length), Answer::Long(counts), _) => compare_long(*length, counts),
        _ => Err("an answer to another question".into()),
    }
}

pub fn ensure(truth: bool, message: impl FnOnce() -> String) -> Result<(), String> {
    if truth { Ok(()) } else { Err(message()) }
}

fn compare_long(length: u64, counts: &Counts) -> Verdict {
    let refusal = if length > 1_073_741_823 { 1 } else { 2 };
    ensure(*counts == Counts { refusal, ..Counts::default() }, || format!("a file of {length} bytes: {counts:?}"))?;
    Ok(Seen { refusal, ..Seen::default() })
}

// ---- reading

fn compare_read(case: &ReadCase, answer: &ReadAnswer, reading: &Reading) -> Verdict {
    let judged = judge(&case.file, Limits::ours(case.first));
    let expected = expected_counts(case, &judged);
    let domain = in_domain(&case.file, &judged, expected.refusal);
    let ours = rows_read(case, &answer.read)?;
    if domain {
        same_rows(ours.as_deref(), reading)?;
    } else {
        same_but_listed(case, ours.as_deref(), reading, &judged)?;
    }
    as_predicted(case, reading)?;
    as_ruled(answer, &judged, expected)?;
    if ours.is_some() {
        let reference = if domain { accepted(reading).unwrap_or_default() } else { judged.rows.clone() };
        compare_meaning(case, answer, &reference)?;
    }
    let rows = if domain { answer.read.counts.rows } else { 0 };
    Ok(Seen { refusal: expected.refusal, domain, differences: differences(case, &judged, expected.refusal), rows, values: 2 * rows * case.assignments.len() as u64, ..Seen::default() })
}

/// The library against 01's own text: refusal and place, counts, what stays as it was
fn as_ruled(answer: &ReadAnswer, judged: &Judged, expected: Counts) -> Result<(), String> {
    ensure(answer.read.counts == expected, || format!("opb_read answers {:?}, by 01 it is {expected:?}", answer.read.counts))?;
    ensure(answer.count == unroomed(judged), || format!("opb_count answers {:?}, by 01 it is {:?}", answer.count, unroomed(judged)))?;
    let offsets = answer.read.table.kinds.iter().zip(&answer.read.table.firsts).zip(&judged.offsets).all(|((row_kind, first), offset)| *row_kind != kind::COMMENT || *first == *offset as u64);
    ensure(offsets, || format!("comments at {:?}, by 01 at {:?}", answer.read.table.firsts, judged.offsets))?;
    ensure(!answer.read.touched, || "opb_read changed what it should not".into())
}

/// rows and terms, or the refusal, where there is room for all
fn unroomed(judged: &Judged) -> Counts {
    match judged.refusal {
        Some((refusal, place)) => Counts { refusal, place: place as u64, ..Counts::default() },
        None => Counts { rows: judged.rows.len() as u64, terms: judged.rows.iter().map(|row| row.terms.len() as u64).sum(), ..Counts::default() },
    }
}

/// "9, then 10, once the whole file has read well"
fn expected_counts(case: &ReadCase, judged: &Judged) -> Counts {
    let counts = unroomed(judged);
    let lengths = case.lengths.unwrap_or([u32::MAX; 6]).map(u64::from);
    let room = |columns: &[u64]| *columns.iter().min().expect("a column");
    let refuse = |refusal, place| Counts { refusal, place, ..Counts::default() };
    match () {
        _ if counts.rows > room(&lengths[..4]) => refuse(9, counts.rows),
        _ if counts.terms > room(&lengths[4..]) => refuse(10, counts.terms),
        _ => counts,
    }
}

/// "Equality's domain: UTF-8 files without the operator `<`, with an LF behind every CR, with no 1, 5, 8, 9, 10, and whose rows the normaliser accepts."
pub fn in_domain(file: &[u8], judged: &Judged, refusal: u8) -> bool {
    !matches!(refusal, 1 | 5 | 8 | 9 | 10) && std::str::from_utf8(file).is_ok() && !judged.less_read && !lone_cr(file) && judged.rows.iter().all(normalises)
}

fn lone_cr(file: &[u8]) -> bool {
    (0..file.len()).any(|at| file[at] == b'\r' && file.get(at + 1) != Some(&b'\n'))
}

/// The rows in the columns that opb_read filled; a first term is the count of terms before it
fn rows_read(case: &ReadCase, read: &Filled) -> Result<Option<Vec<Row>>, String> {
    if read.counts.refusal != 0 {
        return Ok(None);
    }
    packed(read)?;
    let rows = read.table.rows(&case.file).ok_or("a row names terms or text that are not there")?;
    Ok(Some(rows))
}

fn packed(filled: &Filled) -> Result<(), String> {
    let mut before = 0;
    for (at, &row_kind) in filled.table.kinds.iter().enumerate().filter(|row| *row.1 != kind::COMMENT) {
        ensure(filled.table.firsts[at] == before, || format!("row {at} of kind {row_kind} begins at term {}, not {before}", filled.table.firsts[at]))?;
        before += filled.table.counts[at];
    }
    ensure(before == filled.counts.terms, || format!("{before} terms in the rows, {} counted", filled.counts.terms))
}

/// The Rust's rows where it "succeeds with nothing but blanks left", a comment's text as our rows have it
pub fn accepted(reading: &Reading) -> Option<Vec<Row>> {
    match reading {
        Reading::Rows(rows, left) if left.bytes().all(|byte| byte == b' ' || byte == b'\t') => Some(rows.iter().map(stripped).collect()),
        _ => None,
    }
}

fn stripped(row: &Row) -> Row {
    let text = row.text.strip_prefix(b"*").map(|text| text.strip_prefix(b" ").unwrap_or(text)).unwrap_or(&row.text);
    let text = text.strip_suffix(b"\r\n").or_else(|| text.strip_suffix(b"\n")).unwrap_or(text);
    Row { text: text.to_vec(), ..row.clone() }
}

fn same_rows(ours: Option<&[Row]>, reading: &Reading) -> Result<(), String> {
    let theirs = accepted(reading);
    ensure(ours == theirs.as_deref(), || format!("in the domain we read {ours:?}, the Rust {reading:?}"))
}

/// Outside the domain, where both accept: the Rust's rows are ours but for `<`, where it has b+1 and we b-1
fn same_but_listed(case: &ReadCase, ours: Option<&[Row]>, reading: &Reading, judged: &Judged) -> Result<(), String> {
    let panicked = judge(&case.file, Limits::rust(case.first)).refusal.is_some();
    let ours = match ours {
        Some(rows) if std::str::from_utf8(&case.file).is_ok() && !panicked => rows,
        _ => return Ok(()),
    };
    let mut theirs = accepted(reading).unwrap_or_default();
    theirs.iter_mut().zip(&judged.less).filter(|row| *row.1).for_each(|row| row.0.bound -= 2);
    ensure(ours == theirs, || format!("outside the domain we read {ours:?}, the Rust {reading:?}, which is not the listed difference"))
}

/// Whether the Rust does what docs/DIFFERENCES.md lists, for every file: the rules with the Rust's limits tell which
fn as_predicted(case: &ReadCase, reading: &Reading) -> Result<(), String> {
    let view = judge(&case.file, Limits::rust(case.first));
    let truth = match (view.refusal, reading) {
        _ if std::str::from_utf8(&case.file).is_err() => !matches!(reading, Reading::Rows(..)),
        (None, reading) => accepted(reading).as_ref() == Some(&view.rows),
        (Some((_, place)), Reading::Rows(rows, left)) => {
            view.unbegun && rows.iter().map(stripped).eq(view.rows.iter().cloned()) && left.trim_start_matches(|c| c == ' ' || c == '\t').as_bytes() == &case.file[place..]
        }
        (Some((5, _)), Reading::Panic(_)) => view.index != Some(Index::BeyondU32),
        (Some((8, _)), Reading::Panic(_)) => true,
        (Some((number, _)), Reading::Error(_)) => !view.unbegun && number != 8 && (number != 5 || view.index == Some(Index::BeyondU32)),
        _ => false,
    };
    ensure(truth, || format!("the Rust does not do what is listed: {reading:?}"))
}

/// The listed differences that a file shows; `as_predicted` and `same_but_listed` have asserted each
fn differences(case: &ReadCase, judged: &Judged, refusal: u8) -> Vec<&'static str> {
    let view = judge(&case.file, Limits::rust(case.first));
    let utf8 = std::str::from_utf8(&case.file).is_ok();
    let number = |judged: &Judged| judged.refusal.map_or(0, |found| found.0);
    let index = |found| number(judged) == 5 && judged.index == Some(found);
    let together = judged.refusal == view.refusal;
    let all = [
        (!utf8, "file that is not UTF-8: the Rust fails"),
        (utf8 && judged.less_read && number(&view) == 0, "`<`: the Rust takes b+1, we b-1"),
        (utf8 && number(&view) == 8 && !together, "`<` with b+1 beyond 64 bits: the Rust panics"),
        (utf8 && number(&view) == 8 && together, "`>` with b+1 beyond 64 bits: the Rust panics (8)"),
        (utf8 && number(judged) == 8 && !together, "absolute weights above M, or `<` with b-1 beyond 64 bits: the Rust goes on (8)"),
        (utf8 && index(Index::BelowFirst), "file number below the first index: the Rust panics (5)"),
        (utf8 && index(Index::AboveLimit) && together, "index above the Rust's own limit: the Rust panics (5)"),
        (utf8 && index(Index::AboveLimit) && !together, "index above our limit, within the Rust's: the Rust goes on (5)"),
        (utf8 && index(Index::BeyondU32), "file number beyond u32: both refuse (5)"),
        (utf8 && judged.unbegun && refusal == 2, "line that begins no statement: the Rust drops the rest in silence (2)"),
        (utf8 && judged.unbegun && refusal == 3, "statement that begins with a bad number: the Rust drops the rest in silence (3)"),
        (utf8 && lone_cr(&case.file), "CR with no LF behind it: both do the same"),
        (!judged.rows.iter().all(normalises), "row that the normaliser refuses: recorded alike"),
        (refusal == 9 || refusal == 10, "no room (9, 10)"),
    ];
    all.iter().filter(|item| item.0).map(|item| item.1).collect()
}

// ---- the meaning of what was read

/// Normaliser and evaluator against the evaluator of this run over the reference rows
fn compare_meaning(case: &ReadCase, answer: &ReadAnswer, reference: &[Row]) -> Result<(), String> {
    let normal = &answer.normal;
    let refused = reference.iter().position(|row| !normalises(row));
    let expected = match refused {
        Some(row) => Counts { refusal: 8, place: row as u64, ..Counts::default() },
        None => answer.read.counts,
    };
    ensure(normal.counts == expected, || format!("opb_normalise answers {:?}, by 01 it is {expected:?}", normal.counts))?;
    ensure(!normal.touched, || "opb_normalise changed what it should not".into())?;
    let rows = if refused.is_none() { normal_rows(normal, &answer.read, reference)? } else { Vec::new() };
    for (assignment, (plain, normal)) in case.assignments.iter().zip(&answer.values) {
        same_values(assignment, reference, plain)?;
        same_normal_values(assignment, reference, &rows, normal)?;
    }
    Ok(())
}

/// "Order and count of terms stay, packed row after row; comment rows are copied as they are", and no weight is negative
fn normal_rows(normal: &Filled, read: &Filled, reference: &[Row]) -> Result<Vec<Row>, String> {
    packed(normal)?;
    let entry = |filled: &Filled, at: usize| (filled.table.firsts[at], filled.table.counts[at], filled.table.bounds[at]);
    let copied = (0..reference.len()).filter(|&at| reference[at].kind == kind::COMMENT).all(|at| entry(normal, at) == entry(read, at));
    ensure(copied, || "a comment row is not copied as it is".into())?;
    let rows: Vec<Row> = (0..reference.len()).map(|at| normal.table.row(at, &[]).unwrap_or_default()).collect();
    let order = |row: &Row| row.terms.iter().map(|term| term.1 / 2).collect::<Vec<_>>();
    let fits = rows.iter().zip(reference).all(|(row, read)| row.kind == read.kind && order(row) == order(read) && row.terms.iter().all(|term| term.0 >= 0));
    ensure(fits, || format!("the normal rows are {rows:?}"))?;
    Ok(rows)
}

fn same_values(assignment: &Assignment, rows: &[Row], values: &[Value]) -> Result<(), String> {
    for (at, (row, value)) in rows.iter().zip(values).enumerate() {
        let expected = value_of(row, at, assignment);
        ensure(*value == expected, || format!("opb_evaluate answers {value:?} for row {at} under {assignment:x?}, it is {expected:?}"))?;
    }
    ensure(rows.len() == values.len(), || "a row without a value".into())
}

/// A normal row holds where the row read does, its sum as far from the bound; an objective has the same value
fn same_normal_values(assignment: &Assignment, rows: &[Row], normal: &[Row], values: &[Value]) -> Result<(), String> {
    for (at, (row, value)) in rows.iter().zip(values).enumerate() {
        let mut expected = value_of(row, at, assignment);
        if expected.refusal == 0 && row.kind != kind::OBJECTIVE {
            expected.value = i64::try_from(i128::from(expected.value) - i128::from(row.bound) + i128::from(normal[at].bound)).unwrap_or(i64::MIN);
        }
        ensure(*value == expected, || format!("opb_evaluate answers {value:?} for the normal row {at} under {assignment:x?}, it is {expected:?}"))?;
    }
    Ok(())
}

/// What evaluating a row answers: 11 for a comment, 12 for a variable beyond the words, else sum or value
fn value_of(row: &Row, at: usize, assignment: &Assignment) -> Value {
    let refuse = |refusal| Value { refusal, place: at as u64, value: 0, holds: 0, ones: 0 };
    let ones = assignment.iter().map(|word| u64::from(word.count_ones())).sum();
    let found = |value: i128, holds| Value { refusal: 0, place: 0, value: i64::try_from(value).expect("a sum within M"), holds, ones };
    match row.kind {
        kind::COMMENT => refuse(11),
        _ if !covered(row) => refuse(12),
        kind::OBJECTIVE => found(sum(row, assignment), 2),
        _ => found(sum(row, assignment), u8::from(holds(row, assignment))),
    }
}

// ---- writing

fn compare_write(case: &WriteCase, answer: &WriteAnswer, written: Option<&Writing>) -> Verdict {
    ensure(!answer.touched, || "opb_write changed what it should not".into())?;
    if let Some(refused) = writing::refused(case) {
        let as_due = (answer.refusal, answer.place) == (refused.number, refused.row as u64);
        ensure(as_due, || format!("opb_write answers {} at {}, by 01 it is {refused:?}", answer.refusal, answer.place))?;
        return Ok(Seen { refusal: refused.number, differences: vec![writing::listed(refused, case)?], ..Seen::default() });
    }
    let (expected, differences) = match written {
        Some(Writing::Bytes(bytes)) => (bytes.clone(), Vec::new()),
        Some(panic) => return Err(format!("the Rust cannot write it: {panic:?}")),
        None => (piecewise(case), vec!["writing a comment that is not UTF-8: the Rust's types rule it out, not asked"]),
    };
    let domain = differences.is_empty();
    if expected.len() > case.room.unwrap_or(u32::MAX) as usize {
        ensure((answer.refusal, answer.place) == (14, expected.len() as u64), || format!("opb_write answers {} at {}, not 14 at {}", answer.refusal, answer.place, expected.len()))?;
        return Ok(Seen { refusal: 14, differences: vec!["no room for the text (14): the length needed is that of the Rust's"], ..Seen::default() });
    }
    let told = (answer.refusal, &answer.bytes);
    ensure(told == (0, &expected), || format!("we write {:?} (refusal {}), the Rust {:?}", show(&answer.bytes), answer.refusal, show(&expected)))?;
    Ok(Seen { domain, differences, rows: if domain { case.table.kinds.len() as u64 } else { 0 }, ..Seen::default() })
}

/// the Rust's lines, and for a comment that it cannot hold the line it would be
fn piecewise(case: &WriteCase) -> Vec<u8> {
    let rows = case.table.rows(&case.text).expect("rows that no 11 refuses");
    let line = |row: &Row| match rustsat_line(row, case) {
        Some(Writing::Bytes(bytes)) => bytes,
        _ => [b"* ", &row.text[..], b"\n"].concat(),
    };
    rows.iter().flat_map(line).collect()
}

fn rustsat_line(row: &Row, case: &WriteCase) -> Option<Writing> {
    std::str::from_utf8(&row.text).ok()?;
    Some(rustsat::write(&[row.clone()], case.first, case.plain))
}

pub fn show(bytes: &[u8]) -> String {
    bytes.iter().flat_map(|&byte| std::ascii::escape_default(byte)).map(char::from).collect()
}
