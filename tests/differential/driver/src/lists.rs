//! A sample of the oracle's answers as lists for a replay without Rust. tests/differential/README.md describes the lines.

use crate::compare::{accepted, ask_rust, in_domain, Rust};
use crate::files;
use crate::values::{bytes, form, items, six, Rows};
use crate::random::Random;
use crate::rows;
use crate::rules::{judge, Limits};
use crate::table::{Case, ReadCase, ValuesCase, WriteCase};
use crate::{blocks, valuing};
use rustsat::{kind, Known, Row, Valuing, Writing};
use std::collections::{BTreeMap, BTreeSet};

/// No list is longer than this, with room to spare in a buffer of 65,536 bytes
const LONGEST: usize = 60_000;
const READ_CASES: usize = 1200;
const WRITE_CASES: usize = 500;
const VALUE_CASES: usize = 1000;
/// A replay has so many words for each row
const VALUE_WORDS: usize = 4;

pub fn write(folder: &str, seed: u64) -> bool {
    std::fs::create_dir_all(folder).expect("the folder");
    let mut random = Random::new(seed);
    let mut short = files::exhaustive().skip(1).step_by(1009);
    let read = std::iter::from_fn(|| if random.once_in(5) { short.next() } else { None }.or_else(|| Some(files::random(&mut random))));
    save(folder, "read", &sample(lines_of(read, READ_CASES), READ_CASES));
    let mut random = Random::new(seed);
    let mut small = rows::exhaustive().step_by(101);
    let written = std::iter::from_fn(|| if random.once_in(5) { small.next() } else { None }.or_else(|| Some(rows::random(&mut random))));
    save(folder, "write", &sample(lines_of(written, WRITE_CASES), WRITE_CASES));
    let mut random = Random::new(seed);
    let mut short = blocks::exhaustive().step_by(1009);
    let values = std::iter::from_fn(|| if random.once_in(5) { short.next() } else { None }.or_else(|| Some(blocks::random(&mut random))));
    save(folder, "values", &sample(values.take(100 * VALUE_CASES).flat_map(|case| value_lines(&case)), VALUE_CASES));
    true
}

/// Lines of cases in the domain, none twice; of each sort no more than a share, so that the accepted ones, of many sorts, are most
fn sample(cases: impl Iterator<Item = (String, String)>, count: usize) -> Vec<String> {
    let (mut lines, mut sorts, mut known) = (Vec::new(), BTreeMap::<String, usize>::new(), BTreeSet::new());
    for (sort, line) in cases {
        let share = sorts.entry(sort).or_default();
        if lines.len() < count && line.len() < 600 && *share < count / 20 && known.insert(line.clone()) {
            *share += 1;
            lines.push(line);
        }
    }
    lines
}

fn lines_of(cases: impl Iterator<Item = Case>, count: usize) -> impl Iterator<Item = (String, String)> {
    cases.take(400 * count).filter_map(|case| line_of(&case))
}

fn line_of(case: &Case) -> Option<(String, String)> {
    match (case, ask_rust(case)) {
        (Case::Read(case), Rust::Read(reading)) => read_line(case, accepted(&reading)),
        (Case::Write(case), Rust::Write(Some(Writing::Bytes(bytes)))) => Some(write_line(case, &bytes)),
        _ => None,
    }
}

/// A line for each block of a case
fn value_lines(case: &Case) -> Vec<(String, String)> {
    match (case, ask_rust(case)) {
        (Case::Values(case), Rust::Values(answers)) => case.blocks.iter().zip(valuing::calls(case)).zip(&answers).filter_map(|((block, calls), answer)| value_line(case, block, &calls[0].before, answer.as_ref()?)).collect(),
        _ => Vec::new(),
    }
}

/// `BEFORE BLOCK AFTER`, in the domain and with few variables
fn value_line(case: &ValuesCase, block: &[u8], before: &Rows, (answer, after): &(Valuing, Known)) -> Option<(String, String)> {
    let few = before.length.max(after.length as u64) <= 64 * VALUE_WORDS as u64;
    if case.great || !few || !valuing::in_domain(block, before) {
        return None;
    }
    let shown = |known: &Known| {
        let mut letters = vec!['_'; known.length];
        known.values.iter().for_each(|&(variable, value)| letters[variable as usize] = if value { '1' } else { '0' });
        format!(".{}", letters.into_iter().collect::<String>())
    };
    let taken = *answer == Valuing::Success;
    let after = if taken { shown(after) } else { "-".into() };
    let before = Known { length: before.length as usize, values: before.all() };
    let letters = bytes(block);
    let sort = format!("{:?} {taken} {} {}", form(&letters, six), items(&letters, six).len(), block.iter().filter(|&&byte| byte == b'\n').count());
    Some((sort, format!("{} .{} {after}", shown(&before), hex(block))))
}

/// `FIRST LENGTH HEX 0`, or `FIRST LENGTH HEX 1 ROWS` and the rows
fn read_line(case: &ReadCase, rows: Option<Vec<Row>>) -> Option<(String, String)> {
    let judged = judge(&case.file, Limits::ours(case.first));
    let refusal = judged.refusal.map_or(0, |found| found.0);
    if !in_domain(&case.file, &judged, refusal) {
        return None;
    }
    let mut words = vec![case.first.to_string()];
    put_bytes(&mut words, &case.file);
    words.push(usize::from(rows.is_some()).to_string());
    let mut sort = format!("{refusal}");
    if let Some(rows) = rows {
        words.push(rows.len().to_string());
        rows.iter().for_each(|row| put_row(&mut words, row));
        rows.iter().for_each(|row| sort += &format!(" {}:{}", row.kind, row.terms.len()));
    }
    Some((sort, words.join(" ")))
}

/// `FIRST PLAIN ROWS`, the rows, a comment's followed by its bytes, and `LENGTH HEX` of what is written
fn write_line(case: &WriteCase, written: &[u8]) -> (String, String) {
    let rows = case.table.rows(&case.text).expect("rows that were written");
    let mut words = vec![case.first.to_string(), u8::from(case.plain).to_string(), rows.len().to_string()];
    let mut sort = format!("{}", case.plain);
    for row in &rows {
        put_row(&mut words, row);
        sort += &format!(" {}:{}", row.kind, row.terms.len());
        if row.kind == kind::COMMENT && !row.text.is_empty() {
            words.push(hex(&row.text));
        }
    }
    put_bytes(&mut words, written);
    (sort, words.join(" "))
}

/// `KIND BOUND COUNT` and so many `WEIGHT CODE`; a comment's count is the length of its text
fn put_row(words: &mut Vec<String>, row: &Row) {
    let count = if row.kind == kind::COMMENT { row.text.len() } else { row.terms.len() };
    words.extend([row.kind.to_string(), row.bound.to_string(), count.to_string()]);
    words.extend(row.terms.iter().flat_map(|term| [term.0.to_string(), term.1.to_string()]));
}

/// `LENGTH HEX`; no HEX where the length is 0
fn put_bytes(words: &mut Vec<String>, bytes: &[u8]) {
    words.push(bytes.len().to_string());
    if !bytes.is_empty() {
        words.push(hex(bytes));
    }
}

fn hex(bytes: &[u8]) -> String {
    bytes.iter().map(|byte| format!("{byte:02x}")).collect()
}

/// The lines in as many files as they need, each with the number of its lines before them
fn save(folder: &str, name: &str, lines: &[String]) {
    for (at, part) in parts(lines).iter().enumerate() {
        let text = format!("{}\n{}\n", part.len(), part.join("\n"));
        std::fs::write(format!("{folder}/{name}-{}.txt", at + 1), &text).expect("the list");
        println!("{name}-{}.txt: {} cases, {} bytes", at + 1, part.len(), text.len());
    }
}

fn parts(lines: &[String]) -> Vec<Vec<&str>> {
    let mut parts: Vec<Vec<&str>> = vec![Vec::new()];
    let mut length = 0;
    for line in lines {
        if length + line.len() + 1 > LONGEST - 8 {
            parts.push(Vec::new());
            length = 0;
        }
        length += line.len() + 1;
        parts.last_mut().expect("a part").push(line);
    }
    parts
}
