//! Refusals as a person needs them.
use crate::advice;
use crate::input::Input;
use crate::lines::{lines, Line};
use crate::output::Status;
use opb::{Reason, Refusal};

/// How many bytes of a line are shown, and how many of them before the place.
const SHOWN: usize = 72;
const BEFORE: usize = 24;

/// How many objectives are named, where there are too many.
const NAMED: usize = 20;

/// The line that a byte of the file lies in.
fn line_at(file: &[u8], place: usize) -> Option<Line<'_>> {
    lines(file).find(|line| place < line.start + line.bytes.len())
}

/// The line that holds a row of an accepted file. No statement goes over the end of a line, so each line is a file of its own, whose rows can be counted.
fn line_of_row(file: &[u8], first: u32, row: u64) -> Option<Line<'_>> {
    let mut rows = 0;
    lines(file).find(|line| {
        rows += opb::count(line.bytes, first).map_or(0, |size| size.rows as u64);
        row < rows
    })
}

/// The line that holds each of these rows, which rise.
pub fn lines_of_rows<'a>(file: &'a [u8], first: u32, rows: &[usize]) -> Vec<Line<'a>> {
    let (mut before, mut found) = (0, Vec::new());
    for line in lines(file) {
        before += opb::count(line.bytes, first).map_or(0, |size| size.rows);
        found.resize(rows.partition_point(|row| *row < before), line);
        if found.len() == rows.len() {
            break;
        }
    }
    found
}

/// One column for each byte, so that a mark below stands at its place.
fn shown(byte: u8) -> char {
    match byte {
        b' '..=b'~' => byte as char,
        b'\t' => ' ',
        _ => '?',
    }
}

/// The line's text, cut to the part near a place in it, and how far from its left edge that place is then.
pub fn part(line: &Line, at: usize) -> (String, usize) {
    let ending = line.bytes.iter().rev().take_while(|byte| matches!(**byte, b'\n' | b'\r')).count();
    let text = &line.bytes[..line.bytes.len() - ending];
    let from = at.saturating_sub(BEFORE).min(text.len());
    let to = (from + SHOWN).min(text.len());
    let cut = if from > 0 { "..." } else { "" };
    let more = if to < text.len() { "..." } else { "" };
    let part: String = text[from..to].iter().copied().map(shown).collect();
    (format!("{}{}{}", cut, part, more), cut.len() + at - from)
}

/// The same behind the line's number.
pub fn excerpt(line: &Line, at: usize) -> (String, usize) {
    let (number, (part, left)) = (format!("  {} | ", line.number), part(line, at));
    (format!("{}{}", number, part), number.len() + left)
}

/// The command lends as much room as is needed, so where there is none it is memory that is missing.
pub fn status_of(refusal: &Refusal) -> Status {
    match refusal.reason {
        Reason::Rows | Reason::Terms | Reason::Output => Status::Trouble,
        _ => Status::Refused,
    }
}

fn not_enough(name: &str, refusal: &Refusal, what: &str) -> String {
    format!("{}: there is not enough memory for {} {}\n", name, refusal.place, what)
}

/// What cannot be had is memory: the command lends as much room as is needed.
fn no_memory(name: &str, refusal: &Refusal) -> Option<String> {
    let what = match refusal.reason {
        Reason::Rows => "rows",
        Reason::Terms => "terms",
        Reason::Output => "bytes of output",
        _ => return None,
    };
    Some(not_enough(name, refusal, what))
}

fn message(name: &str, refusal: &Refusal, place: &str, text: &str, advice: &str) -> String {
    let reason = refusal.reason;
    format!("{}: refused ({}){}: {}\n{}  what to do: {}\n", name, reason.number(), place, reason.meaning(), text, advice)
}

/// Of a refusal at a byte of this line.
pub fn of_line(input: &Input, line: &Line, refusal: &Refusal) -> String {
    let at = refusal.place as usize - line.start;
    let (text, left) = excerpt(line, at);
    let place = format!(" at line {}, column {}", line.number, at + 1);
    let marked = format!("{}\n{}^\n", text.trim_end(), " ".repeat(left));
    message(&input.name, refusal, &place, &marked, &advice::of(&input.bytes, line, refusal))
}

/// Of a file that was refused: the place is a byte of it.
pub fn of_file(input: &Input, refusal: &Refusal) -> String {
    if let Some(text) = no_memory(&input.name, refusal) {
        return text;
    }
    // what is too long has no line at fault
    let line = if refusal.reason == Reason::FileLength { None } else { line_at(&input.bytes, refusal.place as usize) };
    match line {
        Some(line) => of_line(input, &line, refusal),
        None => message(&input.name, refusal, "", "", refusal.reason.advice()),
    }
}

/// Where a row of an accepted file is, in words, and its line.
fn row_place(input: &Input, first: u32, row: u64) -> (String, String) {
    match line_of_row(&input.bytes, first, row) {
        Some(line) => (format!(" at line {} (row {}, counted from 0)", line.number, row), format!("{}\n", excerpt(&line, 0).0)),
        None => (format!(" at row {} (counted from 0)", row), String::new()),
    }
}

/// Of a row of an accepted file that cannot be rewritten.
pub fn of_row(input: &Input, first: u32, refusal: &Refusal) -> String {
    if let Some(text) = no_memory(&input.name, refusal) {
        return text;
    }
    let (place, text) = row_place(input, first, refusal.place);
    message(&input.name, refusal, &place, &text, refusal.reason.advice())
}

/// Of a plan with several objectives, which no solver takes: the lines of the first of them.
pub fn of_objectives(input: &Input, first: u32, rows: &[usize]) -> String {
    let lines: Vec<String> = lines_of_rows(&input.bytes, first, &rows[..rows.len().min(NAMED)]).iter().map(|line| line.number.to_string()).collect();
    let more = if rows.len() > NAMED { ", ..." } else { "" };
    let advice = "leave one of them, or make them one `min:` whose weights say how much each counts";
    format!("{}: refused: there are {} objectives, at lines {}{}, and solvers take one at most\n  what to do: {}\n", input.name, rows.len(), lines.join(", "), more, advice)
}

/// What a variable is called in the plan; and in value lines, where its number is another there.
pub fn variable(index: u32, first: u32) -> String {
    let (in_plan, in_values) = (u64::from(index) + u64::from(first), u64::from(index) + 1);
    let other = if in_plan == in_values { String::new() } else { format!(" (x{} in value lines)", in_values) };
    format!("x{}{}", in_plan, other)
}

/// Of a row that cannot be evaluated, with the variable that has no value.
pub fn of_unknown(input: &Input, first: u32, refusal: &Refusal, unknown: Option<u32>) -> String {
    let (place, text) = row_place(input, first, refusal.place);
    let unknown = unknown.map_or(String::new(), |index| format!("  {} has no value\n", variable(index, first)));
    message(&input.name, refusal, &place, &(text + &unknown), refusal.reason.advice())
}

/// Of the constraints that fail, with the first of them.
pub fn of_failing(input: &Input, first: u32, row: u64, failing: usize, constraints: usize) -> String {
    let (place, text) = row_place(input, first, row);
    format!("{}: constraints that fail: {} of {}, the first{}\n{}", input.name, failing, constraints, place, text)
}

/// Of an output without value lines.
pub fn no_values(output: &Input, refusal: &Refusal) -> String {
    let advice = "see whether the solver found a solution, and let it print its values";
    format!("{}: refused ({}): the output has no value lines (lines that begin with `v`)\n  what to do: {}\n", output.name, refusal.reason.number(), advice)
}

/// Of values that need more words than can be had.
pub fn no_words(output: &Input, refusal: &Refusal) -> String {
    not_enough(&output.name, refusal, "words of values")
}
