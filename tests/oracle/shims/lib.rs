//! The oracle: rustsat's reader and writer of OPB files, and its reader of a solver's value lines, each as one function over plain data.
//!
//! rustsat's own: types.rs, instances.rs, instances/fio.rs, instances/fio/opb.rs, byte for byte. Shims, written for this test: this file, solvers.rs, types/constraints.rs, instances/sat.rs,
//! instances/opt.rs, instances/fio/dimacs.rs and the crate `visibility`. A shim records what it is given and computes nothing.
#![allow(warnings)]

pub mod instances;
pub mod solvers;
pub mod types;

use instances::fio::opb::{count_statements, read_rows, write_goal, write_opb_lines, FileLine, Options};
use std::cell::Cell;
use std::io::{self, BufRead, Read};
use std::panic::{catch_unwind, set_hook, take_hook, AssertUnwindSafe};
use types::constraints::{CardConstraint, Clause, PbConstraint};
use types::{Assignment, Lit, TernaryVal, Var};

/// The kinds of rows, numbered as in the columns of the library under test.
pub mod kind {
    pub const COMMENT: u8 = 0;
    pub const AT_LEAST: u8 = 1;
    pub const AT_MOST: u8 = 2;
    pub const EQUAL: u8 = 3;
    pub const OBJECTIVE: u8 = 4;
    pub const CLAUSE: u8 = 5;
    pub const CARD_AT_LEAST: u8 = 6;
    pub const CARD_AT_MOST: u8 = 7;
    pub const CARD_EQUAL: u8 = 8;
}

/// A row, read or to be written: a comment has a text; any other has terms (weight and literal code) and a bound, or an objective's offset
#[derive(Clone, Debug, Default, PartialEq, Eq)]
pub struct Row {
    pub kind: u8,
    pub bound: i64,
    pub terms: Vec<(i64, u32)>,
    pub text: Vec<u8>,
}

impl Row {
    /// The text of a comment as the Rust keeps it, from its `*` to its line ending
    pub fn comment(text: String) -> Row {
        Row { text: text.into_bytes(), ..Row::default() }
    }
}

/// What the Rust makes of a file
#[derive(Clone, Debug, PartialEq, Eq)]
pub enum Reading {
    /// success, with the part of the file that is left unread and of which the caller hears nothing
    Rows(Vec<Row>, String),
    Error(String),
    Panic(String),
}

/// What the Rust writes
#[derive(Clone, Debug, PartialEq, Eq)]
pub enum Writing {
    Bytes(Vec<u8>),
    Panic(String),
}

/// An assignment: its length, and the variables that it has a value for, in their order
#[derive(Clone, Debug, Default, PartialEq, Eq)]
pub struct Known {
    pub length: usize,
    pub values: Vec<(u32, bool)>,
}

/// What the Rust makes of a block of value lines
#[derive(Clone, Debug, PartialEq, Eq)]
pub enum Valuing {
    Success,
    Error(String),
    Panic(String),
}

/// Hands out a file and keeps what `parse_opb_data` still has in its buffer whenever it asks for the next line. At the end of the file that is the leftover.
struct Watched<'a> {
    file: &'a [u8],
    left: String,
}

impl Read for Watched<'_> {
    fn read(&mut self, out: &mut [u8]) -> io::Result<usize> {
        self.file.read(out)
    }
}

impl BufRead for Watched<'_> {
    fn fill_buf(&mut self) -> io::Result<&[u8]> {
        Ok(self.file)
    }

    fn consume(&mut self, count: usize) {
        self.file.consume(count);
    }

    fn read_line(&mut self, line: &mut String) -> io::Result<usize> {
        self.left.clone_from(line);
        self.file.read_line(line)
    }
}

/// `parse_opb_data` on a file
pub fn read(file: &[u8], first: u32) -> Reading {
    let options = Options { first_var_idx: first, no_negated_lits: true };
    let mut watched = Watched { file, left: String::new() };
    match caught(|| read_rows(&mut watched, options)) {
        Ok(Ok(rows)) => Reading::Rows(rows, watched.left),
        Ok(Err(error)) => Reading::Error(error.to_string()),
        Err(panic) => Reading::Panic(panic),
    }
}

/// How many statements `parse_opb_data` finds, for bench/: nothing is recorded and no panic caught
pub fn count(mut file: &[u8], first: u32) -> Option<usize> {
    count_statements(&mut file, Options { first_var_idx: first, no_negated_lits: true }).ok()
}

/// Rows as `write_opb_lines` takes them, for bench/
pub struct Lines(Vec<FileLine<Vec<(Lit, usize)>>>);

impl Lines {
    pub fn of(rows: &[Row]) -> Lines {
        Lines(rows.iter().map(line).collect())
    }

    pub fn write(self, out: &mut Vec<u8>, first: u32, plain: bool) {
        write_opb_lines(out, self.0.into_iter(), Options { first_var_idx: first, no_negated_lits: plain }).unwrap();
    }
}

/// `write_opb_lines` on rows; an objective that has an offset goes to `write_objective`
pub fn write(rows: &[Row], first: u32, plain: bool) -> Writing {
    let options = Options { first_var_idx: first, no_negated_lits: plain };
    let mut out = Vec::new();
    match caught(|| rows.iter().for_each(|row| write_row(&mut out, row, options))) {
        Ok(()) => Writing::Bytes(out),
        Err(panic) => Writing::Panic(panic),
    }
}

fn write_row(out: &mut Vec<u8>, row: &Row, options: Options) {
    if row.kind == kind::OBJECTIVE && row.bound != 0 {
        write_goal(out, weighted(row), row.bound as isize, options).unwrap();
    } else {
        write_opb_lines(out, std::iter::once(line(row)), options).unwrap();
    }
}

fn line(row: &Row) -> FileLine<Vec<(Lit, usize)>> {
    let literals = || row.terms.iter().map(|term| literal(term.1)).collect::<Vec<_>>();
    match row.kind {
        kind::COMMENT => FileLine::Comment(String::from_utf8(row.text.clone()).expect("a comment to write is UTF-8")),
        kind::OBJECTIVE => FileLine::Objective(weighted(row)),
        kind::CLAUSE => FileLine::Clause(Clause::given(literals())),
        kind::CARD_AT_LEAST | kind::CARD_AT_MOST | kind::CARD_EQUAL => FileLine::Card(CardConstraint::given(row.kind, literals(), row.bound as usize)),
        _ => FileLine::Pb(PbConstraint::given(row.kind, weighted(row), row.bound as isize)),
    }
}

fn weighted(row: &Row) -> Vec<(Lit, usize)> {
    row.terms.iter().map(|&(weight, code)| (literal(code), weight as usize)).collect()
}

fn literal(code: u32) -> Lit {
    Var::new(code / 2).lit(code % 2 == 1)
}

/// `extend_from_vline` on an assignment: its answer, and the assignment afterwards, whatever the answer
pub fn extend(before: &Known, block: &str) -> (Valuing, Known) {
    let mut values = vec![TernaryVal::DontCare; before.length];
    before.values.iter().for_each(|&(variable, value)| values[variable as usize] = TernaryVal::from(value));
    let mut assignment = Assignment::from(values);
    let answer = match caught(|| assignment.extend_from_vline(block)) {
        Ok(Ok(())) => Valuing::Success,
        Ok(Err(error)) => Valuing::Error(error.to_string()),
        Err(panic) => Valuing::Panic(panic),
    };
    let values = assignment.iter().map(|literal| (literal.vidx32(), literal.is_pos())).collect();
    (answer, Known { length: assignment.len(), values })
}

thread_local! {
    static ASKED: Cell<bool> = Cell::new(false);
}

/// A panic of the Rust is an answer, and prints nothing; any other panic prints what it did before
pub fn quiet() {
    let before = take_hook();
    set_hook(Box::new(move |panic| {
        if !ASKED.with(Cell::get) {
            before(panic);
        }
    }));
}

/// What a call answers, or the message of its panic
fn caught<T>(call: impl FnOnce() -> T) -> Result<T, String> {
    ASKED.with(|asked| asked.set(true));
    let answer = catch_unwind(AssertUnwindSafe(call));
    ASKED.with(|asked| asked.set(false));
    answer.map_err(|panic| {
        let text = panic.downcast_ref::<&str>().map(|text| text.to_string());
        text.or_else(|| panic.downcast_ref::<String>().cloned()).unwrap_or_default()
    })
}
