//! The library's columns, and cases: what is asked of library and oracle.

use crate::meaning::Assignment;
use crate::values::Rows;
use rustsat::{kind, Row};

#[derive(Clone, Debug, Default, PartialEq, Eq)]
pub struct Table {
    pub kinds: Vec<u8>,
    pub firsts: Vec<u64>,
    pub counts: Vec<u64>,
    pub bounds: Vec<i64>,
    pub weights: Vec<i64>,
    pub literals: Vec<u32>,
}

impl Table {
    /// The row at a place, its comment taken from the text; none where terms or text lie outside
    pub fn row(&self, at: usize, text: &[u8]) -> Option<Row> {
        let (row_kind, first, count) = (self.kinds[at], self.firsts[at], self.counts[at]);
        let end = first.checked_add(count)?;
        let room = if row_kind == kind::COMMENT { text.len() } else { self.literals.len().min(self.weights.len()) };
        if end > room as u64 {
            return None;
        }
        let range = first as usize..end as usize;
        let bound = self.bounds[at];
        if row_kind == kind::COMMENT {
            return Some(Row { kind: row_kind, bound, terms: Vec::new(), text: text[range].to_vec() });
        }
        let terms = range.map(|place| (self.weights[place], self.literals[place])).collect();
        Some(Row { kind: row_kind, bound, terms, text: Vec::new() })
    }

    pub fn rows(&self, text: &[u8]) -> Option<Vec<Row>> {
        (0..self.kinds.len()).map(|at| self.row(at, text)).collect()
    }

    /// A row put behind the others; a comment's text goes behind the text
    pub fn push(&mut self, row: &Row, text: &mut Vec<u8>) {
        let (first, count) = if row.kind == kind::COMMENT { (text.len(), row.text.len()) } else { (self.weights.len(), row.terms.len()) };
        text.extend(&row.text);
        self.kinds.push(row.kind);
        self.firsts.push(first as u64);
        self.counts.push(count as u64);
        self.bounds.push(row.bound);
        self.weights.extend(row.terms.iter().map(|term| term.0));
        self.literals.extend(row.terms.iter().map(|term| term.1));
    }
}

#[derive(Clone, Debug)]
pub enum Case {
    Read(ReadCase),
    Write(WriteCase),
    Values(ValuesCase),
    /// a file of this length whose first byte is an LF; only the library is asked
    Long(u64),
}

#[derive(Clone, Debug)]
pub struct ReadCase {
    pub file: Vec<u8>,
    pub first: u32,
    /// lengths of the six columns lent; none: enough for any file of that length
    pub lengths: Option<[u32; 6]>,
    pub assignments: Vec<Assignment>,
}

#[derive(Clone, Debug)]
pub struct WriteCase {
    pub table: Table,
    pub text: Vec<u8>,
    pub first: u32,
    pub plain: bool,
    /// length of the output lent; none: enough
    pub room: Option<u32>,
}

#[derive(Clone, Debug)]
pub struct ValuesCase {
    pub before: Rows,
    /// blocks of value lines, read one after the other
    pub blocks: Vec<Vec<u8>>,
    /// whether the Rust is asked though its assignment takes a gibibyte
    pub great: bool,
}
