//! An evaluator of its own, in whole numbers that cannot overflow here: what a row says of an assignment. Also what the normaliser asks of a row.

use rustsat::{kind, Row};

/// How many 64-bit words an assignment has in this run
pub const WORDS: usize = 2;

pub type Assignment = [u64; WORDS];

pub fn is_true(assignment: &Assignment, code: u32) -> bool {
    let variable = (code / 2) as usize;
    let value = assignment[variable / 64] >> (variable % 64) & 1 == 1;
    value != (code % 2 == 1)
}

/// The sum of the weights of the true literals
pub fn sum(row: &Row, assignment: &Assignment) -> i128 {
    row.terms.iter().filter(|term| is_true(assignment, term.1)).map(|term| term.0 as i128).sum()
}

/// Whether a constraint holds
pub fn holds(row: &Row, assignment: &Assignment) -> bool {
    let (sum, bound) = (sum(row, assignment), row.bound as i128);
    match row.kind {
        kind::AT_LEAST => sum >= bound,
        kind::AT_MOST => sum <= bound,
        _ => sum == bound,
    }
}

/// Whether every variable lies within an assignment
pub fn covered(row: &Row) -> bool {
    row.terms.iter().all(|term| ((term.1 / 2) as usize) < 64 * WORDS)
}

/// Whether the row has a normal row: the bound, moved by the negative weights, is in signed 64 bits
pub fn normalises(row: &Row) -> bool {
    let negative: i128 = row.terms.iter().map(|term| (term.0 as i128).min(0)).sum();
    let bound = row.bound as i128;
    let moved = if row.kind == kind::OBJECTIVE { bound + negative } else { bound - negative };
    i64::try_from(moved).is_ok()
}
