//! The writer's rules of 01, written a second time: which row is refused, with which number, and what the Rust does with that row.

use crate::rules::M;
use crate::table::WriteCase;
use rustsat::{kind, Row, Writing};

/// A refused row: the number and the row's place
#[derive(Clone, Copy, Debug, PartialEq, Eq)]
pub struct Refused {
    pub number: u8,
    pub row: usize,
}

/// The first row that is refused; 14 is not judged here
pub fn refused(case: &WriteCase) -> Option<Refused> {
    (0..case.table.kinds.len()).find_map(|row| {
        let number = match case.table.row(row, &case.text) {
            Some(found) => number_of(&found, case),
            None => 11,
        };
        (number != 0).then(|| Refused { number, row })
    })
}

/// "Order per row: 11, 15, 13, 5 (file number), 8"; 0 where it is written
fn number_of(row: &Row, case: &WriteCase) -> u8 {
    let beyond = |number: i128| i64::try_from(number).is_err();
    let numbers = || row.terms.iter().map(|term| i128::from(term.1 / 2) + i128::from(case.first));
    match () {
        _ if !holdable(row) => 11,
        _ if row.text.contains(&b'\n') => 15,
        _ if row.kind == kind::COMMENT => 0,
        _ if row.terms.is_empty() && row.kind != kind::OBJECTIVE => 13,
        _ if numbers().any(|number| number > i128::from(u32::MAX)) => 5,
        _ if weight_sum(row) > M || beyond(bound_before(row)) || (case.plain && beyond(bound_after(row))) => 8,
        _ => 0,
    }
}

/// "Row 11 means: kind unknown, .. an index above its limit, or, for writing, .. a negative weight or a negative cardinality bound."
fn holdable(row: &Row) -> bool {
    let weighted = (kind::AT_LEAST..=kind::OBJECTIVE).contains(&row.kind);
    let counting = (kind::CARD_AT_LEAST..=kind::CARD_EQUAL).contains(&row.kind);
    row.kind <= kind::CARD_EQUAL && row.terms.iter().all(|term| term.1 / 2 <= 1_073_741_823 && (!weighted || term.0 >= 0)) && (!counting || row.bound >= 0)
}

/// "Clause and cardinality rows have every weight 1"
fn weight(row: &Row, term: &(i64, u32)) -> i128 {
    if row.kind >= kind::CLAUSE { 1 } else { i128::from(term.0) }
}

fn weight_sum(row: &Row) -> i128 {
    row.terms.iter().map(|term| weight(row, term)).sum()
}

fn at_most(row: &Row) -> bool {
    row.kind == kind::AT_MOST || row.kind == kind::CARD_AT_MOST
}

/// bound or offset before the fall
fn bound_before(row: &Row) -> i128 {
    match row.kind {
        kind::CLAUSE => 1,
        _ if at_most(row) => weight_sum(row) - i128::from(row.bound),
        _ => i128::from(row.bound),
    }
}

/// the weights of the literals that are written negated
fn fall(row: &Row) -> i128 {
    row.terms.iter().filter(|term| (term.1 % 2 == 1) != at_most(row)).map(|term| weight(row, term)).sum()
}

fn bound_after(row: &Row) -> i128 {
    if row.kind == kind::OBJECTIVE { bound_before(row) + fall(row) } else { bound_before(row) - fall(row) }
}

/// Whether the Rust does with a refused row, on its own, what docs/DIFFERENCES.md lists; the name of the difference
pub fn listed(refused: Refused, case: &WriteCase) -> Result<&'static str, String> {
    if refused.number == 11 {
        return Ok("row that no table may hold (11): the Rust's types rule it out, not asked");
    }
    let row = case.table.row(refused.row, &case.text).expect("a row that is not 11");
    if std::str::from_utf8(&row.text).is_err() {
        return Ok("writing a comment that is not UTF-8: the Rust's types rule it out, not asked");
    }
    let written = rustsat::write(&[row.clone()], case.first, case.plain);
    let panics = matches!(written, Writing::Panic(_));
    let (name, as_listed) = match refused.number {
        15 => ("LF in a comment: the Rust writes it (15)", written == Writing::Bytes([b"* ", &row.text[..], b"\n"].concat())),
        13 if i64::try_from(bound_before(&row)).is_err() => ("constraint without terms, bound beyond 64 bits: the Rust panics (13)", panics),
        13 => ("constraint without terms: the Rust writes it (13)", written == Writing::Bytes(bare(&row).into_bytes())),
        5 => ("file number beyond u32, writing: the Rust panics (5)", panics),
        _ if goes_on(&row, case.plain) => ("weights above M, writing: the Rust writes them (8)", !panics),
        _ => ("weights above M, or a bound or offset beyond 64 bits, writing: the Rust panics (8)", panics),
    };
    if as_listed { Ok(name) } else { Err(format!("not as listed: {name}: {written:?}")) }
}

/// what the Rust writes for a constraint without terms
fn bare(row: &Row) -> String {
    let operator = if row.kind == kind::EQUAL || row.kind == kind::CARD_EQUAL { "=" } else { ">=" };
    format!("{operator} {};\n", bound_before(row))
}

/// whether no sum that the Rust forms while writing goes beyond 64 bits
fn goes_on(row: &Row, plain: bool) -> bool {
    let summed = at_most(row) && weight_sum(row) > M;
    let within = |number: i128| i64::try_from(number).is_ok();
    // a constraint's fall is added up from 0, an objective's from its offset
    let falls = row.kind == kind::OBJECTIVE || fall(row) <= M;
    !summed && within(bound_before(row)) && (!plain || (falls && within(bound_after(row))))
}
