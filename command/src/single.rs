//! Rows in which each variable stands once, and with a weight that is not 0: Sat4j 2.3.5 has wrong answers where a variable stands in a row twice, toulbar2 1.1.1 where a weight is 0, and a wrong
//! "none" cannot be found out. Only such rows are touched; each means what it meant.
use opb::{Kind, Reason, Refusal, Table};
use std::collections::{HashMap, HashSet};
use std::ops::Range;

/// Weight and literal.
type Term = (i64, u32);

fn variable(literal: u32) -> u32 {
    literal / 2
}

fn terms_of(table: &Table, row: usize) -> Range<usize> {
    table.firsts[row]..table.firsts[row] + table.counts[row]
}

/// Mends the rows of a table without negative weights, in the place where their terms are. A row that has no other term keeps one of weight 0; so does a variable that has no other weight, since a value
/// is asked for it.
pub fn mend(table: &mut Table) -> Result<(), Refusal> {
    let mut room = Vec::new();
    let rows: Vec<usize> = (0..table.kinds.len()).filter(|row| table.kind(*row) != Some(Kind::Comment) && is_to_mend(table, *row, &mut room)).collect();
    for row in &rows {
        add_up(table, *row)?;
    }
    let only_zeros = without_weight(table, &rows);
    rows.iter().for_each(|row| leave_out_zeros(table, *row, &only_zeros));
    Ok(())
}

/// Where variables rise, as in most plans, none stands twice; else they are sorted in a room that is used again.
fn is_to_mend(table: &Table, row: usize, room: &mut Vec<u32>) -> bool {
    let (weights, literals) = (&table.weights[terms_of(table, row)], &table.literals[terms_of(table, row)]);
    if weights.contains(&0) {
        return true;
    }
    if literals.windows(2).all(|pair| variable(pair[0]) < variable(pair[1])) {
        return false;
    }
    room.clear();
    room.extend(literals.iter().map(|literal| variable(*literal)));
    room.sort_unstable();
    room.windows(2).any(|pair| pair[0] == pair[1])
}

/// The terms of each variable become one: 3 x1 + 2 ~x1 is 1 x1 + 2, and the 2 goes to the bound, or to an objective's offset.
fn add_up(table: &mut Table, row: usize) -> Result<(), Refusal> {
    let (terms, constant) = added_up(&table.weights[terms_of(table, row)], &table.literals[terms_of(table, row)]);
    let bound = table.bounds[row];
    let moved = if table.kind(row) == Some(Kind::Objective) { bound.checked_add(constant) } else { bound.checked_sub(constant) };
    table.bounds[row] = moved.ok_or(Refusal { reason: Reason::Overflow, place: row as u64 })?;
    put(table, row, &terms);
    Ok(())
}

/// In the order of their first terms, and the sum that is left. No sum is beyond 64 bits: a row's weights add up to no more.
fn added_up(weights: &[i64], literals: &[u32]) -> (Vec<Term>, i64) {
    let (mut places, mut sums, mut constant) = (HashMap::new(), Vec::new(), 0);
    for (weight, literal) in weights.iter().zip(literals) {
        let place = *places.entry(variable(*literal)).or_insert(sums.len());
        if place == sums.len() {
            sums.push((0, literal - literal % 2));
        }
        let negated = literal % 2 == 1;
        sums[place].0 += if negated { -weight } else { *weight };
        constant += if negated { *weight } else { 0 };
    }
    let below: i64 = sums.iter().map(|sum| sum.0.min(0)).sum();
    let terms = sums.into_iter().map(|(sum, literal)| if sum < 0 { (-sum, literal + 1) } else { (sum, literal) });
    (terms.collect(), constant + below)
}

/// No more terms than the row has.
fn put(table: &mut Table, row: usize, terms: &[Term]) {
    let first = table.firsts[row];
    table.counts[row] = terms.len();
    for (place, (weight, literal)) in terms.iter().enumerate() {
        table.weights[first + place] = *weight;
        table.literals[first + place] = *literal;
    }
}

/// The variables of these rows that have no weight but 0 in the whole table.
fn without_weight(table: &Table, rows: &[usize]) -> HashSet<u32> {
    let zeros = rows.iter().flat_map(|row| terms_of(table, *row)).filter(|term| table.weights[*term] == 0);
    let mut zeros: HashSet<u32> = zeros.map(|term| variable(table.literals[term])).collect();
    if !zeros.is_empty() {
        let all = (0..table.kinds.len()).filter(|row| table.kind(*row) != Some(Kind::Comment)).flat_map(|row| terms_of(table, row));
        for term in all.filter(|term| table.weights[*term] != 0) {
            zeros.remove(&variable(table.literals[term]));
        }
    }
    zeros
}

fn leave_out_zeros(table: &mut Table, row: usize, only_zeros: &HashSet<u32>) {
    let terms = terms_of(table, row).map(|term| (table.weights[term], table.literals[term]));
    let (kept, zeros): (Vec<Term>, Vec<Term>) = terms.partition(|(weight, literal)| *weight != 0 || only_zeros.contains(&variable(*literal)));
    put(table, row, if kept.is_empty() { &zeros[..zeros.len().min(1)] } else { &kept });
}
