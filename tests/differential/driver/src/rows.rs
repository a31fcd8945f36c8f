//! Rows to write: all small ones, random ones around each limit, and rows that no table may hold.

use crate::files::FIRSTS;
use crate::random::Random;
use crate::table::{Case, Table, WriteCase};
use rustsat::{kind, Row};

/// Every row of at most two small terms, of every kind and some bounds, in both modes
pub fn exhaustive() -> impl Iterator<Item = Case> {
    let kinds = kind::AT_LEAST..=kind::CARD_EQUAL;
    let small = (0..3).flat_map(|weight| (0..4).map(move |code| (weight, code)));
    let pairs = small.clone().flat_map({
        let small = small.clone();
        move |one| small.clone().map(move |two| vec![one, two])
    });
    let sums: Vec<Vec<(i64, u32)>> = std::iter::once(Vec::new()).chain(small.map(|term| vec![term])).chain(pairs).collect();
    kinds.flat_map(move |row_kind| {
        let sums = sums.clone();
        [-1, 0, 1, 3].into_iter().flat_map(move |bound| sums.clone().into_iter().flat_map(move |terms| both_modes(Row { kind: row_kind, bound, terms, text: Vec::new() })))
    })
}

/// a row alone, in both modes, with three first indexes
fn both_modes(row: Row) -> impl Iterator<Item = Case> {
    [(0, false), (0, true), (1, false), (1, true), (4_294_967_294, false), (4_294_967_295, true)].into_iter().map(move |(first, plain)| {
        let (mut table, mut text) = (Table::default(), Vec::new());
        table.push(&row, &mut text);
        Case::Write(WriteCase { table, text, first, plain, room: None })
    })
}

/// A random table of a few rows
pub fn random(random: &mut Random) -> Case {
    let first = if random.once_in(3) { random.next() as u32 } else { random.of(&FIRSTS) };
    let (mut table, mut text) = (Table::default(), Vec::new());
    for _ in 0..random.of(&[0, 1, 1, 2, 3, 6]) {
        let row = row(random, first);
        table.push(&row, &mut text);
    }
    if random.once_in(8) {
        disorder(&mut table, random);
    }
    let room = random.once_in(6).then(|| random.below(80) as u32);
    Case::Write(WriteCase { table, text, first, plain: random.once_in(2), room })
}

fn row(random: &mut Random, first: u32) -> Row {
    let row_kind = if random.once_in(100) { random.next() as u8 } else { random.below(9) as u8 };
    if row_kind == kind::COMMENT {
        let text: &[u8] = random.of(&[&b"budget"[..], b"", b" ", "\u{e9}\u{4e2d}".as_bytes(), b"a\rb", b"a\r", b"objective offset for previous objective: 4", b"\xFF", b"a\nb"]);
        return Row { kind: row_kind, bound: random.below(3) as i64, terms: Vec::new(), text: text.to_vec() };
    }
    let count = random.of(&[0, 1, 1, 1, 2, 2, 3, 5]);
    let mut terms: Vec<(i64, u32)> = (0..count).map(|_| (weight(random), code(random, first))).collect();
    if random.once_in(6) {
        at_the_limit(&mut terms, random);
    }
    Row { kind: row_kind, bound: bound(random), terms, text: Vec::new() }
}

fn weight(random: &mut Random) -> i64 {
    match random.below(40) {
        0 => -1,
        1 => i64::MIN,
        2 => i64::MAX - random.below(2) as i64,
        3 => (random.next() >> 1) as i64,
        4..=15 => random.of_length(17) as i64,
        _ => random.below(5) as i64,
    }
}

fn code(random: &mut Random, first: u32) -> u32 {
    let index = match random.below(24) {
        0 => random.of(&[1_073_741_822, 1_073_741_823, 1_073_741_823, 1_073_741_824]),
        1 => (u32::MAX - first).saturating_add(random.below(2) as u32).min(1_073_741_823),
        2 => random.next() as u32 >> 2,
        3..=8 => random.of_length(9) as u32,
        _ => random.below(12) as u32,
    };
    2 * index + random.below(2) as u32
}

fn bound(random: &mut Random) -> i64 {
    match random.below(16) {
        0 => i64::MAX - random.below(4) as i64,
        1 => i64::MIN + random.below(4) as i64,
        2 => random.next() as i64,
        3..=5 => 0,
        6..=8 => random.of_length(17) as i64 * random.of(&[1, -1]),
        _ => random.below(9) as i64 - 2,
    }
}

/// the last weight is what is left up to M, or one more
fn at_the_limit(terms: &mut [(i64, u32)], random: &mut Random) {
    let before: i128 = terms.iter().rev().skip(1).map(|term| i128::from(term.0.max(0))).sum();
    if let Some(last) = terms.last_mut() {
        last.0 = i64::try_from(i128::from(i64::MAX) - before + i128::from(random.below(2))).unwrap_or(i64::MAX);
    }
}

/// terms that lie elsewhere: overlapping, or outside their column
fn disorder(table: &mut Table, random: &mut Random) {
    for at in 0..table.kinds.len() {
        let terms = table.weights.len() as u64;
        table.firsts[at] = if random.once_in(20) { u64::MAX - random.below(3) } else { random.below(terms + 1) };
        table.counts[at] = random.below(terms + 2 - table.firsts[at].min(terms));
    }
}
