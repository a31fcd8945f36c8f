//! Blocks of value lines: all short ones over a small alphabet, on nothing and on a few assignments; some around the greatest index; random sequences of blocks on one assignment.

use crate::random::Random;
use crate::table::{Case, ValuesCase};
use crate::values::{Rows, GREATEST};

/// The telling bytes: digits that make strings and one that does not, a sign, the letters of both forms, a blank and a line ending
const BYTES: [u8; 8] = [b'0', b'1', b'2', b'-', b'x', b' ', b'\n', b'v'];

/// With the other signs and the other byte of a line ending
const MORE: [u8; 11] = [b'0', b'1', b'2', b'-', b'x', b' ', b'\n', b'v', b'+', b'~', b'\r'];

/// What damages a block: the telling bytes, other white space, a letter, and characters beyond ASCII, white space among them
const OTHERS: [&[u8]; 14] = [b"9", b"\t", b"\x0b", b"\x0c", b"a", b"X", b"o", b";", b"\0", b"\xC2\xA0", b"\xC2\x85", b"\xE2\x80\x83", b"\xC3\xA9", b"\xFF"];

/// Words lent where a case says nothing else
const WORDS: usize = 3;

fn nothing() -> Rows {
    Rows { length: 0, values: vec![0; WORDS], known: vec![0; WORDS] }
}

fn case(before: Rows, blocks: Vec<Vec<u8>>) -> Case {
    Case::Values(ValuesCase { before, blocks, great: false })
}

/// `v` and each string of at most `longest` of the bytes, the shortest first
fn blocks(bytes: &'static [u8], longest: u32) -> impl Iterator<Item = Vec<u8>> {
    let spelt = move |length: u32, code: usize| (0..length).map(move |at| bytes[code / bytes.len().pow(at) % bytes.len()]);
    (0..=longest).flat_map(move |length| (0..bytes.len().pow(length)).map(move |code| std::iter::once(b'v').chain(spelt(length, code)).collect()))
}

/// Assignments that a block is read on top of
const FIRSTS: [&str; 4] = ["v x1", "v ~x1 x2", "v 01", "v x2 -x12"];

/// Every block of `v` and up to six telling bytes; every one of up to four of more of them; every one of up to four on top of a few assignments; every two of up to two, one after the other
pub fn exhaustive() -> impl Iterator<Item = Case> {
    let alone = blocks(&BYTES, 6).chain(blocks(&MORE, 4)).map(|block| case(nothing(), vec![block]));
    let second = FIRSTS.iter().flat_map(|first| blocks(&BYTES, 4).map(move |block| case(nothing(), vec![first.as_bytes().to_vec(), block])));
    let pairs = blocks(&MORE, 2).flat_map(|first| blocks(&MORE, 2).map(move |second| case(nothing(), vec![first.clone(), second])));
    alone.chain(second).chain(pairs).chain(great())
}

/// Around the greatest index, where the Rust is asked though its assignment takes a gibibyte
fn great() -> impl Iterator<Item = Case> {
    let blocks = ["v 1073741824", "v -x1073741824", "v 1073741825", "v x1073741825", "v x2147483649", "v 2147483648", "v -2147483649", "v x4294967296"];
    let alone = blocks.into_iter().map(|block| ValuesCase { before: nothing(), blocks: vec![block.as_bytes().to_vec()], great: true });
    let strings = ["v 1", "v 10", "v 0"].into_iter().map(|block| ValuesCase { before: Rows { length: GREATEST - 1, ..nothing() }, blocks: vec![block.as_bytes().to_vec()], great: true });
    alone.chain(strings).map(Case::Values)
}

// ---- random ones

/// How the variables of a case are chosen: each one once, from the least on; or any, with one value each; or any with any value
#[derive(Clone, Copy)]
enum Style {
    Rising,
    Steady,
    Wild,
}

pub fn random(random: &mut Random) -> Case {
    let style = random.of(&[Style::Rising, Style::Rising, Style::Steady, Style::Wild]);
    let mut next = 1;
    let count = random.of(&[1, 1, 2, 3, 5]);
    let blocks = (0..count).map(|_| block(random, style, &mut next)).collect();
    case(before(random), blocks)
}

/// Mostly nothing; else some variables known, below the length or wherever, and rows of any few words
fn before(random: &mut Random) -> Rows {
    let words = |random: &mut Random| random.of(&[0, 1, 2, 3, 3, 4]);
    let many = |random: &mut Random, count: usize, mask: bool| (0..count).map(|_| random.next() & if mask { random.next() } else { u64::MAX }).collect::<Vec<u64>>();
    match random.below(8) {
        0..=3 => nothing(),
        4 => Rows { length: random.below(70), values: vec![0; words(random)], known: vec![0; words(random)] },
        5 | 6 => below_length(random),
        _ => {
            let length = random.of(&[0, 1, 64, 65, 191, 192, 193, GREATEST - 1, GREATEST, GREATEST + 1, u64::MAX - 63, u64::MAX]);
            let (values, known) = (words(random), words(random));
            Rows { length, values: many(random, values, false), known: many(random, known, true) }
        }
    }
}

fn below_length(random: &mut Random) -> Rows {
    let mut rows = nothing();
    rows.length = random.below(130);
    (0..rows.length).for_each(|variable| if random.once_in(3) { rows.set(variable, random.once_in(2)) });
    rows
}

fn block(random: &mut Random, style: Style, next: &mut u64) -> Vec<u8> {
    let form = random.below(3);
    let lines = random.of(&[1, 1, 1, 2, 3]);
    let mut block = Vec::new();
    for line in 0..lines {
        block.extend(b"v");
        let count = if form == 2 && line > 0 { 0 } else { random.of(&[0, 1, 2, 3, 6]) };
        (0..count).for_each(|_| token(&mut block, random, form, style, next));
        if line + 1 < lines || random.once_in(3) {
            block.extend(random.of(&[&b"\n"[..], b"\n", b"\r\n", b" \n"]));
        }
    }
    if random.once_in(3) {
        (0..=random.below(2)).for_each(|_| damage(&mut block, random));
    }
    block
}

fn token(block: &mut Vec<u8>, random: &mut Random, form: u64, style: Style, next: &mut u64) {
    let blanks = if random.once_in(12) { random.of(&[&b"\t"[..], b"\x0c ", b"\r", b"\x0b"]) } else { &b" "[..] };
    if form == 2 {
        // a string of zeros and ones, whole where the blanks are left out
        let bits = random.of(&[1, 2, 5, 66]);
        block.extend(if block.last() == Some(&b'v') { blanks } else { b"" });
        return block.extend((0..bits).map(|_| random.of(b"01")));
    }
    block.extend(blanks);
    let number = variable(random, style, next);
    let negated = match style {
        Style::Wild => random.once_in(2),
        _ => number % 3 == 0,
    };
    let zeros = if random.once_in(20) { "00" } else { "" };
    let sign = if form == 0 { random.of(&["", "", "+"]) } else { "" };
    let text = match (form, negated) {
        (0, true) => format!("-{zeros}{number}"),
        (0, false) => format!("{sign}{zeros}{number}"),
        (_, true) => format!("{}x{zeros}{number}", random.of(&["~", "-"])),
        (_, false) => format!("x{zeros}{number}"),
    };
    block.extend(text.as_bytes());
    if form == 0 && random.once_in(12) {
        block.extend(random.of(&[&b" 0"[..], b" -0", b" 000"]));
    }
}

/// A variable's number, from 1; now and then one around a limit, or of twenty digits
fn variable(random: &mut Random, style: Style, next: &mut u64) -> u64 {
    if random.once_in(60) {
        return random.of(&[0, GREATEST - 1, GREATEST, GREATEST + 1, 2_147_483_647, 2_147_483_648, 2_147_483_649, 4_294_967_295, 4_294_967_296, u64::MAX]);
    }
    if let Style::Rising = style {
        *next += random.of(&[1, 1, 1, 2, 40]);
        return *next - 1;
    }
    random.of(&[1, 2, 3, 4, 5, 6, 63, 64, 65, 127, 128, 129, 192, 193, 1000]) + random.below(2)
}

fn damage(block: &mut Vec<u8>, random: &mut Random) {
    let at = random.below(block.len() as u64 + 1) as usize;
    let bytes = if random.once_in(4) { random.of(&OTHERS).to_vec() } else { vec![random.of(&MORE)] };
    match random.below(5) {
        0 | 1 => drop(block.splice(at..at, bytes)),
        2 if at < block.len() => drop(block.splice(at..=at, bytes)),
        3 if at < block.len() => drop(block.remove(at)),
        _ => block.truncate(at),
    }
}
