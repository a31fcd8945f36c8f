//! Request A1's rules a second time, for blocks of value lines: what is ours, and what the Rust makes of a block, as docs/DIFFERENCES.md lists it.

use std::collections::HashMap;

/// The greatest number of a variable, from 1: "variable index: 1,073,741,823"
pub const GREATEST: u64 = 1 << 30;

/// What is lent to a call: both rows, and the length
#[derive(Clone, Debug, Default, PartialEq, Eq)]
pub struct Rows {
    pub length: u64,
    pub values: Vec<u64>,
    pub known: Vec<u64>,
}

impl Rows {
    pub fn room(&self) -> u64 {
        self.values.len().min(self.known.len()) as u64
    }

    /// The value of a variable, from 0, where it is known
    pub fn value(&self, variable: u64) -> Option<bool> {
        let bit = |words: &[u64]| words[(variable / 64) as usize] >> (variable % 64) & 1 == 1;
        if variable / 64 < self.room() && bit(&self.known) { Some(bit(&self.values)) } else { None }
    }

    pub fn set(&mut self, variable: u64, value: bool) {
        let (word, bit) = ((variable / 64) as usize, 1 << (variable % 64));
        self.values[word] = if value { self.values[word] | bit } else { self.values[word] & !bit };
        self.known[word] |= bit;
    }

    /// Both rows with so many words at least, the new ones 0
    pub fn grow(&mut self, words: usize) {
        self.values.resize(self.values.len().max(words), 0);
        self.known.resize(self.known.len().max(words), 0);
    }

    /// The variables that are known, in their order
    pub fn all(&self) -> Vec<(u32, bool)> {
        (0..64 * self.room()).filter_map(|variable| self.value(variable).map(|value| (variable as u32, value))).collect()
    }
}

#[derive(Clone, Copy, Debug, PartialEq, Eq)]
pub enum Form {
    Signed,
    Bits,
    Named,
}

/// A line without `v`, or a token, with its offset
pub enum Item {
    Untagged(usize),
    Token(usize, Vec<char>),
}

/// What a token says: a refusal, a panic of the Rust's, or the variables that become known
#[derive(Debug, PartialEq, Eq)]
pub enum Said {
    Refused(u8),
    Panic,
    Values(Vec<(u64, bool)>),
}

/// What a block comes to: the length and the variables with their values; or a refusal with its place
#[derive(Debug, PartialEq, Eq)]
pub enum Judged {
    Refused(u8, u64),
    Panic,
    Accepted(u64, HashMap<u64, bool>),
}

/// Whether a character is white space: ours are six bytes, the Rust's are Unicode's
type White = fn(char) -> bool;

pub fn six(letter: char) -> bool {
    matches!(letter, '\t' | '\n' | '\x0b' | '\x0c' | '\r' | ' ')
}

/// Bytes as characters
pub fn bytes(block: &[u8]) -> Vec<(usize, char)> {
    block.iter().map(|&byte| char::from(byte)).enumerate().collect()
}

/// "an `x` anywhere: x tokens. Else all behind the block's first byte, trimmed: `0` and `1` alone, but not just `0`: one string. Else signed numbers."
pub fn form(block: &[(usize, char)], white: White) -> Form {
    if block.iter().any(|letter| letter.1 == 'x') {
        return Form::Named;
    }
    let rest: Vec<char> = block.iter().skip(1).map(|letter| letter.1).collect();
    let solid = |letter: &char| !white(*letter);
    let (start, end) = (rest.iter().position(solid).unwrap_or(0), rest.iter().rposition(solid).map_or(0, |last| last + 1));
    let rest = &rest[start..end];
    if rest != ['0'] && rest.iter().all(|letter| matches!(letter, '0' | '1')) { Form::Bits } else { Form::Signed }
}

/// Lines and tokens in their order, up to a line without `v`
pub fn items(block: &[(usize, char)], white: White) -> Vec<Item> {
    let mut items = Vec::new();
    if block.is_empty() {
        items.push(Item::Untagged(0));
    }
    for line in block.split_inclusive(|letter| letter.1 == '\n') {
        if line[0].1 != 'v' {
            items.push(Item::Untagged(line[0].0));
            return items;
        }
        let tokens = line[1..].split(|letter| white(letter.1)).filter(|token| !token.is_empty());
        items.extend(tokens.map(|token| Item::Token(token[0].0, token.iter().map(|letter| letter.1).collect())));
    }
    items
}

/// Digits of any length as a number, up to a cap; none where another character is among them, or nothing
fn number(digits: &[char]) -> Option<u64> {
    let add = |sum: u64, letter: &char| letter.to_digit(10).map(|digit| (10 * sum + u64::from(digit)).min(1 << 40));
    if digits.is_empty() { None } else { digits.iter().try_fold(0, add) }
}

/// A sign before the rest: whether it negates
fn signed<'a>(token: &'a [char], signs: &[(char, bool)]) -> (bool, &'a [char]) {
    signs.iter().find(|sign| token.first() == Some(&sign.0)).map_or((false, token), |sign| (sign.1, &token[1..]))
}

/// The number and the sign of a token, or none for a bad one; and what stands behind the digits of an `x` token
pub fn read(form: Form, token: &[char]) -> Option<(bool, u64, usize)> {
    if form == Form::Signed {
        let (negated, digits) = signed(token, &[('-', true), ('+', false)]);
        return number(digits).map(|value| (negated, value, 0));
    }
    let (negated, named) = signed(token, &[('~', true), ('-', true)]);
    let digits = named.strip_prefix(&['x'][..])?;
    let count = digits.iter().take_while(|letter| letter.is_ascii_digit()).count();
    number(&digits[..count]).map(|value| (negated, value, digits.len() - count))
}

fn bits(token: &[char], length: u64) -> Said {
    Said::Values(token.iter().enumerate().map(|(at, bit)| (length + at as u64, *bit == '1')).collect())
}

/// What a token says by our rules
fn ours(form: Form, token: &[char], length: u64) -> Said {
    if form == Form::Bits {
        let end = length.checked_add(token.len() as u64);
        return if end.map_or(true, |end| end > GREATEST) { Said::Refused(5) } else { bits(token, length) };
    }
    match read(form, token) {
        None => Said::Refused(21),
        Some((_, _, left)) if left > 0 => Said::Refused(21),
        Some((_, 0, _)) if form == Form::Signed => Said::Values(Vec::new()),
        Some((negated, value, _)) if (1..=GREATEST).contains(&value) => Said::Values(vec![(value - 1, !negated)]),
        Some(_) => Said::Refused(5),
    }
}

/// What a token says to the Rust: signed numbers of 32 bits; of an `x` token the front; its own limit is an index of 2,147,483,647
fn theirs(form: Form, token: &[char], length: u64) -> Said {
    let last = i64::from(i32::MAX) as u64;
    match (form, read(form, token)) {
        (Form::Bits, _) => bits(token, length),
        (_, None) => Said::Refused(21),
        (Form::Signed, Some((_, 0, _))) => Said::Values(Vec::new()),
        (Form::Signed, Some((negated, value, _))) if value > last + u64::from(negated) => Said::Refused(5),
        (Form::Named, Some((_, value, _))) if value > u64::from(u32::MAX) => Said::Refused(5),
        (Form::Named, Some((_, value, _))) if value == 0 || value > last + 1 => Said::Panic,
        (_, Some((negated, value, _))) => Said::Values(vec![(value - 1, !negated)]),
    }
}

/// "21, 5, 22", then 12: the block on top of what is known
pub fn judge(block: &[u8], before: &Rows) -> Judged {
    let block = bytes(block);
    let (form, mut heard) = (form(&block, six), HashMap::new());
    for item in items(&block, six) {
        let (place, token) = match item {
            Item::Untagged(place) => return Judged::Refused(20, place as u64),
            Item::Token(place, token) => (place as u64, token),
        };
        let said = match ours(form, &token, before.length) {
            Said::Values(said) => said,
            Said::Refused(number) => return Judged::Refused(number, place),
            Said::Panic => unreachable!("we do not panic"),
        };
        if said.iter().any(|&(variable, value)| before.value(variable).or_else(|| heard.get(&variable).copied()) == Some(!value)) {
            return Judged::Refused(22, place);
        }
        heard.extend(said);
    }
    let length = heard.keys().map(|variable| variable + 1).fold(before.length, u64::max);
    let needed = length / 64 + u64::from(length % 64 != 0);
    if needed > before.room() { Judged::Refused(12, needed) } else { Judged::Accepted(length, heard) }
}

/// The Rust's way, with its conflict test: a variable that is known false is refused, whatever the token says, and one that is known true takes the new value. With the variables set up to a refusal.
pub fn judge_rust(block: &str, before: &Rows) -> (Judged, u64, HashMap<u64, bool>) {
    let letters: Vec<(usize, char)> = block.char_indices().collect();
    let (mut length, mut heard) = (before.length, HashMap::new());
    let form = form(&letters, char::is_whitespace);
    if form != Form::Named && letters.first().map_or(false, |letter| !letter.1.is_ascii()) {
        return (Judged::Panic, length, heard);
    }
    for item in items(&letters, char::is_whitespace) {
        let (place, token) = match item {
            Item::Untagged(place) => return (Judged::Refused(20, place as u64), length, heard),
            Item::Token(place, token) => (place as u64, token),
        };
        let said = match theirs(form, &token, length) {
            Said::Values(said) => said,
            Said::Refused(number) => return (Judged::Refused(number, place), length, heard),
            Said::Panic => return (Judged::Panic, length, heard),
        };
        for (variable, value) in said {
            if heard.get(&variable).copied().or_else(|| before.value(variable)) == Some(false) {
                return (Judged::Refused(22, place), length, heard);
            }
            heard.insert(variable, value);
            length = length.max(variable + 1);
        }
    }
    (Judged::Accepted(length, heard.clone()), length, heard)
}
