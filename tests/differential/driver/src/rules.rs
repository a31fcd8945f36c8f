//! The text rules of 01, written a second time and apart from library and oracle, to tell in which class a file falls: refusal and place, the rows, whether `<` was read. `Limits` lets the same rules
//! say what the Rust takes, so that a listed difference can be asserted and not only counted.

use rustsat::{kind, Row};

pub const M: i128 = i64::MAX as i128;

#[derive(Clone, Copy)]
pub struct Limits {
    pub first: u32,
    /// greatest variable index
    pub index: i128,
    /// greatest sum of absolute weights
    pub sum: i128,
    /// what `< b` adds to b
    pub less: i128,
}

impl Limits {
    pub fn ours(first: u32) -> Limits {
        Limits { first, index: 1_073_741_823, sum: M, less: -1 }
    }

    /// The Rust has no limit on sums while it reads, its own limit on indexes, and takes `<` for b+1.
    pub fn rust(first: u32) -> Limits {
        Limits { first, index: 2_147_483_647, sum: i128::MAX, less: 1 }
    }
}

/// Why a literal is refused with 5; the Rust fails in another way for each
#[derive(Clone, Copy, Debug, PartialEq, Eq)]
pub enum Index {
    BeyondU32,
    BelowFirst,
    AboveLimit,
}

#[derive(Clone, Debug)]
pub struct Judged {
    /// the rows before the refusal, if there is one; a comment's text is the part that its row names
    pub rows: Vec<Row>,
    /// offset of each row's comment text, 0 for other rows
    pub offsets: Vec<usize>,
    /// whether each row has the operator `<`
    pub less: Vec<bool>,
    /// number and place
    pub refusal: Option<(u8, usize)>,
    pub index: Option<Index>,
    /// a `<` was read as an operator, in a refused statement too
    pub less_read: bool,
    /// refused before the Rust's parser is committed to the statement: it then stops and keeps the rest to itself
    pub unbegun: bool,
}

/// A file under the rules; `refusal` 9 and 10 are not judged here
pub fn judge(file: &[u8], limits: Limits) -> Judged {
    let judged = Judged { rows: Vec::new(), offsets: Vec::new(), less: Vec::new(), refusal: None, index: None, less_read: false, unbegun: false };
    let mut walk = Walk { file, at: 0, limits, judged };
    while walk.judged.refusal.is_none() && walk.another() {
        let start = walk.at;
        if let Err(number) = walk.statement() {
            walk.judged.refusal = Some((number, start));
            walk.at = start;
            walk.judged.unbegun = number == 2 || (!walk.is(b"m") && walk.number().is_err());
        }
    }
    walk.judged
}

struct Walk<'a> {
    file: &'a [u8],
    at: usize,
    limits: Limits,
    judged: Judged,
}

type Step<T> = Result<T, u8>;

impl Walk<'_> {
    fn byte(&self) -> Option<u8> {
        self.file.get(self.at).copied()
    }

    fn is(&self, text: &[u8]) -> bool {
        self.file[self.at..].starts_with(text)
    }

    fn passed(&mut self, text: &[u8]) -> bool {
        let there = self.is(text);
        self.at += if there { text.len() } else { 0 };
        there
    }

    fn run(&mut self, belongs: fn(u8) -> bool) -> &[u8] {
        let count = self.file[self.at..].iter().take_while(|&&byte| belongs(byte)).count();
        self.at += count;
        &self.file[self.at - count..self.at]
    }

    fn blanks(&mut self) -> usize {
        self.run(|byte| byte == b' ' || byte == b'\t').len()
    }

    /// whether something stands behind the blanks
    fn another(&mut self) -> bool {
        self.blanks();
        self.at < self.file.len()
    }

    fn statement(&mut self) -> Step<()> {
        match self.byte() {
            Some(b'*') => self.comment(),
            Some(b'0'..=b'9' | b'+' | b'-') => self.constraint(),
            _ if self.passed(b"min:") => self.objective(),
            _ => Err(2),
        }
    }

    fn keep(&mut self, row: Row, offset: usize, less: bool) {
        self.judged.rows.push(row);
        self.judged.offsets.push(offset);
        self.judged.less.push(less);
    }

    fn comment(&mut self) -> Step<()> {
        self.at += 1;
        self.passed(b" ");
        let start = self.at;
        while self.at < self.file.len() && !self.is(b"\n") && !self.is(b"\r\n") {
            self.at += 1;
        }
        let text = self.file[start..self.at].to_vec();
        self.line_ending();
        self.keep(Row { text, ..Row::default() }, start, false);
        Ok(())
    }

    fn objective(&mut self) -> Step<()> {
        self.blanks();
        let terms = self.sum()?;
        self.ending()?;
        self.within(&terms)?;
        self.keep(Row { kind: kind::OBJECTIVE, terms, ..Row::default() }, 0, false);
        Ok(())
    }

    fn constraint(&mut self) -> Step<()> {
        let terms = self.sum()?;
        let operators: [(&[u8], u8, i128); 5] =
            [(b"<=", kind::AT_MOST, 0), (b">=", kind::AT_LEAST, 0), (b"<", kind::AT_MOST, self.limits.less), (b">", kind::AT_LEAST, 1), (b"=", kind::EQUAL, 0)];
        let (text, row_kind, more) = *operators.iter().find(|operator| self.is(operator.0)).ok_or(6)?;
        self.at += text.len();
        self.judged.less_read |= text == b"<";
        self.blanks();
        let bound = self.number()? + more;
        self.ending()?;
        self.within(&terms)?;
        let bound = i64::try_from(bound).map_err(|_| 8)?;
        self.keep(Row { kind: row_kind, bound, terms, text: Vec::new() }, 0, text == b"<");
        Ok(())
    }

    fn within(&self, terms: &[(i64, u32)]) -> Step<()> {
        let sum: i128 = terms.iter().map(|term| (term.0 as i128).abs()).sum();
        if sum > self.limits.sum { Err(8) } else { Ok(()) }
    }

    fn sum(&mut self) -> Step<Vec<(i64, u32)>> {
        let mut terms = Vec::new();
        while let Some(b'0'..=b'9' | b'+' | b'-') = self.byte() {
            terms.push(self.term()?);
        }
        Ok(terms)
    }

    fn term(&mut self) -> Step<(i64, u32)> {
        let weight = self.number()?;
        if self.blanks() == 0 {
            return Err(4);
        }
        let negated = self.passed(b"~") || self.passed(b"-");
        if !self.passed(b"x") {
            return Err(4);
        }
        let index = self.digits().ok_or(4u8).and_then(|number| self.index(number))?;
        self.blanks();
        Ok((weight as i64, 2 * index + u32::from(negated)))
    }

    fn index(&mut self, number: i128) -> Step<u32> {
        let index = number - self.limits.first as i128;
        self.judged.index = match () {
            _ if number > u32::MAX as i128 => Some(Index::BeyondU32),
            _ if index < 0 => Some(Index::BelowFirst),
            _ if index > self.limits.index => Some(Index::AboveLimit),
            _ => return Ok(index as u32),
        };
        Err(5)
    }

    fn number(&mut self) -> Step<i128> {
        let negative = self.is(b"-");
        if negative || self.is(b"+") {
            self.at += 1;
        }
        let size = self.digits().ok_or(3)?;
        let value = if negative { -size } else { size };
        i64::try_from(value).map(i128::from).map_err(|_| 3)
    }

    /// the value of one or more digits; a great one is cut to one that is beyond every limit
    fn digits(&mut self) -> Option<i128> {
        let digits = self.run(|byte| byte.is_ascii_digit());
        if digits.is_empty() {
            return None;
        }
        Some(digits.iter().fold(0, |value, digit| (10 * value + i128::from(digit - b'0')).min(1 << 100)))
    }

    fn line_ending(&mut self) -> bool {
        self.passed(b"\n") || self.passed(b"\r\n")
    }

    fn ending(&mut self) -> Step<()> {
        self.blanks();
        if self.passed(b";") {
            self.blanks();
            self.line_ending();
            return Ok(());
        }
        if self.line_ending() || self.at == self.file.len() { Ok(()) } else { Err(7) }
    }
}
