//! The library under test, behind the runner: runner.c says what goes over the pipes. A batch is sent whole and answered whole, so that neither side waits for the other while both are writing.

use crate::meaning::Assignment;
use crate::table::{Case, ReadCase, Table, ValuesCase, WriteCase};
use std::io::{Read, Write};
use std::process::{Child, Command, Stdio};

/// Number and place of a refusal, and what an accepted call counts
#[derive(Clone, Copy, Debug, Default, PartialEq, Eq)]
pub struct Counts {
    pub refusal: u8,
    pub place: u64,
    pub rows: u64,
    pub terms: u64,
}

#[derive(Clone, Copy, Debug, PartialEq, Eq)]
pub struct Value {
    pub refusal: u8,
    pub place: u64,
    pub value: i64,
    pub holds: u8,
    pub ones: u64,
}

/// A call that fills a table: its answer, whether it changed what it should not, the table
#[derive(Clone, Debug, Default)]
pub struct Filled {
    pub counts: Counts,
    pub touched: bool,
    pub table: Table,
}

#[derive(Clone, Debug)]
pub struct ReadAnswer {
    pub count: Counts,
    pub read: Filled,
    pub normal: Filled,
    /// for each assignment the values of the rows read, then of the normal rows
    pub values: Vec<(Vec<Value>, Vec<Value>)>,
}

#[derive(Clone, Debug)]
pub struct WriteAnswer {
    pub refusal: u8,
    pub place: u64,
    pub touched: bool,
    pub bytes: Vec<u8>,
}

/// A call on a block of value lines: its answer, whether it changed what it should not, both rows afterwards
#[derive(Clone, Debug)]
pub struct Valued {
    pub refusal: u8,
    pub place: u64,
    pub length: u64,
    pub touched: bool,
    pub values: Vec<u64>,
    pub known: Vec<u64>,
}

/// Up to so many words the runner lends more where it is told 12, and calls again
pub const GROWN: u64 = 4096;

#[derive(Clone, Debug)]
pub enum Answer {
    Read(ReadAnswer),
    Write(WriteAnswer),
    Values(Vec<Vec<Valued>>),
    Long(Counts),
}

pub struct Library {
    runner: Child,
}

impl Library {
    /// Starts the runner: a command with its words
    pub fn start(words: &[String]) -> Library {
        let mut command = Command::new(&words[0]);
        command.args(&words[1..]).stdin(Stdio::piped()).stdout(Stdio::piped());
        Library { runner: command.spawn().expect("the runner starts") }
    }

    pub fn send(&mut self, cases: &[Case]) {
        let mut batch = vec![0; 4];
        cases.iter().for_each(|case| put_case(&mut batch, case));
        let length = batch.len() as u32 - 4;
        batch[..4].copy_from_slice(&length.to_le_bytes());
        let pipe = self.runner.stdin.as_mut().expect("a pipe");
        pipe.write_all(&batch).and_then(|()| pipe.flush()).expect("the runner takes its batch");
    }

    pub fn receive(&mut self, cases: &[Case]) -> Vec<Answer> {
        let pipe = self.runner.stdout.as_mut().expect("a pipe");
        let mut length = [0; 4];
        pipe.read_exact(&mut length).expect("the runner answers");
        let mut bytes = vec![0; u32::from_le_bytes(length) as usize];
        pipe.read_exact(&mut bytes).expect("the runner answers whole");
        let mut answers = Bytes(&bytes);
        cases.iter().map(|case| take_answer(&mut answers, case)).collect()
    }
}

impl Drop for Library {
    fn drop(&mut self) {
        drop(self.runner.stdin.take());
        drop(self.runner.stdout.take());
        let _ = self.runner.wait();
    }
}

fn put_case(batch: &mut Vec<u8>, case: &Case) {
    match case {
        Case::Read(case) => put_read(batch, case),
        Case::Write(case) => put_write(batch, case),
        Case::Values(case) => put_values(batch, case),
        Case::Long(length) => {
            batch.push(3);
            batch.extend(1u32.to_le_bytes());
            batch.extend(length.to_le_bytes());
        }
    }
}

fn put_read(batch: &mut Vec<u8>, case: &ReadCase) {
    // a file has no more rows or terms than bytes
    let lengths = case.lengths.unwrap_or([case.file.len() as u32; 6]);
    batch.push(1);
    batch.extend(case.first.to_le_bytes());
    lengths.iter().for_each(|length| batch.extend(length.to_le_bytes()));
    batch.extend((case.assignments.len() as u32).to_le_bytes());
    batch.extend((case.file.len() as u32).to_le_bytes());
    batch.extend(&case.file);
    case.assignments.iter().flatten().for_each(|word| batch.extend(word.to_le_bytes()));
}

fn put_write(batch: &mut Vec<u8>, case: &WriteCase) {
    let table = &case.table;
    batch.push(2);
    batch.extend(case.first.to_le_bytes());
    batch.push(case.plain as u8);
    let room = case.room.unwrap_or(1 << 16);
    [table.kinds.len() as u32, table.weights.len() as u32, case.text.len() as u32, room].iter().for_each(|number| batch.extend(number.to_le_bytes()));
    batch.extend(&table.kinds);
    table.firsts.iter().chain(&table.counts).for_each(|entry| batch.extend(entry.to_le_bytes()));
    table.bounds.iter().chain(&table.weights).for_each(|entry| batch.extend(entry.to_le_bytes()));
    table.literals.iter().for_each(|entry| batch.extend(entry.to_le_bytes()));
    batch.extend(&case.text);
}

fn put_values(batch: &mut Vec<u8>, case: &ValuesCase) {
    let before = &case.before;
    batch.push(4);
    batch.extend(before.length.to_le_bytes());
    [before.values.len(), before.known.len(), case.blocks.len()].iter().for_each(|count| batch.extend((*count as u32).to_le_bytes()));
    before.values.iter().chain(&before.known).for_each(|word| batch.extend(word.to_le_bytes()));
    for block in &case.blocks {
        batch.extend((block.len() as u32).to_le_bytes());
        batch.extend(block);
    }
}

fn take_answer(from: &mut Bytes, case: &Case) -> Answer {
    match case {
        Case::Read(case) => Answer::Read(take_read(from, &case.assignments)),
        Case::Write(_) => Answer::Write(take_write(from)),
        Case::Values(case) => Answer::Values(take_values(from, case)),
        Case::Long(_) => Answer::Long(from.counts()),
    }
}

fn take_read(from: &mut Bytes, assignments: &[Assignment]) -> ReadAnswer {
    let count = from.counts();
    let read = from.filled();
    if read.counts.refusal != 0 {
        return ReadAnswer { count, read, normal: Filled::default(), values: Vec::new() };
    }
    let normal = from.filled();
    let (rows, normal_rows) = (read.counts.rows, normal.counts.rows);
    let values = assignments.iter().map(|_| (from.many(rows, Bytes::value), from.many(normal_rows, Bytes::value))).collect();
    ReadAnswer { count, read, normal, values }
}

fn take_write(from: &mut Bytes) -> WriteAnswer {
    let (refusal, place, length) = (from.byte(), from.word(), from.word());
    let touched = from.byte() != 0;
    WriteAnswer { refusal, place, touched, bytes: from.many(length, Bytes::byte) }
}

fn take_values(from: &mut Bytes, case: &ValuesCase) -> Vec<Vec<Valued>> {
    let mut words = [case.before.values.len() as u64, case.before.known.len() as u64];
    let mut each = |_: &Vec<u8>| {
        let mut calls = vec![from.valued(words)];
        if calls[0].refusal == 12 && calls[0].place <= GROWN {
            words = words.map(|count| count.max(calls[0].place));
            calls.push(from.valued(words));
        }
        calls
    };
    case.blocks.iter().map(|block| each(block)).collect()
}

struct Bytes<'a>(&'a [u8]);

impl Bytes<'_> {
    fn take<const N: usize>(&mut self) -> [u8; N] {
        let (taken, rest) = self.0.split_at(N);
        self.0 = rest;
        taken.try_into().expect("as many as asked")
    }

    fn byte(&mut self) -> u8 {
        self.take::<1>()[0]
    }

    fn half(&mut self) -> u32 {
        u32::from_le_bytes(self.take())
    }

    fn word(&mut self) -> u64 {
        u64::from_le_bytes(self.take())
    }

    fn signed(&mut self) -> i64 {
        self.word() as i64
    }

    fn many<T>(&mut self, count: u64, one: fn(&mut Self) -> T) -> Vec<T> {
        (0..count).map(|_| one(self)).collect()
    }

    fn counts(&mut self) -> Counts {
        Counts { refusal: self.byte(), place: self.word(), rows: self.word(), terms: self.word() }
    }

    fn value(&mut self) -> Value {
        Value { refusal: self.byte(), place: self.word(), value: self.signed(), holds: self.byte(), ones: self.word() }
    }

    fn valued(&mut self, words: [u64; 2]) -> Valued {
        let (refusal, place, length) = (self.byte(), self.word(), self.word());
        let touched = self.byte() != 0;
        Valued { refusal, place, length, touched, values: self.many(words[0], Bytes::word), known: self.many(words[1], Bytes::word) }
    }

    fn filled(&mut self) -> Filled {
        let counts = self.counts();
        let touched = self.byte() != 0;
        if counts.refusal != 0 {
            return Filled { counts, touched, table: Table::default() };
        }
        let (rows, terms) = (counts.rows, counts.terms);
        let table = Table {
            kinds: self.many(rows, Bytes::byte),
            firsts: self.many(rows, Bytes::word),
            counts: self.many(rows, Bytes::word),
            bounds: self.many(rows, Bytes::signed),
            weights: self.many(terms, Bytes::signed),
            literals: self.many(terms, Bytes::half),
        };
        Filled { counts, touched, table }
    }
}
