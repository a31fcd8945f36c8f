//! The lines of a file.

/// A line of a file: its number, from 1, its bytes with their LF, and the offset of its first.
#[derive(Clone, Copy)]
pub struct Line<'a> {
    pub number: usize,
    pub bytes: &'a [u8],
    pub start: usize,
}

pub fn lines(file: &[u8]) -> impl Iterator<Item = Line<'_>> {
    let mut start = 0;
    file.split_inclusive(|byte| *byte == b'\n').enumerate().map(move |(i, bytes)| {
        let line = Line { number: i + 1, bytes, start };
        start += bytes.len();
        line
    })
}
