//! A file taken in chunks of whole lines, so that no table of the whole is needed, and on behind each refused line. No statement goes over the end of a line, so whole lines are a file of their own.
use super::sums::Sums;
use crate::advice::{blank_lines, no_text};
use crate::lines::Line;
use crate::progress::Bar;
use opb::{Reason, Refusal, Size, Table};

/// How many bytes are read at once, unless a line is longer.
const CHUNK: usize = 1 << 20;

/// A refusal, and the line that it is in.
pub struct Finding<'a> {
    pub refusal: Refusal,
    pub line: Line<'a>,
    /// More than one where blank lines follow one another.
    pub lines: usize,
}

/// What a walk finds: the first refusals, how many lines are refused, and what the other chunks hold.
pub struct Walk<'a> {
    file: &'a [u8],
    first: u32,
    most: usize,
    table: Table,
    pub sums: Sums<'a>,
    pub findings: Vec<Finding<'a>>,
    pub refused: usize,
    /// The byte up to which lines are counted, and how many they are.
    counted: (usize, usize),
}

/// The end of the last line that ends within a chunk, or of the first.
fn chunk_end(file: &[u8], at: usize) -> usize {
    let is_end = |byte: &u8| *byte == b'\n';
    let within = &file[at..file.len().min(at + CHUNK)];
    if at + within.len() == file.len() {
        return file.len();
    }
    let end = within.iter().rposition(is_end).or_else(|| file[at..].iter().position(is_end));
    end.map_or(file.len(), |end| at + end + 1)
}

/// Rows into a table that grows as it must.
fn read(table: &mut Table, chunk: &[u8], first: u32) -> Result<Size, Refusal> {
    match table.read_into(chunk, first) {
        Err(needed) if matches!(needed.reason, Reason::Rows | Reason::Terms) => {
            let (size, room) = (opb::count(chunk, first)?, table.size());
            *table = Table::default();
            *table = Table::of_size(Size { rows: size.rows.max(room.rows), terms: size.terms.max(room.terms) })?;
            table.read_into(chunk, first)
        }
        answer => answer,
    }
}

impl<'a> Walk<'a> {
    /// Walks through a file, and keeps this many findings at most. What is refused here is memory.
    pub fn through(file: &'a [u8], first: u32, most: usize, bar: &Bar) -> Result<Walk<'a>, Refusal> {
        let mut walk = Walk { file, first, most, table: Table::default(), sums: Sums::default(), findings: Vec::new(), refused: 0, counted: (0, 0) };
        let mut at = 0;
        while at < file.len() {
            at = walk.step(at)?;
            bar.at(at);
        }
        Ok(walk)
    }

    /// The chunk that begins at a line's beginning; answers where the next one does.
    fn step(&mut self, at: usize) -> Result<usize, Refusal> {
        let chunk = &self.file[at..chunk_end(self.file, at)];
        match read(&mut self.table, chunk, self.first) {
            Ok(size) => {
                self.sums.add(chunk, at, &self.table, size, self.first);
                Ok(at + chunk.len())
            }
            Err(memory) if matches!(memory.reason, Reason::Rows | Reason::Terms) => Err(memory),
            Err(refusal) => Ok(self.refuse(at, Refusal { place: at as u64 + refusal.place, ..refusal })),
        }
    }

    /// Takes a refusal down; answers where the next line begins, or the next that is not blank. In a file that is no text there is none.
    fn refuse(&mut self, at: usize, refusal: Refusal) -> usize {
        let place = refusal.place as usize;
        let start = self.file[at..place].iter().rposition(|byte| *byte == b'\n').map_or(at, |end| at + end + 1);
        let length = self.file[place..].iter().position(|byte| *byte == b'\n').map_or(self.file.len(), |end| place + end + 1) - start;
        let (blank, bytes) = blank_lines(&self.file[start..]);
        let lines = blank.max(1);
        if self.findings.len() < self.most {
            let line = Line { number: self.number(start), bytes: &self.file[start..start + length], start };
            self.findings.push(Finding { refusal, line, lines });
        }
        self.refused += lines;
        if no_text(self.file).is_some() {
            self.file.len()
        } else {
            start + length.max(bytes)
        }
    }

    /// The number of the line that begins here, behind all that were asked for before.
    fn number(&mut self, start: usize) -> usize {
        let (from, lines) = self.counted;
        let lines = lines + self.file[from..start].iter().filter(|byte| **byte == b'\n').count();
        self.counted = (start, lines);
        lines + 1
    }
}

#[cfg(test)]
mod tests {
    use super::{chunk_end, Walk, CHUNK};
    use crate::options::Common;
    use crate::progress::Progress;

    #[test]
    fn a_chunk_is_whole_lines() {
        let line = "1 x1 >= 1;\n";
        let short = line.repeat(2 * CHUNK / line.len());
        let end = chunk_end(short.as_bytes(), 0);
        assert!(end <= CHUNK && end + line.len() > CHUNK && end % line.len() == 0);
        let long = format!("* {}\n{}", "a".repeat(2 * CHUNK), line);
        assert_eq!(chunk_end(long.as_bytes(), 0), 2 * CHUNK + 3);
        assert_eq!(chunk_end(long.as_bytes(), 2 * CHUNK + 3), long.len());
        assert_eq!(chunk_end("a".repeat(2 * CHUNK).as_bytes(), 0), 2 * CHUNK);
    }

    const PIECES: [&[u8]; 16] =
        [b"\n", b"\r\n", b"1 x1 >= 1", b";", b"min:", b" 2 ~x2", b"* a", b"\t", b"\r", b" = -3", b"x", b"0 x0 <= 0;\n", b"9223372036854775807 x1", b"+", b"1 x2 > 2;\n", b"* b\n"];

    /// A file of pieces, the same for the same seed.
    fn file(mut seed: u64) -> Vec<u8> {
        let pieces = (0..1 + seed % 24).map(|_| {
            seed = seed.wrapping_mul(6364136223846793005).wrapping_add(1442695040888963407);
            PIECES[(seed >> 60) as usize]
        });
        pieces.collect::<Vec<_>>().concat()
    }

    /// What the walk finds is what the library says of each line alone, and the first is what it says of the whole.
    #[test]
    fn a_walk_is_of_one_mind_with_the_lines_and_with_the_whole() {
        let bar = Progress::of("", &Common { first: 1, quiet: true }).percent("", 0, 0);
        let mut accepted = 0;
        for file in (0..4_000).map(file) {
            let (whole, walk) = (opb::count(&file, 1), Walk::through(&file, 1, usize::MAX, &bar).unwrap());
            let alone: Vec<u64> = crate::lines::lines(&file).filter_map(|line| Some(opb::count(line.bytes, 1).err()?.place + line.start as u64)).collect();
            assert_eq!(walk.refused, alone.len(), "{}", String::from_utf8_lossy(&file));
            assert!(walk.findings.iter().all(|finding| alone.contains(&finding.refusal.place) && finding.line.number == 1 + file[..finding.line.start].iter().filter(|byte| **byte == b'\n').count()));
            assert_eq!(whole.err(), walk.findings.first().map(|finding| finding.refusal));
            if let Ok(size) = whole {
                assert_eq!((size.rows, size.terms), (walk.sums.rows, walk.sums.terms));
                accepted += usize::from(size.terms > 0);
            }
        }
        assert!(accepted > 40, "{}", accepted);
    }
}
