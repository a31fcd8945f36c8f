//! The value lines of a solver's output: those of the last solution, behind the last `o` line; all, where none stands behind it.
use crate::lines::{lines, Line};
use std::mem::take;

/// Every line with a `v` in front. Where it says no values the library refuses it, which is better than to pass it over in silence.
pub fn is_value(line: &[u8]) -> bool {
    line.starts_with(b"v")
}

/// `o` and a number: what a solution is worth. Another word that begins with an `o` is no such line.
pub fn is_worth(line: &[u8]) -> bool {
    matches!(line, [b'o', b' ' | b'\t', ..])
}

/// Of an output that is there as a whole.
fn value_lines(output: &[u8]) -> impl Iterator<Item = Line<'_>> {
    let last = lines(output).filter(|line| is_worth(line.bytes)).last().map_or(0, |line| line.start);
    let behind = lines(output).any(|line| is_value(line.bytes) && line.start >= last);
    let from = if behind { last } else { 0 };
    lines(output).filter(move |line| is_value(line.bytes) && line.start >= from)
}

/// Of an output that comes line by line: no more is kept than the lines of one solution.
#[derive(Default)]
pub struct Coming {
    before: Vec<u8>,
    behind: Vec<u8>,
    several: bool,
}

impl Coming {
    /// A value line. The first behind an `o` line begins a solution, and what stood before it goes.
    pub fn value(&mut self, line: &[u8]) {
        if self.behind.is_empty() && !self.before.is_empty() {
            self.before.clear();
            self.several = true;
        }
        self.behind.extend_from_slice(line);
    }

    /// An `o` line.
    pub fn worth(&mut self) {
        if !self.behind.is_empty() {
            self.before = take(&mut self.behind);
        }
    }

    /// How many bytes the solution at hand has.
    pub fn len(&self) -> usize {
        self.behind.len()
    }

    /// The lines as one block. Nothing, where there were those of several solutions and none stands behind the last `o` line: together they contradict each other.
    pub fn block(&self) -> Option<&[u8]> {
        match (self.behind.is_empty(), self.several) {
            (false, _) => Some(&self.behind),
            (true, false) => Some(&self.before),
            (true, true) => None,
        }
    }
}

/// The lines as one block. Each brings its LF, save the last of an output that ends without one.
pub fn block(output: &[u8]) -> Vec<u8> {
    let mut block = Vec::new();
    value_lines(output).for_each(|line| block.extend_from_slice(line.bytes));
    block
}

/// Where the byte at this place of the block stands in the output.
pub fn place_in(output: &[u8], place: u64) -> Option<u64> {
    let mut before = 0;
    for line in value_lines(output) {
        let behind = before + line.bytes.len() as u64;
        if place < behind {
            return Some(line.start as u64 + place - before);
        }
        before = behind;
    }
    None
}

#[cfg(test)]
mod tests {
    use super::{block, is_value, is_worth, Coming};
    use crate::lines::lines;

    fn coming(output: &[u8]) -> Option<Vec<u8>> {
        let mut values = Coming::default();
        for line in lines(output) {
            if is_value(line.bytes) {
                values.value(line.bytes);
            } else if is_worth(line.bytes) {
                values.worth();
            }
        }
        values.block().map(<[u8]>::to_vec)
    }

    #[test]
    fn lines_that_come_are_those_of_the_whole_output() {
        for output in ["", "o 1\n", "v x1\nv x2\n", "v x1\no 1\n", "o 2\nv x1\no 1\nv x2\nv x3\n", "v x1\no 2\no 1\n", "o 2\nv x1\no 1\n", "s SATISFIABLE\nv x1\nodd\nv x2\n"] {
            assert_eq!(coming(output.as_bytes()), Some(block(output.as_bytes())), "{}", output);
        }
    }

    #[test]
    fn of_several_solutions_without_the_last_none_is_taken() {
        assert_eq!(coming(b"v x1\no 2\nv -x1\no 1\n"), None);
    }
}
