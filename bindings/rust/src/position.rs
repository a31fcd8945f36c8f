//! Places in a file as a person counts them.
use std::fmt;

/// A line and a column, both from 1. Lines end with LF; columns count bytes.
#[derive(Clone, Copy, Debug, PartialEq, Eq, PartialOrd, Ord, Hash)]
pub struct Position {
    /// One more than the LFs before the place.
    pub line: usize,
    /// One more than the bytes before the place in its line.
    pub column: usize,
}

impl fmt::Display for Position {
    fn fmt(&self, f: &mut fmt::Formatter) -> fmt::Result {
        write!(f, "line {}, column {}", self.line, self.column)
    }
}

/// The line and column of a byte of a file, such as a refusal's place; those behind the last byte for every place that lies there.
///
/// ```
/// let file = b"1 x1 >= 1;\n  1 x2 >= one;\n";
/// let refusal = opb::read(file, 1).unwrap_err();
/// assert_eq!(opb::position(file, refusal.place), opb::Position { line: 2, column: 3 });
/// assert_eq!(opb::position(file, refusal.place).to_string(), "line 2, column 3");
/// ```
pub fn position(file: &[u8], place: u64) -> Position {
    let place = usize::try_from(place).map_or(file.len(), |place| place.min(file.len()));
    let before = &file[..place];
    let line = 1 + before.iter().filter(|byte| **byte == b'\n').count();
    let start = before.iter().rposition(|byte| *byte == b'\n').map_or(0, |end| end + 1);
    Position { line, column: 1 + place - start }
}
