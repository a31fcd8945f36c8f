//! Refusals: a number and a place, with words for a person.
use std::error::Error;
use std::fmt;

/// Why a call was refused. The numbers are those of `include/opb.h`.
///
/// ```
/// use opb::Reason;
/// assert_eq!(Reason::of(6), Some(Reason::Operator));
/// assert_eq!(Reason::Operator.meaning(), "no operator stands behind the sum of this statement");
/// assert_eq!(Reason::Operator.advice(), "write `>=`, `<=`, `=`, `>` or `<` behind the last term");
/// ```
#[derive(Clone, Copy, Debug, PartialEq, Eq)]
#[non_exhaustive]
pub enum Reason {
    /// The file is longer than [`FILE_LIMIT`](crate::FILE_LIMIT).
    FileLength = 1,
    /// No statement begins there; a blank line is none.
    Statement = 2,
    /// A number is missing, is a sign alone, or is beyond 64 bits.
    Number = 3,
    /// No blank behind a weight, or no variable there.
    Literal = 4,
    /// A variable's number is below the first index, or too large.
    Variable = 5,
    /// No operator behind the sum.
    Operator = 6,
    /// The statement does not end where it should.
    Ending = 7,
    /// The weights of a row add up to more than 9,223,372,036,854,775,807, or a result is beyond 64 bits.
    Overflow = 8,
    /// There is no room for the rows.
    Rows = 9,
    /// There is no room for the terms.
    Terms = 10,
    /// A row that no table may hold: an unknown kind, terms outside their column, an index above its limit; in writing also a comment outside its text, a negative weight or cardinality bound; in
    /// evaluating also a comment or a missing row.
    Row = 11,
    /// A variable has no value in the assignment; or the words are too few for the value lines.
    Assignment = 12,
    /// A constraint without terms, in writing.
    Empty = 13,
    /// The output has no room for the text.
    Output = 14,
    /// A comment with a line feed, in writing.
    Comment = 15,
    /// No value lines, or a line among them that does not begin with `v`.
    Line = 20,
    /// A token that is no value in the form of these value lines.
    Token = 21,
    /// A variable that has the other value already.
    Conflict = 22,
}

const ALL: [Reason; 18] = [
    Reason::FileLength,
    Reason::Statement,
    Reason::Number,
    Reason::Literal,
    Reason::Variable,
    Reason::Operator,
    Reason::Ending,
    Reason::Overflow,
    Reason::Rows,
    Reason::Terms,
    Reason::Row,
    Reason::Assignment,
    Reason::Empty,
    Reason::Output,
    Reason::Comment,
    Reason::Line,
    Reason::Token,
    Reason::Conflict,
];

impl Reason {
    /// Its number in `include/opb.h`.
    pub fn number(self) -> u8 {
        self as u8
    }

    /// The reason with this number.
    pub fn of(number: u8) -> Option<Reason> {
        ALL.into_iter().find(|reason| reason.number() == number)
    }

    /// What the number means.
    pub fn meaning(self) -> &'static str {
        match self {
            Reason::FileLength => "the file is longer than 1,073,741,823 bytes",
            Reason::Statement => "no statement begins here (a blank line is none)",
            Reason::Number => "a number of this statement is missing, is a sign alone, or is beyond 64 bits",
            Reason::Literal => "a weight of this statement has no blank behind it, or no variable there",
            Reason::Variable => "a variable's number is below the first index, or too large",
            Reason::Operator => "no operator stands behind the sum of this statement",
            Reason::Ending => "this statement does not end where it should",
            Reason::Overflow => "the weights add up to more than 9,223,372,036,854,775,807, or a bound or value is beyond 64 bits",
            Reason::Rows => "the table has no room for the rows",
            Reason::Terms => "the table has no room for the terms",
            Reason::Row => "no table may hold this row (an unknown kind, terms outside their column, an index above its limit; in writing a negative weight or a comment outside its text)",
            Reason::Assignment => "a variable has no value in the assignment, or its words are too few",
            Reason::Empty => "a constraint without terms cannot be written",
            Reason::Output => "the output has no room for the text",
            Reason::Comment => "a comment with a line feed cannot be written",
            Reason::Line => "no value line begins here (it would begin with `v`)",
            Reason::Token => "this is no value in the form of these value lines (an `x` in one of them asks for `x1` or `-x1` in all)",
            Reason::Conflict => "this variable has the other value already",
        }
    }

    /// What a planner can do about it.
    pub fn advice(self) -> &'static str {
        match self {
            Reason::FileLength => "split the plan into several files",
            Reason::Statement => "remove a blank line, or begin with `*`, `min:`, a digit, `+` or `-`",
            Reason::Number => "write each number with digits, such as `3 x1 >= -2;`, up to 9223372036854775807",
            Reason::Literal => "write `3 x1` or `3 ~x1`, not `3x1` or `3 1`",
            Reason::Variable => "compare the variables' numbers with the first index (1 in value lines); the greatest is the first index and 1,073,741,823 more, and never above 4,294,967,295",
            Reason::Operator => "write `>=`, `<=`, `=`, `>` or `<` behind the last term",
            Reason::Ending => "end it with `;` or a new line, with nothing else between",
            Reason::Overflow => "use smaller units",
            Reason::Rows => "lend columns with so many entries for rows",
            Reason::Terms => "lend columns with so many entries for terms",
            Reason::Row => "mend the row; normalise a table before writing it where weights are negative",
            Reason::Assignment => "give every variable of the row a value, and lend words for all of them",
            Reason::Empty => "leave the row out, or give it terms",
            Reason::Output => "lend an output of so many bytes",
            Reason::Comment => "write two comments",
            Reason::Line => "take the solver's `v` lines and no others; there must be one",
            Reason::Token => "say all values in one way: as `v 1 -2`, as `v x1 -x2` or `v x1 ~x2`, or as `v 10` in one line",
            Reason::Conflict => "take the value lines of one solution",
        }
    }
}

/// A refused call. The place is, by reason and call, the offset of a statement in the file, that of a line or token in a block of value lines, a row, or the count or length needed.
/// Of a place in a file [`position`](crate::position) tells line and column.
#[derive(Clone, Copy, Debug, PartialEq, Eq)]
pub struct Refusal {
    /// Why.
    pub reason: Reason,
    /// Where, or how much is needed.
    pub place: u64,
}

impl Refusal {
    /// What `place` is. Of 5, 8 and 12 only the call tells: a byte in reading, a row over a table; of 12 also the words that value lines need.
    fn place_word(&self) -> &'static str {
        match self.reason {
            Reason::Variable | Reason::Overflow => "at byte or row",
            Reason::Assignment => "at row, or needing words:",
            Reason::Row | Reason::Empty | Reason::Comment => "at row",
            Reason::Rows | Reason::Terms | Reason::Output => "needing",
            _ => "at byte",
        }
    }
}

impl fmt::Display for Refusal {
    fn fmt(&self, f: &mut fmt::Formatter) -> fmt::Result {
        write!(f, "refused ({}) {} {}: {}; {}", self.reason.number(), self.place_word(), self.place, self.reason.meaning(), self.reason.advice())
    }
}

impl Error for Refusal {}
