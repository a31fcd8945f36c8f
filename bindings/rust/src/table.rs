//! Tables as six vectors, and the calls over them with room made to measure.
use crate::assignment::Assignment;
use crate::ffi;
use crate::kinds::Kind;
use crate::refusal::{Reason, Refusal};
use std::ops::Range;

/// Rows and terms of a table.
#[derive(Clone, Copy, Debug, PartialEq, Eq)]
pub struct Size {
    /// Comments, constraints and objectives.
    pub rows: usize,
    /// The terms of all rows.
    pub terms: usize,
}

/// What a row says of an assignment, with the number of ones in the assignment's words.
#[derive(Clone, Copy, Debug, PartialEq, Eq)]
pub enum Value {
    /// Of a constraint.
    Constraint {
        /// The weights of the literals that are true.
        sum: i64,
        /// Whether the sum keeps the bound.
        holds: bool,
        /// The variables that are true, in all of the assignment.
        ones: u64,
    },
    /// Of an objective.
    Objective {
        /// The weights of the literals that are true, and the offset.
        value: i64,
        /// The variables that are true, in all of the assignment.
        ones: u64,
    },
}

/// How negated literals are written.
#[derive(Clone, Copy, Debug, PartialEq, Eq)]
pub enum Literals {
    /// As `~x1`.
    Negated,
    /// By a weight of the other sign on the plain variable.
    Plain,
}

/// Six columns: four with an entry for each row, two with an entry for each term. A literal is twice the variable index, plus 1 if negated; the index is the number in the file less the first
/// index. A comment row's first and count are the offset and length of its text. [`Table::rows`] gives them with Rust's types; every content of the columns has an answer in every call.
///
/// ```
/// use opb::{Kind, Literals, Table};
/// let mut table = Table::default();
/// table.push(Kind::Clause, 1, &[(1, 0), (1, 3)]);
/// assert_eq!(table.write(b"", 1, Literals::Negated)?, b"1 x1 1 ~x2 >= 1;\n");
/// # Ok::<(), opb::Refusal>(())
/// ```
#[derive(Clone, Debug, Default, PartialEq, Eq)]
pub struct Table {
    /// For each row the number of its [`Kind`].
    pub kinds: Vec<u8>,
    /// For each row its first term, from 0; for a comment the offset of its text.
    pub firsts: Vec<usize>,
    /// For each row how many terms it has; for a comment the length of its text.
    pub counts: Vec<usize>,
    /// For each row its bound; for an objective its offset; for a comment 0.
    pub bounds: Vec<i64>,
    /// For each term its weight.
    pub weights: Vec<i64>,
    /// For each term the code of its [`Literal`](crate::Literal).
    pub literals: Vec<u32>,
}

/// So many zeros, or `refusal` where there is no memory for them.
fn zeros<T: Clone + Default>(count: usize, refusal: Refusal) -> Result<Vec<T>, Refusal> {
    let mut zeros = Vec::new();
    zeros.try_reserve_exact(count).map_err(|_| refusal)?;
    zeros.resize(count, T::default());
    Ok(zeros)
}

/// The text that `put` puts into an output: measured by an empty one, which it refuses with the length needed, then put into one of that length.
fn measured(put: impl Fn(&mut [u8]) -> Result<usize, Refusal>) -> Result<Vec<u8>, Refusal> {
    match put(&mut []) {
        Ok(_) => Ok(Vec::new()),
        Err(needed) if needed.reason == Reason::Output => {
            let mut out = zeros(needed.place as usize, needed)?;
            put(&mut out)?;
            Ok(out)
        }
        Err(refusal) => Err(refusal),
    }
}

/// The rows and terms that a file has. `first` is the first index.
///
/// ```
/// assert_eq!(opb::count(b"3 x1 2 x2 <= 4;\n", 1)?, opb::Size { rows: 1, terms: 2 });
/// assert_eq!(opb::count(b"3 x0 >= 1;\n", 1).unwrap_err().reason, opb::Reason::Variable);
/// # Ok::<(), opb::Refusal>(())
/// ```
pub fn count(file: &[u8], first: u32) -> Result<Size, Refusal> {
    ffi::count(file, first)
}

/// A file's rows: counted, then read into columns of just that size. Where there is no memory for them, the refusal is 9 or 10.
///
/// ```
/// let table = opb::read(b"3 x1 -2 ~x2 >= 1;\n", 1)?;
/// assert_eq!((table.bounds, table.weights, table.literals), (vec![1], vec![3, -2], vec![0, 3]));
/// # Ok::<(), opb::Refusal>(())
/// ```
pub fn read(file: &[u8], first: u32) -> Result<Table, Refusal> {
    let mut table = Table::of_size(count(file, first)?)?;
    table.read_into(file, first)?;
    Ok(table)
}

impl Table {
    /// A table of zeros, or 9 or 10 where there is no memory for it.
    pub fn of_size(size: Size) -> Result<Table, Refusal> {
        let rows = Refusal { reason: Reason::Rows, place: size.rows as u64 };
        let terms = Refusal { reason: Reason::Terms, place: size.terms as u64 };
        Ok(Table {
            kinds: zeros(size.rows, rows)?,
            firsts: zeros(size.rows, rows)?,
            counts: zeros(size.rows, rows)?,
            bounds: zeros(size.rows, rows)?,
            weights: zeros(size.terms, terms)?,
            literals: zeros(size.terms, terms)?,
        })
    }

    /// The kind of a row, where there is the row and its number is a kind's.
    pub fn kind(&self, row: usize) -> Option<Kind> {
        self.kinds.get(row).and_then(|number| Kind::of(*number))
    }

    /// The room of the shortest columns.
    pub fn size(&self) -> Size {
        Size { rows: self.kinds.len().min(self.firsts.len()).min(self.counts.len()).min(self.bounds.len()), terms: self.weights.len().min(self.literals.len()) }
    }

    /// One row more, of these terms: weight and literal code.
    pub fn push(&mut self, kind: Kind, bound: i64, terms: &[(i64, u32)]) {
        self.kinds.push(kind.number());
        self.firsts.push(self.weights.len());
        self.counts.push(terms.len());
        self.bounds.push(bound);
        self.weights.extend(terms.iter().map(|term| term.0));
        self.literals.extend(terms.iter().map(|term| term.1));
    }

    /// A comment row more, whose text is this range of what will be lent to [`Table::write`].
    ///
    /// ```
    /// let mut table = opb::Table::default();
    /// table.push_comment(4..8);
    /// assert_eq!(table.write(b"The hall.", 1, opb::Literals::Plain)?, b"* hall\n");
    /// # Ok::<(), opb::Refusal>(())
    /// ```
    pub fn push_comment(&mut self, text: Range<usize>) {
        self.kinds.push(Kind::Comment.number());
        self.firsts.push(text.start);
        self.counts.push(text.len());
        self.bounds.push(0);
    }

    /// A file into the columns as they are; entries behind the size answered stay.
    pub fn read_into(&mut self, file: &[u8], first: u32) -> Result<Size, Refusal> {
        ffi::read(file, first, self)
    }

    /// The same rows without negative weights.
    ///
    /// ```
    /// let normal = opb::read(b"3 x1 -2 x2 >= -1;\n", 1)?.normal()?;
    /// assert_eq!(normal.write(b"", 1, opb::Literals::Negated)?, b"3 x1 2 ~x2 >= 1;\n");
    /// # Ok::<(), opb::Refusal>(())
    /// ```
    pub fn normal(&self) -> Result<Table, Refusal> {
        let mut normal = Table::of_size(self.size())?;
        match self.normal_into(&mut normal) {
            Ok(size) => normal.truncate(size),
            // rows that share terms
            Err(needed) if needed.reason == Reason::Terms => {
                normal = Table::of_size(Size { rows: self.size().rows, terms: needed.place as usize })?;
                self.normal_into(&mut normal)?;
            }
            Err(refusal) => return Err(refusal),
        }
        Ok(normal)
    }

    /// The same into the columns of another table; entries behind the size answered stay.
    pub fn normal_into(&self, normal: &mut Table) -> Result<Size, Refusal> {
        ffi::normalise(self, normal)
    }

    /// One row under an assignment: variable index v is bit v mod 64 of word v / 64.
    ///
    /// ```
    /// let table = opb::read(b"3 x1 2 x2 <= 4;\nmin: 4 ~x1;\n", 1)?;
    /// assert_eq!(table.evaluate(0, &[0b11])?, opb::Value::Constraint { sum: 5, holds: false, ones: 2 });
    /// assert_eq!(table.evaluate(1, &[0b10])?, opb::Value::Objective { value: 4, ones: 1 });
    /// # Ok::<(), opb::Refusal>(())
    /// ```
    pub fn evaluate(&self, row: usize, words: &[u64]) -> Result<Value, Refusal> {
        ffi::evaluate(self, row, words)
    }

    /// One row under an assignment whose variables may be unknown: such a variable in the row is refusal 12. The ones are the known variables that are true.
    ///
    /// ```
    /// let table = opb::read(b"3 x1 2 x2 <= 4;\n1 x3 >= 1;\n", 1)?;
    /// let mut assignment = opb::Assignment::new();
    /// assignment.extend(b"v x1 -x2")?;
    /// assert_eq!(table.evaluate_known(0, &assignment)?, opb::Value::Constraint { sum: 3, holds: true, ones: 1 });
    /// assert_eq!(table.evaluate_known(1, &assignment).unwrap_err().reason, opb::Reason::Assignment);
    /// # Ok::<(), opb::Refusal>(())
    /// ```
    pub fn evaluate_known(&self, row: usize, assignment: &Assignment) -> Result<Value, Refusal> {
        ffi::evaluate_known(self, row, assignment)
    }

    /// The same without the ones, which are 0. It takes the time of the row's terms, however many words the assignment has: where there are many rows this is the call to make.
    ///
    /// ```
    /// let table = opb::read(b"3 x1 2 x2 <= 4;\n1 x100 >= 1;\n", 1)?;
    /// let mut assignment = opb::Assignment::new();
    /// assignment.extend(b"v x1 -x2 x100")?;
    /// assert_eq!(table.judge(0, &assignment)?, opb::Value::Constraint { sum: 3, holds: true, ones: 0 });
    /// # Ok::<(), opb::Refusal>(())
    /// ```
    pub fn judge(&self, row: usize, assignment: &Assignment) -> Result<Value, Refusal> {
        ffi::judge(self, row, assignment)
    }

    /// The rows as lines of an OPB file. Comment rows point into `text`: for rows that were read, the file.
    ///
    /// ```
    /// let file = b"* hall\n3 x1 2 x2 <= 4;\n";
    /// let table = opb::read(file, 1)?;
    /// assert_eq!(table.write(file, 1, opb::Literals::Negated)?, b"* hall\n3 ~x1 2 ~x2 >= 1;\n");
    /// # Ok::<(), opb::Refusal>(())
    /// ```
    pub fn write(&self, text: &[u8], first: u32, literals: Literals) -> Result<Vec<u8>, Refusal> {
        measured(|out| self.write_into(text, first, literals, out))
    }

    /// The same into an output; answers the length.
    pub fn write_into(&self, text: &[u8], first: u32, literals: Literals, out: &mut [u8]) -> Result<usize, Refusal> {
        ffi::write(self, text, first, literals == Literals::Plain, out)
    }

    /// The rows as the lines of the listing, parted by tabs.
    ///
    /// ```
    /// let table = opb::read(b"* hall\n3 x1 -2 ~x2 < 4\n", 1)?;
    /// assert_eq!(table.list(1)?, b"opb\t2\t2\t1\nc\t4\nle\t3\t3\tx1\t-2\t~x2\n");
    /// # Ok::<(), opb::Refusal>(())
    /// ```
    pub fn list(&self, first: u32) -> Result<Vec<u8>, Refusal> {
        measured(|out| self.list_into(first, out))
    }

    /// The same into an output; answers the length.
    pub fn list_into(&self, first: u32, out: &mut [u8]) -> Result<usize, Refusal> {
        ffi::list(self, self.size().rows, first, out)
    }

    fn truncate(&mut self, size: Size) {
        self.kinds.truncate(size.rows);
        self.firsts.truncate(size.rows);
        self.counts.truncate(size.rows);
        self.bounds.truncate(size.rows);
        self.weights.truncate(size.terms);
        self.literals.truncate(size.terms);
    }
}
