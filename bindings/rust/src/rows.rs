//! A table's rows one after the other, each with its kind, bound and terms.
use crate::kinds::Kind;
use crate::table::Table;
use std::iter::{FusedIterator, Zip};
use std::ops::Range;
use std::slice::Iter;

/// A variable, plain or negated.
///
/// ```
/// use opb::Literal;
/// let literal = Literal::of(5);
/// assert_eq!((literal.index(), literal.is_negated()), (2, true));
/// assert_eq!(literal.number(1), 3); // `~x3` in a file whose first index is 1
/// assert_eq!(Literal::new(2, true), Some(literal));
/// assert_eq!(u32::from(literal), 5);
/// ```
#[derive(Clone, Copy, Debug, PartialEq, Eq, PartialOrd, Ord, Hash)]
pub struct Literal(u32);

impl Literal {
    /// The literal with this code, as it stands in a table's column: twice the variable index, plus 1 if negated.
    pub const fn of(code: u32) -> Literal {
        Literal(code)
    }

    /// The literal of a variable index; none above [`INDEX_LIMIT`](crate::INDEX_LIMIT).
    pub const fn new(index: u32, negated: bool) -> Option<Literal> {
        if index > crate::INDEX_LIMIT {
            return None;
        }
        Some(Literal(2 * index + negated as u32))
    }

    /// The code in a table's column.
    pub const fn code(self) -> u32 {
        self.0
    }

    /// The variable index: the number in the file less the first index.
    pub const fn index(self) -> u32 {
        self.0 / 2
    }

    /// Whether it is true where its variable is false.
    pub const fn is_negated(self) -> bool {
        self.0 % 2 == 1
    }

    /// The number behind the `x` in a file with this first index.
    pub const fn number(self, first: u32) -> u64 {
        self.index() as u64 + first as u64
    }
}

impl From<Literal> for u32 {
    fn from(literal: Literal) -> u32 {
        literal.code()
    }
}

/// A weight and the literal that it counts for.
#[derive(Clone, Copy, Debug, PartialEq, Eq, Hash)]
pub struct Term {
    /// What the sum gains where the literal is true.
    pub weight: i64,
    /// The variable, plain or negated.
    pub literal: Literal,
}

impl From<Term> for (i64, u32) {
    /// As [`Table::push`] takes it.
    fn from(term: Term) -> (i64, u32) {
        (term.weight, term.literal.code())
    }
}

/// The terms of a row, in their order.
#[derive(Clone, Debug)]
pub struct Terms<'a> {
    columns: Zip<Iter<'a, i64>, Iter<'a, u32>>,
    has_weights: bool,
}

impl<'a> Terms<'a> {
    fn new(weights: &'a [i64], literals: &'a [u32], has_weights: bool) -> Terms<'a> {
        Terms { columns: weights.iter().zip(literals), has_weights }
    }

    fn term(&self, (weight, literal): (&i64, &u32)) -> Term {
        Term { weight: if self.has_weights { *weight } else { 1 }, literal: Literal::of(*literal) }
    }
}

impl Iterator for Terms<'_> {
    type Item = Term;

    fn next(&mut self) -> Option<Term> {
        self.columns.next().map(|term| self.term(term))
    }

    fn size_hint(&self) -> (usize, Option<usize>) {
        self.columns.size_hint()
    }
}

impl DoubleEndedIterator for Terms<'_> {
    fn next_back(&mut self) -> Option<Term> {
        self.columns.next_back().map(|term| self.term(term))
    }
}

impl ExactSizeIterator for Terms<'_> {}
impl FusedIterator for Terms<'_> {}

/// A row of a table, as the calls take it.
///
/// A table may hold rows that no call would make or take: they have no kind here, no text and no terms, and the calls refuse them with [`Reason::Row`](crate::Reason::Row). So every table has its
/// rows, and no row has a part of its terms only.
#[derive(Clone, Debug)]
pub struct Row<'a> {
    /// Which row of the table it is, from 0.
    pub index: usize,
    /// What it is; none where the number in the column of kinds is unknown, or where terms lie outside their column.
    pub kind: Option<Kind>,
    /// The bound, or an objective's offset; 1 for a clause, whatever its column says.
    pub bound: i64,
    /// Weights and literals; none for a comment. The weights of clauses and cardinality rows are 1, whatever their column says.
    pub terms: Terms<'a>,
    /// Where a comment's text lies in the file that was read; none for other rows.
    pub text: Option<Range<usize>>,
}

impl<'a> Row<'a> {
    /// The row of this index, which is below the table's size.
    fn of(table: &'a Table, index: usize) -> Row<'a> {
        let kind = Kind::of(table.kinds[index]);
        let range = table.firsts[index].checked_add(table.counts[index]).map(|end| table.firsts[index]..end);
        let bound = if kind == Some(Kind::Clause) { 1 } else { table.bounds[index] };
        let none = Row { index, kind: None, bound, terms: Terms::new(&[], &[], true), text: None };
        match (kind, range) {
            (Some(Kind::Comment), Some(text)) => Row { kind, text: Some(text), ..none },
            (Some(known), Some(range)) => match (table.weights.get(range.clone()), table.literals.get(range)) {
                (Some(weights), Some(literals)) => Row { kind, terms: Terms::new(weights, literals, known.has_weights()), ..none },
                _ => none,
            },
            _ => none,
        }
    }

    /// Whether it is a row that holds or fails.
    pub fn is_constraint(&self) -> bool {
        self.kind.map_or(false, Kind::is_constraint)
    }

    /// The text of a comment, from the file that was read; none for other rows, and where it lies outside.
    ///
    /// ```
    /// let file = b"* hall\n1 x1 >= 1;\n";
    /// let table = opb::read(file, 1)?;
    /// let texts: Vec<_> = table.rows().map(|row| row.comment(file)).collect();
    /// assert_eq!(texts, [Some(&b"hall"[..]), None]);
    /// # Ok::<(), opb::Refusal>(())
    /// ```
    pub fn comment<'f>(&self, file: &'f [u8]) -> Option<&'f [u8]> {
        file.get(self.text.clone()?)
    }
}

/// The rows of a table, in their order.
#[derive(Clone, Debug)]
pub struct Rows<'a> {
    table: &'a Table,
    indexes: Range<usize>,
}

impl<'a> Iterator for Rows<'a> {
    type Item = Row<'a>;

    fn next(&mut self) -> Option<Row<'a>> {
        self.indexes.next().map(|index| Row::of(self.table, index))
    }

    fn size_hint(&self) -> (usize, Option<usize>) {
        self.indexes.size_hint()
    }

    fn nth(&mut self, n: usize) -> Option<Row<'a>> {
        self.indexes.nth(n).map(|index| Row::of(self.table, index))
    }
}

impl<'a> DoubleEndedIterator for Rows<'a> {
    fn next_back(&mut self) -> Option<Row<'a>> {
        self.indexes.next_back().map(|index| Row::of(self.table, index))
    }
}

impl ExactSizeIterator for Rows<'_> {}
impl FusedIterator for Rows<'_> {}

impl<'a> IntoIterator for &'a Table {
    type Item = Row<'a>;
    type IntoIter = Rows<'a>;

    fn into_iter(self) -> Rows<'a> {
        self.rows()
    }
}

impl Table {
    /// The rows, one after the other. Every table has them: see [`Row`] for those that no call would make.
    ///
    /// ```
    /// use opb::Kind;
    /// let table = opb::read(b"3 x1 -2 ~x2 >= 1;\nmin: 4 x3;\n", 1)?;
    /// for row in &table {
    ///     let terms: Vec<_> = row.terms.map(|term| (term.weight, term.literal.is_negated(), term.literal.number(1))).collect();
    ///     match row.kind {
    ///         Some(Kind::AtLeast) => assert_eq!((row.bound, terms), (1, vec![(3, false, 1), (-2, true, 2)])),
    ///         kind => assert_eq!((kind, terms), (Some(Kind::Objective), vec![(4, false, 3)])),
    ///     }
    /// }
    /// # Ok::<(), opb::Refusal>(())
    /// ```
    pub fn rows(&self) -> Rows<'_> {
        Rows { table: self, indexes: 0..self.size().rows }
    }

    /// The row of this index, if there is one.
    pub fn row(&self, index: usize) -> Option<Row<'_>> {
        self.rows().nth(index)
    }
}
