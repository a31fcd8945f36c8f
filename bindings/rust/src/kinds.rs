//! The kinds of rows, as an enum over the numbers in a table's column of kinds.

/// What a row is. Reading makes the first five; of the others, which a program may push, only writing knows.
///
/// ```
/// use opb::Kind;
/// assert_eq!(Kind::of(3), Some(Kind::Equal));
/// assert_eq!(Kind::of(9), None);
/// assert_eq!(Kind::Objective.number(), 4);
/// assert!(Kind::Clause.is_constraint() && !Kind::Comment.is_constraint());
/// ```
#[derive(Clone, Copy, Debug, PartialEq, Eq, PartialOrd, Ord, Hash)]
#[repr(u8)]
pub enum Kind {
    /// A comment: a range of bytes, no terms.
    Comment = 0,
    /// The sum is at least the bound.
    AtLeast = 1,
    /// The sum is at most the bound.
    AtMost = 2,
    /// The sum is the bound.
    Equal = 3,
    /// A sum to be made small; its bound is the offset that is added.
    Objective = 4,
    /// One literal at least is true. Weights and bound are taken as 1, their columns are not looked at.
    Clause = 5,
    /// So many literals at least are true. Weights are taken as 1, their column is not looked at.
    CardinalityAtLeast = 6,
    /// So many literals at most are true. Weights are taken as 1, their column is not looked at.
    CardinalityAtMost = 7,
    /// Just so many literals are true. Weights are taken as 1, their column is not looked at.
    CardinalityEqual = 8,
}

const ALL: [Kind; 9] = [Kind::Comment, Kind::AtLeast, Kind::AtMost, Kind::Equal, Kind::Objective, Kind::Clause, Kind::CardinalityAtLeast, Kind::CardinalityAtMost, Kind::CardinalityEqual];

impl Kind {
    /// The number in the column of kinds.
    pub const fn number(self) -> u8 {
        self as u8
    }

    /// The kind with this number, if there is one.
    pub fn of(number: u8) -> Option<Kind> {
        ALL.get(usize::from(number)).copied()
    }

    /// Whether a row of this kind holds or fails: it is neither a comment nor an objective.
    pub const fn is_constraint(self) -> bool {
        !matches!(self, Kind::Comment | Kind::Objective)
    }

    /// Whether the weights of its terms are those in their column; else each is taken as 1.
    pub const fn has_weights(self) -> bool {
        self.number() < Kind::Clause.number()
    }
}

impl From<Kind> for u8 {
    fn from(kind: Kind) -> u8 {
        kind.number()
    }
}
