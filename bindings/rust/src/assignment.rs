//! Assignments as a solver's value lines tell them: two rows of words that grow.
use crate::ffi;
use crate::refusal::{Reason, Refusal};

/// The values of variables, of which some may be unknown. A variable index counts from 0: the `x1` of a value line is index 0, as is the `x1` of a file whose first index is 1.
///
/// ```
/// let mut assignment = opb::Assignment::new();
/// assignment.extend(b"v x1 -x3\n")?;
/// assert_eq!((assignment.value(0), assignment.value(1), assignment.value(2)), (Some(true), None, Some(false)));
/// assert_eq!(assignment.len(), 3);
/// # Ok::<(), opb::Refusal>(())
/// ```
#[derive(Clone, Debug, Default, PartialEq, Eq)]
pub struct Assignment {
    pub(crate) values: Vec<u64>,
    pub(crate) known: Vec<u64>,
    pub(crate) length: u64,
}

impl Assignment {
    /// Nothing is known.
    pub fn new() -> Assignment {
        Assignment::default()
    }

    /// A block of value lines, with room made for it. A refused block changes nothing; 12 is left where there is no memory for the words.
    ///
    /// ```
    /// # use opb::{Assignment, Reason, Refusal};
    /// let mut assignment = Assignment::new();
    /// assignment.extend(b"v 1 -2 0\n")?;
    /// assert_eq!(assignment.extend(b"v -3 2\n"), Err(Refusal { reason: Reason::Conflict, place: 5 }));
    /// assert_eq!(assignment.value(2), None);
    /// # Ok::<(), Refusal>(())
    /// ```
    pub fn extend(&mut self, block: &[u8]) -> Result<(), Refusal> {
        let length = match ffi::values(block, self) {
            Err(needed) if needed.reason == Reason::Assignment => {
                self.make_room(needed)?;
                ffi::values(block, self)
            }
            answer => answer,
        };
        self.length = length?;
        Ok(())
    }

    /// Both rows have one length; neither grows before there is memory for both.
    fn make_room(&mut self, needed: Refusal) -> Result<(), Refusal> {
        let words = needed.place as usize;
        let more = words.saturating_sub(self.values.len());
        self.values.try_reserve(more).map_err(|_| needed)?;
        self.known.try_reserve(more).map_err(|_| needed)?;
        self.values.resize(words, 0);
        self.known.resize(words, 0);
        Ok(())
    }

    /// One past the highest variable index met.
    pub fn len(&self) -> usize {
        self.length as usize
    }

    /// Whether no variable was met.
    pub fn is_empty(&self) -> bool {
        self.length == 0
    }

    /// The value of a variable index, where it is known.
    pub fn value(&self, index: usize) -> Option<bool> {
        let bit = |row: &[u64]| row.get(index / 64).map_or(false, |word| word >> (index % 64) & 1 == 1);
        if bit(&self.known) {
            Some(bit(&self.values))
        } else {
            None
        }
    }

    /// The words of the values: variable index v is bit v mod 64 of word v / 64. A variable that is not known has a bit, too.
    pub fn values(&self) -> &[u64] {
        &self.values
    }

    /// The words that say which variables are known.
    pub fn known(&self) -> &[u64] {
        &self.known
    }
}
