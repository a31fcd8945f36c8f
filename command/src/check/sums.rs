//! What the chunks of a file add up to.
use crate::header::{is_header, Header};
use crate::names;
use opb::{Kind, Size, Table};
use std::collections::HashSet;

/// Bits to a page: few enough that a single high variable costs little.
const PAGE: usize = 1 << 15;

/// A set of variable indexes, in pages that are made as they are needed.
#[derive(Default)]
pub struct Indexes {
    pages: Vec<Option<Box<[u64; PAGE / 64]>>>,
}

impl Indexes {
    /// Puts an index in; answers whether it is new.
    pub fn put(&mut self, index: u32) -> bool {
        let (page, bit) = (index as usize / PAGE, index as usize % PAGE);
        if self.pages.len() <= page {
            self.pages.resize_with(page + 1, || None);
        }
        let word = &mut self.pages[page].get_or_insert_with(|| Box::new([0; PAGE / 64]))[bit / 64];
        let new = *word >> (bit % 64) & 1 == 0;
        *word |= 1 << (bit % 64);
        new
    }

    /// Pages that are there, each with its words.
    fn words(&self) -> impl Iterator<Item = (usize, &[u64; PAGE / 64])> {
        self.pages.iter().enumerate().filter_map(|(page, words)| Some((page, &**words.as_ref()?)))
    }

    pub fn len(&self) -> usize {
        self.words().flat_map(|(_, words)| words).map(|word| word.count_ones() as usize).sum()
    }

    /// The greatest.
    pub fn last(&self) -> Option<u32> {
        let (page, words) = self.words().last()?;
        let word = words.iter().rposition(|word| *word != 0)?;
        Some((page * PAGE + word * 64 + 63) as u32 - words[word].leading_zeros())
    }

    /// What is in here and not in the other, from the least on.
    pub fn without<'a>(&'a self, other: &'a Indexes) -> impl Iterator<Item = u32> + 'a {
        let at = |page: usize, word: usize| other.pages.get(page).and_then(|words| words.as_ref()).map_or(0, |words| words[word]);
        let words = self.words().flat_map(move |(page, words)| words.iter().enumerate().map(move |(word, bits)| (page * PAGE + word * 64, bits & !at(page, word))));
        words.flat_map(|(base, bits)| (0..64).filter(move |bit| bits >> bit & 1 == 1).map(move |bit| (base + bit) as u32))
    }
}

/// The names that comments give to variables.
#[derive(Default)]
pub struct Named<'a> {
    pub indexes: Indexes,
    texts: HashSet<&'a str>,
    /// Numbers below the first index, which no row has.
    pub below: Vec<u32>,
    /// The place of the first name of a variable that has one already, and of the first name that another has already.
    pub second: Option<usize>,
    pub again: Option<usize>,
    /// Whether no `* 0` stands behind the last name.
    pub open: bool,
}

#[derive(Default)]
pub struct Sums<'a> {
    pub rows: usize,
    pub terms: usize,
    pub comments: usize,
    pub objectives: usize,
    pub variables: Indexes,
    /// Places of the comments that are headers, and what the first says.
    pub headers: Vec<usize>,
    pub header: Option<Header>,
    pub names: Named<'a>,
    /// The place of the first comment that has a CR in it.
    pub broken: Option<usize>,
}

impl<'a> Sums<'a> {
    /// A chunk that begins at this byte of the file, and its rows.
    pub fn add(&mut self, chunk: &'a [u8], at: usize, table: &Table, size: Size, first: u32) {
        self.rows += size.rows;
        self.terms += size.terms;
        for row in 0..size.rows {
            match table.kind(row) {
                Some(Kind::Comment) => self.comment(names::comment(chunk, table, row), at + table.firsts[row], first),
                Some(Kind::Objective) => self.objectives += 1,
                _ => (),
            }
        }
        self.variables(&table.literals[..size.terms]);
    }

    fn variables(&mut self, literals: &[u32]) {
        for literal in literals {
            self.variables.put(literal / 2);
        }
    }

    fn comment(&mut self, text: &'a [u8], place: usize, first: u32) {
        self.comments += 1;
        if text.contains(&b'\r') {
            self.broken.get_or_insert(place);
        }
        if is_header(text) {
            self.header = if self.headers.is_empty() { Header::of(text) } else { self.header };
            self.headers.push(place);
        }
        if text == b"0" {
            self.names.open = false;
        }
        if let Some((number, name)) = names::of_text(text) {
            self.names.add(number, name, place, first);
        }
    }

    pub fn constraints(&self) -> usize {
        self.rows - self.comments - self.objectives
    }

    /// The greatest number of a variable.
    pub fn highest(&self, first: u32) -> Option<u64> {
        self.variables.last().map(|index| u64::from(index) + u64::from(first))
    }
}

impl<'a> Named<'a> {
    fn add(&mut self, number: u32, name: &'a str, place: usize, first: u32) {
        self.open = true;
        let new = match number.checked_sub(first) {
            Some(index) => self.indexes.put(index),
            None => {
                self.below.push(number);
                true
            }
        };
        if !new {
            self.second.get_or_insert(place);
        }
        if !self.texts.insert(name) {
            self.again.get_or_insert(place);
        }
    }
}

#[cfg(test)]
mod tests {
    use super::Indexes;

    #[test]
    fn indexes_are_a_set() {
        let (mut one, mut other) = (Indexes::default(), Indexes::default());
        assert_eq!((one.len(), one.last()), (0, None));
        let all = [0, 63, 64, 32767, 32768, 1_073_741_823];
        for index in all {
            assert!(one.put(index) && !one.put(index));
        }
        assert_eq!((one.len(), one.last()), (6, Some(1_073_741_823)));
        assert_eq!(one.without(&other).collect::<Vec<_>>(), all);
        other.put(63);
        other.put(32768);
        assert_eq!(one.without(&other).collect::<Vec<_>>(), [0, 64, 32767, 1_073_741_823]);
        assert_eq!((other.last(), other.without(&one).count()), (Some(32768), 0));
    }
}
