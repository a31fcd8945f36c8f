//! Names of variables: comments `* output x1 held(satyr,atrium,1)`, closed by `* 0`, as clasp has them (`clasp --parse-ext`). Our reader and writer keep them as comments.
use opb::{Kind, Table};
use std::collections::HashMap;

/// The names of a plan's variables, by variable index.
#[derive(Clone, Debug, Default)]
pub struct Names<'a> {
    names: HashMap<u32, &'a str>,
}

/// The number and the name that a comment's text gives: `output x`, the number, a blank, and the name up to the end.
pub fn of_text(text: &[u8]) -> Option<(u32, &str)> {
    let (number, name) = std::str::from_utf8(text).ok()?.strip_prefix("output x")?.split_once(' ')?;
    let name = name.trim();
    if name.is_empty() || !number.bytes().all(|byte| byte.is_ascii_digit()) {
        return None;
    }
    Some((number.parse().ok()?, name))
}

/// The text of a comment row.
pub fn comment<'a>(file: &'a [u8], table: &Table, row: usize) -> &'a [u8] {
    &file[table.firsts[row]..][..table.counts[row]]
}

impl<'a> Names<'a> {
    /// The names in a plan that was read. Of two names of one variable the first counts.
    pub fn of(file: &'a [u8], table: &Table, first: u32) -> Names<'a> {
        let mut names = HashMap::new();
        for row in (0..table.kinds.len()).filter(|row| table.kind(*row) == Some(Kind::Comment)) {
            if let Some((number, name)) = of_text(comment(file, table, row)) {
                if let Some(index) = number.checked_sub(first) {
                    names.entry(index).or_insert(name);
                }
            }
        }
        Names { names }
    }

    pub fn name(&self, index: u32) -> Option<&'a str> {
        self.names.get(&index).copied()
    }

    /// The name, or `x` and the number in the plan.
    pub fn shown(&self, index: u32, first: u32) -> String {
        self.name(index).map_or_else(|| format!("x{}", u64::from(index) + u64::from(first)), str::to_string)
    }
}
