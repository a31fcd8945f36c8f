//! The counts of a run and their summary.

use crate::compare::Seen;
use crate::table::Case;
use std::collections::BTreeMap;

#[derive(Default)]
pub struct Tally {
    pub cases: u64,
    domain: [u64; 3],
    rows: [u64; 2],
    values: u64,
    /// cases by call (0 reading, 1 writing) and refusal, 0 for accepted; blocks of value lines (2) likewise; and how many of them lay in the domain
    refusals: BTreeMap<(usize, u8), (u64, u64)>,
    differences: BTreeMap<&'static str, u64>,
}

impl Tally {
    pub fn add(&mut self, case: &Case, seen: &Seen) {
        let call = usize::from(matches!(case, Case::Write(_)));
        match case {
            Case::Values(_) => seen.blocks.iter().for_each(|&(refusal, domain)| self.count(2, refusal, domain)),
            _ => self.count(call, seen.refusal, seen.domain),
        }
        self.rows[call] += seen.rows;
        self.values += seen.values;
        seen.differences.iter().for_each(|name| *self.differences.entry(name).or_default() += 1);
    }

    fn count(&mut self, call: usize, refusal: u8, domain: bool) {
        let entry = self.refusals.entry((call, refusal)).or_default();
        entry.0 += 1;
        entry.1 += u64::from(domain);
        self.domain[call] += u64::from(domain);
    }

    pub fn print(&self) {
        println!("{} cases; in the domain: {} of reading, {} of writing, {} blocks of value lines", self.cases, self.domain[0], self.domain[1], self.domain[2]);
        println!("compared there: {} rows read, {} values of rows and normal rows, {} rows written", self.rows[0], self.values, self.rows[1]);
        for (&(call, refusal), (count, domain)) in &self.refusals {
            let call = ["reading", "writing", "value lines"][call];
            let what = if refusal == 0 { "accepted".into() } else { format!("refusal {refusal}") };
            println!("  {call}, {what}: {count}, in the domain {domain}");
        }
        println!("listed differences and other ways out of the domain, each asserted:");
        self.differences.iter().for_each(|(name, count)| println!("  {count:9}  {name}"));
    }
}
