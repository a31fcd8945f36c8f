//! The answer for a person: its status, its value, the true variables one to a line, and what stands.
use super::running::Run;
use super::said::Claim;
use super::verdict::{Plan, Verdict};
use crate::output::Status;
use std::fmt::Write;

/// One column for what a line is about.
const COLUMN: usize = 8;

/// Which variables stand in the plan, and which of these are true.
pub struct Variables {
    pub count: usize,
    pub trues: Vec<u32>,
}

impl Variables {
    /// Of the answer's words, those bits that the plan has.
    pub fn of(plan: &Plan, verdict: &Verdict) -> Variables {
        let mut stands = vec![0u64; plan.variables as usize / 64 + 1];
        for literal in &plan.table.literals {
            let index = *literal as usize / 2;
            stands[index / 64] |= 1 << (index % 64);
        }
        let is_true = |index: &u32| stands[*index as usize / 64] >> (index % 64) & 1 == 1 && verdict.answer.as_ref().map_or(false, |answer| answer.value(*index as usize) == Some(true));
        let trues = (0..plan.variables as u32).filter(is_true).collect();
        Variables { count: stands.iter().map(|word| word.count_ones() as usize).sum(), trues }
    }
}

/// The status as the solver tells it, in one word. A status without its answer is none.
pub fn status_word(verdict: &Verdict) -> Option<&'static str> {
    if verdict.exit == Status::NoAnswer && verdict.claim != Some(Claim::Unsatisfiable) {
        return Some("unknown");
    }
    Some(match verdict.claim? {
        Claim::Optimum if verdict.has_objective => "optimum",
        Claim::Optimum | Claim::Satisfiable => "satisfiable",
        Claim::Unsatisfiable => "unsatisfiable",
        Claim::Unknown => "unknown",
        Claim::Unsupported => "unsupported",
    })
}

/// What of it is the solver's word alone.
fn status(verdict: &Verdict, run: &Run) -> String {
    let word = status_word(verdict).unwrap_or("unknown");
    let remark = match word {
        _ if verdict.exit == Status::Fails => " (as the solver says)",
        "unknown" => " (no answer in time)",
        "optimum" | "unsatisfiable" => " (the solver's word alone)",
        "satisfiable" if verdict.has_objective && run.stopped => " (stopped when its time was up: there may be a better one)",
        "satisfiable" if verdict.has_objective => " (there may be a better one)",
        _ => "",
    };
    format!("{}{}", word, remark)
}

fn value(verdict: &Verdict, solver: &str) -> Option<String> {
    let value = verdict.rows.value.filter(|_| verdict.has_objective)?;
    Some(match verdict.claimed {
        Some(claimed) if claimed == i128::from(value) => format!("{} (as {} claims, checked)", value, solver),
        Some(claimed) => format!("{} ({} claims {})", value, solver, claimed),
        None => format!("{} (checked; {} claims none)", value, solver),
    })
}

fn what_stands(verdict: &Verdict) -> String {
    let (failing, constraints) = (verdict.rows.failing.len(), verdict.rows.constraints);
    match (failing, verdict.exit) {
        (0, Status::Accepted) => format!("every row holds, checked: {} of {} constraints", constraints, constraints),
        (0, _) => format!("the solver's claim is false ({} of {} constraints hold)", constraints, constraints),
        _ => format!("the answer is false: {} of {} constraints fail", failing, constraints),
    }
}

/// The lines; with `quiet`, of the variables alone.
pub fn lines(plan: &Plan, verdict: &Verdict, run: &Run, solver: &str, quiet: bool) -> String {
    let variables = Variables::of(plan, verdict);
    let mut names = String::new();
    for index in &variables.trues {
        // a string takes whatever is written to it
        let _ = writeln!(names, "{}", plan.names.shown(*index, plan.first));
    }
    if quiet {
        return names;
    }
    let line = |what: &str, text: String| format!("{:width$}{}\n", what, text, width = COLUMN);
    let mut text = line("status", status(verdict, run));
    text += &value(verdict, solver).map_or(String::new(), |value| line("value", value));
    if verdict.answer.is_some() {
        text += &line("true", format!("{} of {} variables", variables.trues.len(), variables.count));
    }
    text += &names;
    if verdict.judged {
        text += &line("rows", what_stands(verdict));
    }
    text
}
