//! What a solver's answer is worth: every row of the plan as it was read, by the proved evaluator, and the claims held against it.
use super::open;
use super::running::Run;
use super::said::{Claim, Said};
use crate::evaluate::unknown;
use crate::input::Input;
use crate::names::Names;
use crate::output::Status;
use crate::report;
use opb::{Assignment, Kind, Reason, Refusal, Table, Value};
use std::os::unix::process::ExitStatusExt;

/// How many of the rows that fail are shown.
const SHOWN: usize = 20;

/// A plan, as it was read and as a solver has it.
pub struct Plan<'a> {
    pub input: &'a Input,
    pub table: &'a Table,
    pub names: Names<'a>,
    pub first: u32,
    /// What is added to a value that the solver tells.
    pub offset: i64,
    /// The greatest number of a variable, counted from 1 as solvers do.
    pub variables: u64,
}

impl Plan<'_> {
    /// The objective's row, where it has terms: else the solver's file has none, and no value is claimed of it.
    fn objective(&self) -> Option<usize> {
        (0..self.table.kinds.len()).find(|row| self.table.kind(*row) == Some(Kind::Objective) && self.table.counts[*row] > 0)
    }
}

/// A constraint that does not hold.
pub struct Failing {
    pub row: usize,
    pub line: usize,
    /// The line as it is shown, of the first of them.
    text: String,
    pub sum: i64,
    pub bound: i64,
    pub by: i128,
}

/// What is found of the rows.
#[derive(Default)]
pub struct Rows {
    pub constraints: usize,
    pub value: Option<i64>,
    pub failing: Vec<Failing>,
}

/// What stands in the end; the messages are for standard error, the remarks too where they are wanted.
pub struct Verdict {
    pub exit: Status,
    pub claim: Option<Claim>,
    pub claimed: Option<i128>,
    pub rows: Rows,
    /// The values, where every row holds and no claim is false.
    pub answer: Option<Assignment>,
    /// Whether there were values, and every row was judged by them.
    pub judged: bool,
    pub has_objective: bool,
    pub completed: usize,
    pub remarks: Vec<String>,
    pub messages: Vec<String>,
}

/// Why there is nothing to judge, or it cannot be.
type Without = (Status, String);

impl Verdict {
    pub fn of(plan: &Plan, solver: &str, said: &Said, run: &Run) -> Verdict {
        let objective = plan.objective();
        let claimed = said.worth.filter(|_| objective.is_some()).map(|worth| i128::from(worth) + i128::from(plan.offset));
        let mut verdict = Verdict::without(Status::Accepted, Vec::new());
        (verdict.claim, verdict.claimed, verdict.has_objective) = (said.claim, claimed, objective.is_some());
        let judged = block(plan, solver, said, run).and_then(|block| verdict.judge(plan, solver, block, objective));
        if let Err((exit, message)) = judged {
            verdict.exit = exit;
            verdict.messages.push(message);
        }
        verdict
    }

    /// Of a run that never came to an answer.
    pub fn without(exit: Status, messages: Vec<String>) -> Verdict {
        let (rows, remarks) = (Rows::default(), Vec::new());
        Verdict { exit, claim: None, claimed: None, rows, answer: None, judged: false, has_objective: false, completed: 0, remarks, messages }
    }

    fn judge(&mut self, plan: &Plan, solver: &str, block: &[u8], objective: Option<usize>) -> Result<(), Without> {
        let assignment = values(plan, solver, block)?;
        let completed = open::completed(plan.table, objective, assignment, self.claimed).map_err(|refusal| refused_row(plan, &refusal, &Assignment::new()))?;
        self.completed = completed.count;
        if completed.count > 0 {
            self.remarks.push(format!("{}: variables on which no constraint depends, without a value in the answer: {}. They {}", solver, completed.count, completed.how));
        }
        self.rows = rows(plan, &completed.assignment)?;
        self.judged = true;
        self.messages = self.found_out(plan, solver);
        if self.messages.is_empty() {
            self.answer = Some(completed.assignment);
        } else {
            self.exit = Status::Fails;
        }
        Ok(())
    }

    /// Everything that is false about the answer.
    fn found_out(&self, plan: &Plan, solver: &str) -> Vec<String> {
        let name = &plan.input.name;
        let mut found = Vec::new();
        if !self.rows.failing.is_empty() {
            found.push(of_failing(plan, solver, &self.rows));
        }
        match (self.claimed, self.rows.value) {
            (Some(claimed), Some(value)) if claimed != i128::from(value) => {
                found.push(format!("{}: the claim of {} is false: it says that its answer has the value {}, and the objective's value is {}", name, solver, claimed, value));
            }
            _ => {}
        }
        if self.claim == Some(Claim::Unsatisfiable) && found.is_empty() {
            found.push(format!("{}: the claim of {} is false: it says UNSATISFIABLE (none), and its own values keep every row", name, solver));
        }
        found
    }
}

/// How it ended, in words, with its last ones.
fn end_of(run: &Run) -> String {
    let end = match (run.end.code(), run.end.signal()) {
        (Some(code), _) => format!("exit status {}", code),
        (_, signal) => format!("signal {}", signal.unwrap_or(0)),
    };
    let lines: String = run.last_words.lines().map(|line| format!("\n  | {}", line)).collect();
    let head = if lines.is_empty() { "" } else { "; its standard error ends with" };
    format!("{}{}{}", end, head, lines)
}

/// The value lines, where there is an answer to judge by them.
fn block<'a>(plan: &Plan, solver: &str, said: &'a Said, run: &Run) -> Result<&'a [u8], Without> {
    if let Some(why) = &run.unreadable {
        return Err((Status::Solver, format!("opb: what {} prints cannot be read: {}", solver, why)));
    }
    if let Some(signal) = run.died_by() {
        return Err((Status::Solver, format!("opb: {} died by {}, and what it printed is not taken ({})", solver, signal, end_of(run))));
    }
    let unfinished = |why: &str| match run.stopped {
        true => (Status::NoAnswer, format!("{}: no answer in time: {} was stopped after {:.1} s", plan.input.name, solver, run.seconds)),
        false => (Status::Solver, format!("opb: what {} prints is no answer: {} ({})", solver, why, end_of(run))),
    };
    if let Some(why) = &run.half {
        return Err(unfinished(why));
    }
    let lines = said.values.block().ok_or_else(|| unfinished("behind its last `o` line stand no value lines"))?;
    match said.claim {
        None => Err(unfinished("there is no status line (a line that begins with `s`), so it is not finished")),
        Some(Claim::Unknown | Claim::Unsupported) => Err(unfinished(&format!("its status is {}", said.claim.map_or("", Claim::word)))),
        Some(Claim::Unsatisfiable) if lines.is_empty() => Err(none(plan, solver, said)),
        Some(_) if lines.is_empty() => Err(unfinished("it claims a solution, and has no value lines (lines that begin with `v`)")),
        Some(_) => Ok(lines),
    }
}

fn none(plan: &Plan, solver: &str, said: &Said) -> Without {
    match said.worth {
        Some(worth) => (Status::Solver, format!("opb: what {} prints is no answer: it says UNSATISFIABLE (none), and `o {}` of a solution", solver, worth)),
        None => (Status::NoAnswer, format!("{}: none: {} says that no plan keeps every row; that is the solver's word alone", plan.input.name, solver)),
    }
}

/// The values of an answer, for variables of the plan.
fn values(plan: &Plan, solver: &str, block: &[u8]) -> Result<Assignment, Without> {
    let mut assignment = Assignment::new();
    assignment.extend(block).map_err(|refusal| {
        let lines = Input { name: format!("the value lines of {}", solver), bytes: block.to_vec() };
        match refusal.reason {
            Reason::Assignment => (Status::Trouble, report::no_words(&lines, &refusal)),
            _ => (Status::Solver, report::of_file(&lines, &refusal)),
        }
    })?;
    let length = assignment.len() as u64;
    if length > plan.variables {
        let greatest = plan.variables.checked_sub(1).map_or("has none".to_string(), |index| format!("ends with {}", report::variable(index as u32, plan.first)));
        let unknown = report::variable((length - 1) as u32, plan.first);
        return Err((Status::Solver, format!("opb: {} gives a value to {}, which is no variable of the plan: it {}", solver, unknown, greatest)));
    }
    Ok(assignment)
}

/// A row that cannot be judged: a variable of it has no value.
fn refused_row(plan: &Plan, refusal: &Refusal, assignment: &Assignment) -> Without {
    match refusal.reason {
        Reason::Assignment => {
            let unknown = unknown(plan.table, refusal.place as usize, assignment);
            (Status::Solver, report::of_unknown(plan.input, plan.first, refusal, unknown))
        }
        _ => (Status::Trouble, report::of_row(plan.input, plan.first, refusal)),
    }
}

fn rows(plan: &Plan, assignment: &Assignment) -> Result<Rows, Without> {
    let mut found = Rows::default();
    let table = plan.table;
    for row in (0..table.kinds.len()).filter(|row| table.kind(*row) != Some(Kind::Comment)) {
        match table.judge(row, assignment).map_err(|refusal| refused_row(plan, &refusal, assignment))? {
            Value::Objective { value, .. } => found.value = Some(value),
            Value::Constraint { sum, holds, .. } => {
                found.constraints += 1;
                if !holds {
                    found.failing.push(Failing { row, line: 0, text: String::new(), sum, bound: table.bounds[row], by: (i128::from(sum) - i128::from(table.bounds[row])).abs() });
                }
            }
        }
    }
    find_lines(plan, &mut found.failing);
    Ok(found)
}

/// One walk over the plan finds the lines of all of them.
fn find_lines(plan: &Plan, failing: &mut [Failing]) {
    if !failing.is_empty() {
        let rows: Vec<usize> = failing.iter().map(|it| it.row).collect();
        let lines = report::lines_of_rows(&plan.input.bytes, plan.first, &rows);
        failing.iter_mut().zip(&lines).for_each(|(it, line)| it.line = line.number);
        failing.iter_mut().zip(&lines).take(SHOWN).for_each(|(it, line)| it.text = report::excerpt(line, 0).0);
    }
}

/// The rows that fail, each with its line and by how much.
fn of_failing(plan: &Plan, solver: &str, rows: &Rows) -> String {
    let failing = &rows.failing;
    let mut text = format!("{}: the answer of {} is false: constraints that fail: {} of {}", plan.input.name, solver, failing.len(), rows.constraints);
    for it in failing.iter().take(SHOWN) {
        let (asked, by) = match plan.table.kind(it.row) {
            Some(Kind::AtLeast) => ("at least", "short"),
            Some(Kind::AtMost) => ("at most", "over"),
            _ => ("exactly", "off"),
        };
        let place = format!("line {} (row {}, counted from 0)", it.line, it.row);
        text += &format!("\n{}\n    {}: the sum is {}, asked for is {} {}: {} by {}", it.text, place, it.sum, asked, it.bound, by, it.by);
    }
    if failing.len() > SHOWN {
        text += &format!("\n    and {} more", failing.len() - SHOWN);
    }
    text
}
