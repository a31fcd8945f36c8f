//! What a solver's output says of a plan.
use crate::input::{self, Input};
use crate::options::{Common, Evaluate};
use crate::output::{deliver, say, Status};
use crate::progress::{Bar, Progress};
use crate::{report, values};
use opb::{Assignment, Kind, Reason, Refusal, Table, Value};
use std::fmt::Write;

/// A line for each row that has a value; how many constraints there are, and the rows of those that fail.
#[derive(Default)]
struct Answer {
    lines: String,
    constraints: usize,
    failing: Vec<usize>,
}

pub fn run(task: &Evaluate, common: &Common) -> Status {
    if task.plan == "-" && task.answer == "-" {
        say("opb: evaluate takes one of plan and answer from standard input, not both");
        return Status::Trouble;
    }
    let (plan, table) = match input::read_plan(&task.plan, common) {
        Ok(read) => read,
        Err(status) => return status,
    };
    match input::answer(&task.answer, common) {
        Ok(output) => evaluate(&plan, &table, &output, task, common),
        Err(trouble) => trouble,
    }
}

fn evaluate(plan: &Input, table: &Table, output: &Input, task: &Evaluate, common: &Common) -> Status {
    let mut assignment = Assignment::new();
    if let Err(refusal) = assignment.extend(&values::block(&output.bytes)) {
        return refused_values(output, &refusal);
    }
    let bar = Progress::of(&plan.name, common).percent("evaluating", plan.bytes.len(), table.kinds.len());
    let answered = answer(table, &assignment, &bar);
    drop(bar);
    match answered {
        Ok(answer) => tell(plan, task, common, &answer),
        Err(refusal) => {
            let unknown = unknown(table, refusal.place as usize, &assignment);
            say(&report::of_unknown(plan, common.first, &refusal, unknown));
            report::status_of(&refusal)
        }
    }
}

/// The assignment grows as it must, so 12 is about memory. The block has no other lines than value lines, so 20 is that there is none.
fn refused_values(output: &Input, refusal: &Refusal) -> Status {
    let (message, status) = match refusal.reason {
        Reason::Assignment => (report::no_words(output, refusal), Status::Trouble),
        Reason::Line => (report::no_values(output, refusal), Status::Refused),
        _ => {
            let place = values::place_in(&output.bytes, refusal.place).unwrap_or(refusal.place);
            (report::of_file(output, &Refusal { place, ..*refusal }), Status::Refused)
        }
    };
    say(&message);
    status
}

fn answer(table: &Table, assignment: &Assignment, bar: &Bar) -> Result<Answer, Refusal> {
    let mut answer = Answer::default();
    for row in (0..table.kinds.len()).filter(|row| table.kind(*row) != Some(Kind::Comment)) {
        bar.at(row);
        answer.add(table, row, table.judge(row, assignment)?);
    }
    Ok(answer)
}

impl Answer {
    fn add(&mut self, table: &Table, row: usize, value: Value) {
        // a string takes whatever is written to it
        let _ = match value {
            Value::Objective { value, .. } => writeln!(self.lines, "min\t{}", value),
            Value::Constraint { sum, holds, .. } => {
                self.constraints += 1;
                if !holds {
                    self.failing.push(row);
                }
                writeln!(self.lines, "{}\t{}\t{}\t{}", word(table.kind(row)), sum, table.bounds[row], if holds { "holds" } else { "fails" })
            }
        };
    }
}

/// A constraint's kind, as the listing says it.
fn word(kind: Option<Kind>) -> &'static str {
    match kind {
        Some(Kind::AtLeast) => "ge",
        Some(Kind::AtMost) => "le",
        _ => "eq",
    }
}

/// The lines are the answer; where a constraint fails, standard error says where the first is.
fn tell(plan: &Input, task: &Evaluate, common: &Common, answer: &Answer) -> Status {
    match (deliver(&task.output, answer.lines.as_bytes()), answer.failing.first()) {
        (Status::Accepted, Some(row)) => {
            say(&report::of_failing(plan, common.first, *row as u64, answer.failing.len(), answer.constraints));
            Status::Fails
        }
        (status, _) => status,
    }
}

/// The index of the row's first variable that has no value.
pub fn unknown(table: &Table, row: usize, assignment: &Assignment) -> Option<u32> {
    let terms = &table.literals[table.firsts[row]..][..table.counts[row]];
    terms.iter().map(|literal| literal / 2).find(|index| assignment.value(*index as usize).is_none())
}
