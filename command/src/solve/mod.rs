//! The night in one command: the plan to a solver, and its answer held against every row of the plan.
mod held;
mod json;
mod open;
mod running;
mod said;
mod solver;
mod toulbar2;
mod verdict;
mod words;

use crate::for_solvers::for_solvers;
use crate::input::{self, Input};
use crate::names::Names;
use crate::options::{Common, Solve};
use crate::output::{deliver, say, Status};
use crate::progress::Progress;
use crate::rewrite::not_written;
use held::Held;
use opb::Table;
use running::Run;
use said::Said;
use solver::{NoSolver, Solver};
use std::fs;
use std::path::{Path, PathBuf};
use std::time::Duration;
use verdict::{Plan, Verdict};

/// What the solver's file is called; toulbar2 knows the form of a file by the end of its name.
const FILE: &str = "PLAN.opb";

/// No night is longer: so many seconds.
const LONGEST: f64 = 1e9;

pub fn run(task: &Solve, common: &Common) -> Status {
    let limit = match task.time {
        Some(seconds) if !(0.0..=LONGEST).contains(&seconds) => {
            say(&format!("opb: --time {}: a number of seconds is asked for, from 0 on", seconds));
            return Status::Trouble;
        }
        time => time.map(Duration::from_secs_f64),
    };
    let solved = input::read_plan(&task.plan, common).and_then(|(input, table)| solve(task, common, limit, &input, &table));
    solved.unwrap_or_else(|status| without(task, status))
}

/// What is wrong was said; a program is told, too.
fn without(task: &Solve, status: Status) -> Status {
    if task.json {
        let verdict = Verdict::without(status, vec!["standard error says why".to_string()]);
        let object = json::object(&input::name_of(&task.plan), None, None, &verdict, None);
        return deliver(&task.output, object.as_bytes()).max(status);
    }
    status
}

/// The answer, delivered; or why there is none, said.
fn solve(task: &Solve, common: &Common, limit: Option<Duration>, input: &Input, table: &Table) -> Result<Status, Status> {
    let told = |trouble: &dyn std::fmt::Display| {
        say(&format!("opb: the solver's file: {}", trouble));
        Status::Trouble
    };
    let progress = Progress::of(&input.name, common);
    let written = progress.during("rewriting", input.bytes.len(), || for_solvers(&input.bytes, table, common.first));
    let written = written.map_err(|why| not_written(input, common.first, &why))?;
    let solver = chosen(task)?;
    let held = Held::new().map_err(|error| told(&error))?;
    let file = file_in(held.folder(), &written.text).map_err(|error| told(&error))?;
    let (offset, variables) = (written.offset, greatest(table).max(written.header.variables));
    drop(written.text);
    let plan = Plan { input, table, names: Names::of(&input.bytes, table, common.first), first: common.first, offset, variables };
    let mut said = Said::new(solver.form, variables);
    let run = running::run(&solver, &file, limit, &mut said, offset, &held, common.quiet).map_err(|error| {
        say(&format!("opb: {}: {}", solver.words[0], error));
        Status::Solver
    })?;
    let verdict = progress.during("judging", input.bytes.len(), || Verdict::of(&plan, &solver.name, &said, &run));
    Ok(tell(task, common, &plan, &solver, &verdict, &run))
}

/// The greatest number of a variable of the plan, counted from 1 as solvers do. The solver's file may leave out a variable without weights.
fn greatest(table: &Table) -> u64 {
    table.literals.iter().max().map_or(0, |literal| u64::from(literal / 2) + 1)
}

fn chosen(task: &Solve) -> Result<Solver, Status> {
    solver::chosen(task.solver.as_deref()).map_err(|why| {
        let (message, status) = match why {
            NoSolver::Words(message) => (message, Status::Trouble),
            NoSolver::Missing(message) => (message, Status::Solver),
        };
        say(&message);
        status
    })
}

fn file_in(folder: &Path, text: &[u8]) -> std::io::Result<PathBuf> {
    let file = folder.join(FILE);
    fs::write(&file, text)?;
    Ok(file)
}

/// Messages to standard error; the answer, or that there is none, to where lines go. Where the solver gave none that can be read, only a program gets a line.
fn tell(task: &Solve, common: &Common, plan: &Plan, solver: &Solver, verdict: &Verdict, run: &Run) -> Status {
    verdict.remarks.iter().filter(|_| !common.quiet).for_each(|remark| say(remark));
    verdict.messages.iter().for_each(|message| say(message));
    let text = if task.json { json::object(&plan.input.name, Some(&solver.name), Some(plan), verdict, Some(run)) } else { words::lines(plan, verdict, run, &solver.name, common.quiet) };
    let nothing = !task.json && (matches!(verdict.exit, Status::Trouble | Status::Solver) || (common.quiet && verdict.answer.is_none()));
    if nothing {
        return verdict.exit;
    }
    match deliver(&task.output, text.as_bytes()) {
        Status::Accepted => verdict.exit,
        trouble => trouble,
    }
}
