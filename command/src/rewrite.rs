//! A plan written again.
use crate::for_solvers::{for_solvers, NotForSolvers};
use crate::input::{self, Input};
use crate::options::{self, Common, Output};
use crate::output::{deliver, say, Status};
use crate::progress::Progress;
use crate::report;
use opb::{Literals, Table};
use std::ffi::OsStr;

/// How it is written.
#[derive(Clone, Copy, Debug, PartialEq, Eq)]
pub enum Form {
    Negated,
    Plain,
    Solvers,
}

impl Form {
    /// The one that the words ask for; clap has seen that there is one.
    pub fn asked(words: &options::Rewrite) -> Form {
        match (words.negated, words.no_negated) {
            (true, _) => Form::Negated,
            (_, true) => Form::Plain,
            _ => Form::Solvers,
        }
    }
}

pub fn run(file: &OsStr, form: Form, output: &Output, common: &Common) -> Status {
    let (input, table) = match input::read_plan(file, common) {
        Ok(read) => read,
        Err(status) => return status,
    };
    let progress = Progress::of(&input.name, common);
    let written = progress.during("rewriting", input.bytes.len(), || written(&input, table, form, common.first));
    match written {
        Ok(lines) => deliver(output, &lines),
        Err(why) => not_written(&input, common.first, &why),
    }
}

fn written(input: &Input, table: Table, form: Form, first: u32) -> Result<Vec<u8>, NotForSolvers> {
    let literals = match form {
        Form::Negated => Literals::Negated,
        Form::Plain => Literals::Plain,
        Form::Solvers => return Ok(for_solvers(&input.bytes, &table, first)?.text),
    };
    // only rows without negative weights can be written
    let normal = table.normal()?;
    drop(table);
    Ok(normal.write(&input.bytes, first, literals)?)
}

/// Why the plan is not written, said.
pub fn not_written(input: &Input, first: u32, why: &NotForSolvers) -> Status {
    match why {
        NotForSolvers::Objectives(rows) => {
            say(&report::of_objectives(input, first, rows));
            Status::Refused
        }
        NotForSolvers::Refusal(refusal) => {
            say(&report::of_row(input, first, refusal));
            report::status_of(refusal)
        }
    }
}
