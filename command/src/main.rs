//! The command `opb`: OPB files of full size checked, listed, rewritten and solved, and solvers' answers evaluated, over the library's calls. All it adds is to read files, to run solvers, to print, and
//! to speak to a person.
#![forbid(unsafe_code)]
mod advice;
mod check;
mod evaluate;
mod for_solvers;
mod header;
mod help;
mod input;
mod lines;
mod list;
mod names;
mod options;
mod output;
mod progress;
mod report;
mod rewrite;
mod single;
mod solve;
mod statement;
mod values;

use clap::{CommandFactory, Parser};
use options::{Task, Words};
use output::Status;
use std::process::ExitCode;

fn run(words: Words) -> Status {
    let common = words.common;
    match words.task {
        Task::Check(task) => check::run(&task, &common),
        Task::List(task) => list::run(&task, &common),
        Task::Normal(task) => rewrite::run(&task.file, rewrite::Form::Negated, &task.output, &common),
        Task::Rewrite(task) => rewrite::run(&task.file, rewrite::Form::asked(&task), &task.output, &common),
        Task::Evaluate(task) => evaluate::run(&task, &common),
        Task::Solve(task) => solve::run(&task, &common),
        Task::Completions { shell } => {
            let mut text = Vec::new();
            clap_complete::generate(shell, &mut Words::command(), "opb", &mut text);
            output::print(&text)
        }
    }
}

fn main() -> ExitCode {
    ExitCode::from(run(Words::parse()) as u8)
}
