//! The words of the command line.
use crate::help;
use clap::{ArgGroup, Args, Parser, Subcommand};
use clap_complete::Shell;
use std::ffi::OsString;
use std::path::PathBuf;

/// Plans as OPB files (linear pseudo-Boolean constraints): checked, listed, rewritten and solved, and solvers' answers held against them, over proved calls
#[derive(Parser)]
#[command(name = "opb", version, after_long_help = STATUSES, arg_required_else_help = true)]
pub struct Words {
    #[command(subcommand)]
    pub task: Task,
    #[command(flatten)]
    pub common: Common,
}

const STATUSES: &str = "\
`opb help COMMAND` says all of a command. A file has up to 1,073,741,823 bytes; - is standard input. Behind -- no word is an option.

Exit status: 0 accepted (evaluate: every constraint holds; solve: a plan found and checked), 1 refused, 2 wrong usage or trouble with a file or memory, 3 a constraint fails or the solver's claim is false, 4 the solver is missing, died, or its lines cannot be read, 5 the solver says that there is no plan, or has no answer in time. Of several files, the greatest.";

/// What every command takes.
#[derive(Args, Clone)]
pub struct Common {
    /// The first index: the least number that a variable of the plan may have
    #[arg(long, value_name = "N", default_value_t = 1, global = true)]
    pub first: u32,
    /// No progress, no warnings and remarks, and nothing from check for an accepted file
    #[arg(short, long, global = true)]
    pub quiet: bool,
}

/// Where lines go.
#[derive(Args, Clone)]
pub struct Output {
    /// Write to FILE, whole or not at all; it may be the input itself [default: standard output]
    #[arg(short, long, value_name = "FILE")]
    pub output: Option<PathBuf>,
}

#[derive(Subcommand)]
pub enum Task {
    /// Says of each file whether it is accepted, and what is in it; or what is wrong, line by line
    #[command(after_long_help = help::CHECK)]
    Check(Check),
    /// Prints a line for each row, parted by tabs
    #[command(after_long_help = help::LIST)]
    List(List),
    /// Writes the plan again with no negative weight: the same as `rewrite --negated`
    #[command(after_long_help = help::NORMAL)]
    Normal(Normal),
    /// Writes the plan again, each row meaning what it meant, as `>=` and `=` rows alone
    #[command(after_long_help = help::REWRITE)]
    Rewrite(Rewrite),
    /// Says which rows of the plan hold under a solver's answer
    #[command(after_long_help = help::EVALUATE)]
    Evaluate(Evaluate),
    /// Runs a solver on the plan and judges its answer by every row
    #[command(after_long_help = help::SOLVE)]
    Solve(Solve),
    /// Prints the completions for a shell
    #[command(hide = true)]
    Completions { shell: Shell },
}

#[derive(Args)]
pub struct Check {
    /// Files of up to 1,073,741,823 bytes; - is standard input
    #[arg(required = true, value_name = "FILE")]
    pub files: Vec<OsString>,
    /// Show every refused line, not 20 at most
    #[arg(long)]
    pub all: bool,
    /// Answer in JSON, one object for each file
    #[arg(long)]
    pub json: bool,
}

#[derive(Args)]
pub struct List {
    #[arg(value_name = "FILE")]
    pub file: OsString,
    /// Variables by their names, where the plan has them (comments `* output x1 name`)
    #[arg(long)]
    pub names: bool,
    #[command(flatten)]
    pub output: Output,
}

#[derive(Args)]
pub struct Normal {
    #[arg(value_name = "FILE")]
    pub file: OsString,
    #[command(flatten)]
    pub output: Output,
}

#[derive(Args)]
#[command(group = ArgGroup::new("form").required(true))]
pub struct Rewrite {
    #[arg(value_name = "FILE")]
    pub file: OsString,
    /// No negative weight; negated variables are written `~x`
    #[arg(long, group = "form")]
    pub negated: bool,
    /// No negated variable; weights may be negative
    #[arg(long, group = "form")]
    pub no_negated: bool,
    /// As solvers take it: a true header, then the objective, then the rest, no negated variable, numbered from x1
    #[arg(long, group = "form")]
    pub for_solvers: bool,
    #[command(flatten)]
    pub output: Output,
}

#[derive(Args)]
pub struct Evaluate {
    #[arg(value_name = "PLAN")]
    pub plan: OsString,
    /// What the solver printed, of any length; one of the two may be -
    #[arg(value_name = "ANSWER")]
    pub answer: OsString,
    #[command(flatten)]
    pub output: Output,
}

#[derive(Args)]
pub struct Solve {
    #[arg(value_name = "PLAN")]
    pub plan: OsString,
    /// clasp, minisat+, sat4j, toulbar2, or a command that is run with the plan's file as its last word [default: the first of these that is installed]
    #[arg(long, value_name = "SOLVER")]
    pub solver: Option<String>,
    /// Stop the solver after so many seconds, and take the best that it has then
    #[arg(long, value_name = "SECONDS")]
    pub time: Option<f64>,
    /// Answer in JSON
    #[arg(long)]
    pub json: bool,
    #[command(flatten)]
    pub output: Output,
}
