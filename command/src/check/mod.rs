//! Whether files are accepted, and what is in them; or what is wrong, line by line.
mod json;
mod sums;
mod walk;
mod warnings;

use crate::input::{self, Input};
use crate::options::{Check, Common};
use crate::output::{print, say, Status};
use crate::progress::Progress;
use crate::{advice, report};
use opb::{Refusal, Size, FILE_LIMIT};
use std::thread;
use sums::Sums;
use walk::{Finding, Walk};

/// How many refusals are shown where not all are asked for.
const MOST: usize = 20;

enum Checked<'a> {
    Accepted { sums: Box<Sums<'a>>, warnings: Vec<String>, remark: Option<String> },
    Refused { findings: Vec<Finding<'a>>, refused: usize },
    TooLong(Refusal),
}

impl Checked<'_> {
    fn status(&self) -> Status {
        match self {
            Checked::Accepted { .. } => Status::Accepted,
            _ => Status::Refused,
        }
    }
}

pub fn run(task: &Check, common: &Common) -> Status {
    if task.files.iter().filter(|file| *file == "-").count() > 1 {
        say("opb: check takes standard input once");
        return Status::Trouble;
    }
    let statuses = task.files.iter().map(|file| match input::plan(file, common) {
        Ok(input) => on_file(&input, task, common),
        Err(status) => trouble(&input::name_of(file), status, task),
    });
    statuses.max().unwrap_or(Status::Accepted)
}

/// Trouble was said; whoever reads objects wants one of this file too.
fn trouble(name: &str, status: Status, task: &Check) -> Status {
    if task.json {
        return print(json::of_trouble(name, status).as_bytes()).max(status);
    }
    status
}

fn on_file(input: &Input, task: &Check, common: &Common) -> Status {
    let checked = match checked(input, task, common) {
        Ok(checked) => checked,
        Err(message) => {
            say(&message);
            return trouble(&input.name, Status::Trouble, task);
        }
    };
    let printed = if task.json { print(json::of(input, &checked, common.first).as_bytes()) } else { tell(input, &checked, common) };
    if let (Checked::Accepted { warnings, remark, .. }, false) = (&checked, common.quiet) {
        warnings.iter().for_each(|warning| say(&format!("{}: warning: {}", input.name, warning)));
        remark.iter().for_each(|remark| say(&format!("{}: remark: {}", input.name, remark)));
    }
    printed.max(checked.status())
}

/// What the library says of the whole file counts; the walk through its lines, which goes on at the same time, must be of one mind with it. An error is a message.
fn checked<'a>(input: &'a Input, task: &Check, common: &Common) -> Result<Checked<'a>, String> {
    let file = &input.bytes;
    if file.len() > FILE_LIMIT {
        return opb::count(file, common.first).map_or_else(|refusal| Ok(Checked::TooLong(refusal)), |_| Err(at_odds(&input.name)));
    }
    let bar = Progress::of(&input.name, common).percent("checking", file.len(), file.len());
    let most = if task.all { usize::MAX } else { MOST };
    let (whole, walk) = thread::scope(|scope| {
        let count = || opb::count(file, common.first);
        let whole = thread::Builder::new().spawn_scoped(scope, count);
        let walk = Walk::through(file, common.first, most, &bar);
        // where there is no second thread, one after the other
        (whole.map_or_else(|_| Ok(count()), |whole| whole.join()), walk)
    });
    drop(bar);
    let walk = walk.map_err(|memory| report::of_file(input, &memory))?;
    let Walk { sums, findings, refused, .. } = walk;
    match (whole.map_err(|_| at_odds(&input.name))?, findings.first()) {
        (Ok(size), None) if size == (Size { rows: sums.rows, terms: sums.terms }) => {
            let (warnings, remark) = (warnings::of(file, &sums, common.first), warnings::remark(&sums, common.first));
            Ok(Checked::Accepted { sums: Box::new(sums), warnings, remark })
        }
        (Err(refusal), Some(first)) if refusal == first.refusal => Ok(Checked::Refused { findings, refused }),
        _ => Err(at_odds(&input.name)),
    }
}

fn at_odds(name: &str) -> String {
    format!(
        "opb: internal error: {}: the file as a whole and its lines one by one are not of one mind; nothing is said of this file, and this is a fault of the command, to be told to its makers",
        name
    )
}

fn tell(input: &Input, checked: &Checked, common: &Common) -> Status {
    match checked {
        Checked::Accepted { .. } if common.quiet => Status::Accepted,
        Checked::Accepted { sums, .. } => print(accepted(&input.name, sums, common.first).as_bytes()),
        Checked::Refused { findings, refused } => tell_findings(input, findings).max(print(sum_of(input, findings, *refused).as_bytes())),
        Checked::TooLong(refusal) => print(report::of_file(input, refusal).as_bytes()),
    }
}

fn accepted(name: &str, sums: &Sums, first: u32) -> String {
    let (rows, comments, constraints, objectives) = (sums.rows, sums.comments, sums.constraints(), sums.objectives);
    let highest = sums.highest(first).map_or(String::new(), |number| format!(", highest x{}", number));
    let names = Some(sums.names.indexes.len()).filter(|count| *count > 0).map_or(String::new(), |count| format!(", names {}", count));
    let (terms, variables) = (sums.terms, sums.variables.len());
    format!("{name}: accepted: rows {rows} (comments {comments}, constraints {constraints}, objectives {objectives}), terms {terms}, variables {variables}{highest}{names}\n")
}

/// Some at a time: all of them are many times as long as the file.
fn tell_findings(input: &Input, findings: &[Finding]) -> Status {
    let message = |finding: &Finding| report::of_line(input, &finding.line, &finding.refusal);
    let printed = findings.chunks(1000).map(|some| print(some.iter().map(message).collect::<String>().as_bytes()));
    printed.max().unwrap_or(Status::Accepted)
}

/// How many lines are refused; of a file that is no text that says nothing.
fn sum_of(input: &Input, findings: &[Finding], refused: usize) -> String {
    if advice::no_text(&input.bytes).is_some() {
        return String::new();
    }
    let shown: usize = findings.iter().map(|finding| finding.lines).sum();
    let lines = if refused == 1 { "1 line is refused".to_string() } else { format!("{} lines are refused", refused) };
    let more = if shown < refused { format!(", {} of them not shown (--all shows all)", refused - shown) } else { String::new() };
    format!("{}: {}{}\n", input.name, lines, more)
}
