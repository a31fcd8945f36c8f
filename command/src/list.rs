//! A plan's rows as lines parted by tabs.
use crate::input::{self, Input};
use crate::names::Names;
use crate::options::{Common, List};
use crate::output::{deliver, say, Status};
use crate::progress::Progress;
use crate::report;
use opb::{Refusal, Table};

pub fn run(task: &List, common: &Common) -> Status {
    let input = match input::plan(&task.file, common) {
        Ok(input) => input,
        Err(trouble) => return trouble,
    };
    let progress = Progress::of(&input.name, common);
    let read = progress.during("reading", input.bytes.len(), || opb::read(&input.bytes, common.first));
    match read.and_then(|table| progress.during("listing", input.bytes.len(), || listed(&input, &table, task, common))) {
        Ok(lines) => deliver(&task.output, &lines),
        Err(refusal) => refused(&input, task, &refusal),
    }
}

/// A refusal is a line of the listing. It takes the place of no file: there it would be found in the morning as if it were the plan.
fn refused(input: &Input, task: &List, refusal: &Refusal) -> Status {
    let status = report::status_of(refusal);
    if status == Status::Refused && task.output.output.is_none() {
        let line = format!("refused\t{}\t{}\n", refusal.reason.number(), refusal.place);
        return deliver(&task.output, line.as_bytes()).max(status);
    }
    say(&report::of_file(input, refusal));
    status
}

fn listed(input: &Input, table: &Table, task: &List, common: &Common) -> Result<Vec<u8>, Refusal> {
    let lines = table.list(common.first)?;
    if !task.names {
        return Ok(lines);
    }
    let names = Names::of(&input.bytes, table, common.first);
    Ok(with_names(&lines, &names, common.first))
}

/// The lines with names in the place of variables.
fn with_names(lines: &[u8], names: &Names, first: u32) -> Vec<u8> {
    let mut named = Vec::with_capacity(lines.len());
    for field in lines.split_inclusive(|byte| matches!(byte, b'\t' | b'\n')) {
        let (text, end) = field.split_at(field.len() - 1);
        let (negation, variable) = text.split_at(usize::from(text.starts_with(b"~")));
        named.extend_from_slice(negation);
        match name(variable, names, first) {
            // the tab parts fields
            Some(name) => named.extend(name.bytes().map(|byte| if byte == b'\t' { b' ' } else { byte })),
            None => named.extend_from_slice(variable),
        }
        named.extend_from_slice(end);
    }
    named
}

/// The name of the variable that a field shows, if it shows one: of all fields only these begin with `x`.
fn name<'a>(field: &[u8], names: &Names<'a>, first: u32) -> Option<&'a str> {
    let number: u32 = std::str::from_utf8(field.strip_prefix(b"x")?).ok()?.parse().ok()?;
    names.name(number.checked_sub(first)?)
}
