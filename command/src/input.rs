//! Files and standard input into memory.
use crate::options::Common;
use crate::output::{say, Status};
use crate::progress::Progress;
use crate::report;
use opb::{Table, FILE_LIMIT};
use std::ffi::OsStr;
use std::fs::File;
use std::io::{self, ErrorKind, Read};

/// How many bytes are read between two looks at the progress.
const STEP: u64 = 1 << 24;

/// How much of a plan is read: one byte above the limit. The library refuses so long a file, and the rest need not be had.
const PLAN: u64 = FILE_LIMIT as u64 + 1;

/// A solver's output has no limit.
const OUTPUT: u64 = u64::MAX;

pub struct Input {
    pub name: String,
    pub bytes: Vec<u8>,
}

/// What messages call the file.
pub fn name_of(file: &OsStr) -> String {
    if file == "-" {
        return "standard input".to_string();
    }
    file.to_string_lossy().into_owned()
}

/// A plan; or the trouble with its file, said.
pub fn plan(file: &OsStr, common: &Common) -> Result<Input, Status> {
    loaded(file, PLAN, common)
}

/// What a solver printed; or the trouble with its file, said.
pub fn answer(file: &OsStr, common: &Common) -> Result<Input, Status> {
    loaded(file, OUTPUT, common)
}

/// A plan and its rows; or why there are none, said.
pub fn read_plan(file: &OsStr, common: &Common) -> Result<(Input, Table), Status> {
    let input = plan(file, common)?;
    let progress = Progress::of(&input.name, common);
    match progress.during("reading", input.bytes.len(), || opb::read(&input.bytes, common.first)) {
        Ok(table) => Ok((input, table)),
        Err(refusal) => {
            say(&report::of_file(&input, &refusal));
            Err(report::status_of(&refusal))
        }
    }
}

fn loaded(file: &OsStr, most: u64, common: &Common) -> Result<Input, Status> {
    load(file, most, &Progress::of(&name_of(file), common)).map_err(|error| {
        say(&format!("opb: {}: {}", name_of(file), error));
        Status::Trouble
    })
}

/// A file, or so much of it.
fn load(file: &OsStr, most: u64, progress: &Progress) -> io::Result<Input> {
    let bytes = if file == "-" {
        read_all(io::stdin().lock().take(most), 0, progress)
    } else {
        let opened = File::open(file)?;
        let length = opened.metadata()?.len().min(most);
        read_all(opened.take(most), length, progress)
    };
    Ok(Input { name: name_of(file), bytes: bytes? })
}

fn read_all(mut source: impl Read, expected: u64, progress: &Progress) -> io::Result<Vec<u8>> {
    let bar = progress.reading(expected);
    let mut bytes = Vec::new();
    bytes.try_reserve_exact(expected as usize).map_err(|error| io::Error::new(ErrorKind::OutOfMemory, error))?;
    while source.by_ref().take(STEP).read_to_end(&mut bytes)? > 0 {
        bar.read(bytes.len());
    }
    Ok(bytes)
}
