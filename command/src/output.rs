//! What the command prints, and its exit status.
use crate::options::Output;
use nix::unistd::{fchown, Gid, Uid};
use std::fs::{self, File, Metadata, OpenOptions};
use std::io::{self, ErrorKind, Write};
use std::os::unix::fs::MetadataExt;
use std::os::unix::io::AsRawFd;
use std::path::{Path, PathBuf};

/// The exit status; of several files, the greatest counts.
#[derive(Clone, Copy, Debug, PartialEq, Eq, PartialOrd, Ord)]
pub enum Status {
    Accepted = 0,
    Refused = 1,
    Trouble = 2,
    /// A constraint fails, or a solver's claim is false.
    Fails = 3,
    /// The solver is missing, died, or its lines cannot be read.
    Solver = 4,
    /// The solver says that there is none, or has no answer in time.
    NoAnswer = 5,
}

/// To standard error. Where that cannot be written to, nobody is there to be told.
pub fn say(text: &str) {
    let _ = writeln!(io::stderr(), "{}", text.trim_end());
}

fn trouble(what: &str, error: &io::Error) -> Status {
    say(&format!("opb: {}: {}", what, error));
    Status::Trouble
}

/// To standard output. A reader that has gone away has seen what it wanted.
pub fn print(text: &[u8]) -> Status {
    let mut out = io::stdout().lock();
    match out.write_all(text).and_then(|()| out.flush()) {
        Err(error) if error.kind() != ErrorKind::BrokenPipe => trouble("standard output", &error),
        _ => Status::Accepted,
    }
}

/// To the file that was named, or to standard output.
pub fn deliver(output: &Output, text: &[u8]) -> Status {
    match &output.output {
        None => print(text),
        Some(file) if file == Path::new("-") || file == Path::new("/dev/stdout") => print(text),
        Some(file) => write(file, text).map_or_else(|error| trouble(&file.to_string_lossy(), &error), |()| Status::Accepted),
    }
}

/// A file whole or not at all; a device or a pipe as it comes.
fn write(file: &Path, text: &[u8]) -> io::Result<()> {
    let there = match fs::metadata(file) {
        Ok(there) => Some(there),
        Err(error) if error.kind() == ErrorKind::NotFound => None,
        Err(error) => return Err(error),
    };
    match there {
        Some(there) if !there.is_file() || is_open_already(file) => OpenOptions::new().append(true).open(file)?.write_all(text),
        Some(there) => {
            // a file that may not be written is not replaced either
            OpenOptions::new().append(true).open(file)?;
            write_whole(&fs::canonicalize(file)?, text, Some(&there))
        }
        None => write_whole(&link_end(file)?, text, None),
    }
}

/// Names of what is open already, as a shell lends it: to replace the file behind it is not what is asked for.
fn is_open_already(file: &Path) -> bool {
    ["/dev/fd", "/dev/stderr", "/proc"].iter().any(|folder| file.starts_with(folder))
}

fn folder_of(file: &Path) -> &Path {
    file.parent().filter(|folder| !folder.as_os_str().is_empty()).unwrap_or_else(|| Path::new("."))
}

/// Where a link leads, also to a file that is not there yet.
fn link_end(file: &Path) -> io::Result<PathBuf> {
    let mut end = file.to_path_buf();
    // metadata() has seen that the links do not go in a circle
    while let Ok(next) = fs::read_link(&end) {
        end = folder_of(&end).join(next);
    }
    Ok(end)
}

/// Owner and group of the file that was there, as far as this user may give them, and its permissions.
fn keep(whole: &File, there: &Metadata) -> io::Result<()> {
    let new = whole.metadata()?;
    if (new.uid(), new.gid()) != (there.uid(), there.gid()) {
        let _ = fchown(whole.as_raw_fd(), Some(Uid::from_raw(there.uid())), Some(Gid::from_raw(there.gid())));
    }
    whole.set_permissions(there.permissions())
}

/// The file is written in a folder beside the one that it takes the place of, and takes its place once it is whole. Where none was there, it has the permissions of any new file.
fn write_whole(file: &Path, text: &[u8], there: Option<&Metadata>) -> io::Result<()> {
    let beside = tempfile::Builder::new().prefix(".opb-").tempdir_in(folder_of(file))?;
    let path = beside.path().join("whole");
    let mut whole = File::create(&path)?;
    // before there is anything to read in it
    there.map_or(Ok(()), |there| keep(&whole, there))?;
    whole.write_all(text)?;
    whole.sync_all()?;
    fs::rename(&path, file)
}
