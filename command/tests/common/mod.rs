//! The command run on words and a standard input.
#![allow(dead_code)]
use std::fs;
use std::io::Write;
use std::path::PathBuf;
use std::process::{Child, Command, Stdio};

pub const PLAN: &str = "* budget\n3 x1 -2 ~x2 >= 1;\nmin: 4 x3;\n1 x1 < 1\n";
pub const ROOMS: &str = "* rooms\n2 x1 3 x2 1 x3 <= 4;\n1 x1 1 x2 1 ~x3 = 2;\nmin: -5 x1 4 x3;\n";

pub fn command(words: &[&str]) -> Command {
    let mut command = Command::new(env!("CARGO_BIN_EXE_opb"));
    command.args(words);
    command
}

pub fn start(words: &[&str]) -> Child {
    command(words).stdin(Stdio::piped()).stdout(Stdio::piped()).stderr(Stdio::piped()).spawn().unwrap()
}

/// Exit status, standard output and standard error, for this standard input.
pub fn opb_on(words: &[&str], input: &[u8]) -> (i32, String, String) {
    let mut child = start(words);
    // a command that refuses its words does not read
    let _ = child.stdin.take().unwrap().write_all(input);
    let done = child.wait_with_output().unwrap();
    let text = |bytes| String::from_utf8(bytes).unwrap();
    (done.status.code().unwrap(), text(done.stdout), text(done.stderr))
}

pub fn opb(words: &[&str], input: &str) -> (i32, String, String) {
    opb_on(words, input.as_bytes())
}

/// A folder of this test alone: each runs in a thread of its name, beside others that may have files of the same name.
pub fn folder() -> PathBuf {
    let test = std::thread::current().name().unwrap_or("tests").replace("::", "-");
    let folder = PathBuf::from(env!("CARGO_TARGET_TMPDIR")).join(env!("CARGO_CRATE_NAME")).join(test);
    fs::create_dir_all(&folder).unwrap();
    folder
}

pub fn path(name: &str) -> String {
    folder().join(name).to_str().unwrap().to_string()
}

pub fn file(name: &str, text: &str) -> String {
    let path = path(name);
    fs::write(&path, text).unwrap();
    path
}

pub fn printed(status: i32, text: &str) -> (i32, String, String) {
    (status, text.to_string(), String::new())
}
