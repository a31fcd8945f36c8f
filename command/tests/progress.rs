//! Progress: on a terminal, of large files, and nothing is left of it.
mod common;
use common::{command, file, printed};
use std::process::Command;

/// What takes a line away.
const CLEAR: &str = "\r\u{1b}[2K";

fn large() -> String {
    file("large.opb", &"1 x1 -20 ~x70000 >= -5;\n".repeat(1_000_000))
}

/// What a terminal gets, by util-linux's `script`; none where that is not installed.
fn on_terminal(words: &str) -> Option<String> {
    let done = Command::new("script").args(["-qec", &format!("'{}' {}", env!("CARGO_BIN_EXE_opb"), words), "/dev/null"]).output();
    if done.is_err() {
        eprintln!("skipped: there is no command `script`");
    }
    Some(String::from_utf8(done.ok()?.stdout).unwrap())
}

#[test]
fn a_terminal_sees_percent_and_then_the_answer_alone() {
    let plan = large();
    if let Some(seen) = on_terminal(&format!("check '{}'", plan)) {
        let (before, last) = seen.rsplit_once(CLEAR).unwrap();
        assert_eq!(last, format!("{}: accepted: rows 1000000 (comments 0, constraints 1000000, objectives 0), terms 2000000, variables 2, highest x70000\r\n", plan));
        assert!(before.contains("reading") && before.contains("checking") && before.contains('%'), "{}", before);
    }
    if let Some(seen) = on_terminal(&format!("list '{}' -o /dev/null", plan)) {
        assert!(seen.contains("listing 24 MB") && seen.ends_with(CLEAR), "{:?}", &seen[seen.len().saturating_sub(200)..]);
    }
    assert_eq!(on_terminal(&format!("check -q '{}'", plan)).unwrap_or_default(), "");
}

#[test]
fn what_is_no_terminal_sees_none() {
    let plan = file("unseen.opb", &"1 x1 >= 1;\n".repeat(2_000_000));
    let done = command(&["check", &plan]).output().unwrap();
    let text = |bytes| String::from_utf8(bytes).unwrap();
    let line = format!("{}: accepted: rows 2000000 (comments 0, constraints 2000000, objectives 0), terms 2000000, variables 1, highest x1\n", plan);
    assert_eq!((done.status.code().unwrap(), text(done.stdout), text(done.stderr)), printed(0, &line));
}
