//! Where lines go: standard output, and files that are written whole or not at all.
mod common;
use common::{command, file, folder, opb, printed, start, PLAN, ROOMS};
use nix::unistd::{chown, Gid, Uid};
use std::fs;
use std::io::Write;
use std::os::unix::fs::{symlink, MetadataExt, PermissionsExt};
use std::path::PathBuf;
use std::process::Command;

#[test]
fn a_reader_that_goes_away_is_no_trouble() {
    let mut child = start(&["list", "-"]);
    drop(child.stdout.take());
    child.stdin.take().unwrap().write_all("1 x1 >= 1;\n".repeat(100_000).as_bytes()).unwrap();
    let done = child.wait_with_output().unwrap();
    assert_eq!((done.status.code(), done.stderr.as_slice()), (Some(0), &b""[..]));
}

#[test]
fn a_full_disk_is_trouble() {
    let full = fs::OpenOptions::new().write(true).open("/dev/full").unwrap();
    let done = command(&["list", &file("full.opb", PLAN)]).stdout(full).output().unwrap();
    assert_eq!(done.status.code(), Some(2));
    assert!(done.stderr.starts_with(b"opb: standard output: "));
    let full = fs::OpenOptions::new().write(true).open("/dev/full").unwrap();
    let done = command(&["evaluate", &file("full_rooms.opb", ROOMS), &file("full.out", "v 111")]).stdout(full).output().unwrap();
    assert_eq!(done.status.code(), Some(2));
}

const NORMAL: &str = "* budget\n3 x1 2 x2 >= 3;\nmin: 4 x3;\n1 ~x1 >= 1;\n";

/// A new folder of one test.
fn empty(name: &str) -> PathBuf {
    let folder = folder().join(name);
    let _ = fs::remove_dir_all(&folder);
    fs::create_dir_all(&folder).unwrap();
    folder
}

fn text(path: PathBuf) -> String {
    path.to_str().unwrap().to_string()
}

fn mode(path: &str) -> u32 {
    fs::metadata(path).unwrap().permissions().mode() & 0o777
}

fn names_in(folder: &PathBuf) -> Vec<String> {
    let mut names: Vec<String> = fs::read_dir(folder).unwrap().map(|entry| entry.unwrap().file_name().into_string().unwrap()).collect();
    names.sort();
    names
}

/// The command behind words of a shell.
fn behind(shell: &str, words: &[&str]) -> (i32, String) {
    let done = Command::new("sh").args(["-c", &format!("{}; exec \"$0\" \"$@\"", shell), env!("CARGO_BIN_EXE_opb")]).args(words).output().unwrap();
    (done.status.code().unwrap(), String::from_utf8(done.stderr).unwrap())
}

#[test]
fn a_file_may_be_written_onto_itself_and_keeps_its_permissions() {
    let folder = empty("itself");
    let plan = text(folder.join("plan.opb"));
    fs::write(&plan, PLAN).unwrap();
    fs::set_permissions(&plan, fs::Permissions::from_mode(0o640)).unwrap();
    assert_eq!(opb(&["normal", &plan, "-o", &plan], ""), printed(0, ""));
    assert_eq!((fs::read_to_string(&plan).unwrap().as_str(), mode(&plan)), (NORMAL, 0o640));
    assert_eq!(names_in(&folder), ["plan.opb"]);
}

/// Only root can give a file away, and so lose it.
#[test]
fn a_file_of_another_user_stays_that_users() {
    let folder = empty("owner");
    let plan = text(folder.join("plan.opb"));
    fs::write(&plan, PLAN).unwrap();
    if chown(plan.as_str(), Some(Uid::from_raw(12)), Some(Gid::from_raw(34))).is_err() {
        eprintln!("skipped: this user cannot give a file away");
        return;
    }
    assert_eq!(opb(&["normal", &plan, "-o", &plan], ""), printed(0, ""));
    let there = fs::metadata(&plan).unwrap();
    assert_eq!((there.uid(), there.gid(), fs::read_to_string(&plan).unwrap().as_str()), (12, 34, NORMAL));
}

#[test]
fn a_new_file_has_the_permissions_of_any_new_file() {
    let folder = empty("new");
    let (plan, one, other) = (file("new.opb", PLAN), text(folder.join("one")), text(folder.join("other")));
    assert_eq!(behind("umask 027", &["list", &plan, "--output", &one]), (0, String::new()));
    assert_eq!(behind("umask 022", &["list", &plan, &format!("--output={}", other)]), (0, String::new()));
    assert_eq!((mode(&one), mode(&other)), (0o640, 0o644));
    assert_eq!(fs::read_to_string(&one).unwrap(), opb(&["list", &plan], "").1);
}

#[test]
fn a_link_stays_and_its_target_is_written() {
    let folder = empty("links");
    fs::create_dir(folder.join("deep")).unwrap();
    for (link, target) in [("there", "deep/old"), ("not-yet", "deep/new"), ("link", "not-yet")] {
        symlink(target, folder.join(link)).unwrap();
    }
    fs::write(folder.join("deep/old"), "old").unwrap();
    for link in ["there", "link"] {
        assert_eq!(opb(&["normal", "-", "-o", &text(folder.join(link))], PLAN), printed(0, ""));
        assert!(fs::symlink_metadata(folder.join(link)).unwrap().file_type().is_symlink());
    }
    let read = |name: &str| fs::read_to_string(folder.join(name)).unwrap();
    assert_eq!((read("deep/old").as_str(), read("deep/new").as_str()), (NORMAL, NORMAL));
    assert_eq!(names_in(&folder.join("deep")), ["new", "old"]);
}

#[test]
fn devices_and_what_is_open_already_are_written_as_they_are() {
    for name in ["-", "/dev/stdout"] {
        assert_eq!(opb(&["normal", "-", "-o", name], PLAN), printed(0, NORMAL));
    }
    assert_eq!(opb(&["normal", "-", "-o", "/dev/null"], PLAN), printed(0, ""));
    let folder = empty("open");
    let (plan, log) = (file("open.opb", PLAN), text(folder.join("log")));
    fs::write(&log, "before\n").unwrap();
    assert_eq!(behind(&format!("exec 3>>'{}'", log), &["normal", &plan, "-o", "/dev/fd/3"]).0, 0);
    assert_eq!(behind(&format!("exec >>'{}'", log), &["normal", &plan, "-o", "/dev/stdout"]).0, 0);
    assert_eq!(fs::read_to_string(&log).unwrap(), format!("before\n{}{}", NORMAL, NORMAL));
    let (status, out, trouble) = opb(&["normal", "-", "-o", "/dev/full"], PLAN);
    assert_eq!((status, out.as_str()), (2, ""));
    assert!(trouble.starts_with("opb: /dev/full: "), "{}", trouble);
}

/// A limit on the length of files fails as a full disk does, in the midst of writing.
#[test]
fn a_write_that_fails_leaves_the_old_file_and_nothing_else() {
    let folder = empty("fails");
    let old = text(folder.join("old"));
    let plan = file("fails.opb", &PLAN.repeat(1000));
    fs::write(&old, "old").unwrap();
    let limit = "trap '' XFSZ; ulimit -f 2";
    let (status, trouble) = behind(limit, &["normal", &plan, "-o", &old]);
    assert!(status == 2 && trouble.starts_with(&format!("opb: {}: ", old)), "{}", trouble);
    assert_eq!(fs::read_to_string(&old).unwrap(), "old");
    assert_eq!(behind(limit, &["normal", &plan, "-o", &text(folder.join("new"))]).0, 2);
    assert_eq!(names_in(&folder), ["old"]);
    let (status, _, trouble) = opb(&["normal", &plan, "-o", &text(folder.join("no folder/new"))], "");
    assert!(status == 2 && trouble.contains("no folder/new: "), "{}", trouble);
    assert_eq!(opb(&["normal", &plan, "-o", folder.to_str().unwrap()], "").0, 2);
}

#[test]
fn a_refused_plan_takes_the_place_of_nothing() {
    let folder = empty("refused");
    let (old, new) = (text(folder.join("old")), text(folder.join("new")));
    fs::write(&old, "old").unwrap();
    for words in [&["normal", "-", "-o"][..], &["list", "-", "-o"], &["rewrite", "-", "--no-negated", "-o"]] {
        for name in [&old, &new] {
            let (status, out, trouble) = opb(&[words, &[name]].concat(), "1 x1 >= 1;\n3*x1 >= 1;\n");
            assert_eq!((status, out.as_str()), (1, ""));
            assert!(trouble.starts_with("standard input: refused (4) at line 2, column 1: "), "{}", trouble);
        }
    }
    assert_eq!((names_in(&folder), fs::read_to_string(&old).unwrap().as_str()), (vec!["old".to_string()], "old"));
}

/// A constraint that fails is an answer, and the lines say so.
#[test]
fn what_evaluate_finds_is_written_whatever_it_is() {
    let folder = empty("evaluated");
    let (plan, lines) = (file("evaluated.opb", ROOMS), text(folder.join("lines")));
    let (status, out, _) = opb(&["evaluate", &plan, "-", "-o", &lines], "v 111");
    assert_eq!((status, out.as_str()), (3, ""));
    assert_eq!(fs::read_to_string(&lines).unwrap(), "le\t6\t4\tfails\neq\t2\t2\tholds\nmin\t-1\n");
}
