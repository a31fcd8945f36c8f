//! `opb solve`: true solvers and false ones. A false solver is a small script that a shell reads; its last word is the plan's file.
use serde_json::Value;
use std::fs;
use std::io::Write;
use std::path::{Path, PathBuf};
use std::process::{Command, Stdio};
use std::thread::sleep;
use std::time::{Duration, Instant};

/// Four constraints, at lines 4 to 7. The best plan is x2 and x4 alone, of value 0; a solver is told an objective without `~`, whose value there is -2.
const PLAN: &str = "* output x2 held(satyr,atrium,1)\n* 0\nmin: 3 x1 2 ~x2 1 x3;\n1 x1 1 x2 >= 1;\n2 x3 -1 x2 <= 1;\n1 ~x1 1 x3 = 1;\n1 x4 > 0;\n";
const BEST: &str = "o -2\nv -x1 x2 -x3 x4\ns OPTIMUM FOUND\n";

struct Done {
    status: i32,
    out: String,
    err: String,
    took: Duration,
}

/// Behind the words that cargo runs a test with, where it builds for another machine.
fn command(words: &[&str]) -> Command {
    let runner = std::env::var("CARGO_TARGET_X86_64_UNKNOWN_LINUX_GNU_RUNNER").unwrap_or_default();
    let mut all = runner.split_whitespace().chain([env!("CARGO_BIN_EXE_opb")]).chain(words.iter().copied());
    let mut command = Command::new(all.next().unwrap());
    command.args(all);
    command
}

fn ended(command: &mut Command) -> Done {
    let begun = Instant::now();
    let done = command.stdin(Stdio::null()).output().unwrap();
    let text = |bytes| String::from_utf8(bytes).unwrap();
    Done { status: done.status.code().unwrap_or(-1), out: text(done.stdout), err: text(done.stderr), took: begun.elapsed() }
}

fn path(name: &str) -> PathBuf {
    PathBuf::from(env!("CARGO_TARGET_TMPDIR")).join(format!("solve-{}", name))
}

fn file(name: &str, text: &str) -> String {
    fs::write(path(name), text).unwrap();
    path(name).to_str().unwrap().to_string()
}

/// `solve` of a plan by a script, both in files of this name.
fn solve(name: &str, plan: &str, script: &str, more: &[&str]) -> Done {
    let plan = file(&format!("{}.opb", name), plan);
    let solver = format!("sh {}", file(&format!("{}.sh", name), script));
    ended(command(&["solve", &plan, "--solver", &solver]).args(more))
}

/// A script that prints these lines, if it was given the file that it is to be given.
fn printing(lines: &str) -> String {
    format!("[ $# = 1 ] && case $1 in *.opb) ;; *) exit 9 ;; esac\nread -r head < \"$1\"\n[ \"$head\" = '* #variable= 4 #constraint= 4' ] || exit 9\ncat <<'END'\n{}END\n", lines)
}

/// The false solver is found out, by this status and these words; nothing is called checked.
fn found_out(name: &str, script: &str, status: i32, words: &[&str]) {
    let done = solve(name, PLAN, script, &[]);
    assert_eq!(done.status, status, "{}: {}{}", name, done.out, done.err);
    for word in words {
        assert!(done.err.contains(word), "{}: {}: {}", name, word, done.err);
    }
    assert!(!done.out.contains("every row holds") && !done.out.contains("held("), "{}: {}", name, done.out);
    assert!(done.took < Duration::from_secs(30), "{}", name);
    let quiet = solve(name, PLAN, script, &["-q"]);
    assert_eq!((quiet.status, quiet.out.as_str()), (status, ""), "{}", name);
    let json = object(&solve(name, PLAN, script, &["--json"]));
    assert_eq!((&json["exit_status"], &json["checked"], &json["true"]), (&Value::from(status), &Value::from(false), &Value::from(Vec::<Value>::new())), "{}", name);
}

fn object(done: &Done) -> Value {
    assert_eq!(done.out.lines().count(), 1, "{}", done.out);
    serde_json::from_str(&done.out).unwrap()
}

#[test]
fn a_true_answer_is_checked_in_each_form() {
    let lines =
        "status  optimum (the solver's word alone)\nvalue   0 (as sh claims, checked)\ntrue    2 of 4 variables\nheld(satyr,atrium,1)\nx4\nrows    every row holds, checked: 4 of 4 constraints\n";
    for (name, values) in [("form-x", "v -x1 x2\nv -x3 x4"), ("form-tilde", "v ~x1 x2 ~x3 x4"), ("form-number", "v -1 2 -3\nv 4 0"), ("form-bits", "v 0101")] {
        let done = solve(name, PLAN, &printing(&format!("c words\no 1\no -2\n{}\ns OPTIMUM FOUND\n", values)), &[]);
        assert_eq!((done.status, done.out.as_str(), done.err.as_str()), (0, lines, ""), "{}", name);
    }
    let before = solve("form-before", PLAN, &printing("v -x1 x2 -x3 x4\no -2\ns OPTIMUM FOUND\n"), &[]);
    assert_eq!((before.status, before.out.as_str()), (0, lines));
    let later = solve("form-later", PLAN, &printing("o 1\nv x1 x2 x3 x4\no -2\ns OPTIMUM FOUND\nv -x1 x2 -x3 x4\n"), &[]);
    assert_eq!((later.status, later.out.as_str()), (0, lines));
}

#[test]
fn what_is_not_claimed_is_not_compared() {
    let done = solve("no-value", PLAN, &printing("s SATISFIABLE\nv -x1 x2 -x3 x4\n"), &[]);
    assert_eq!((done.status, done.err.as_str()), (0, ""));
    assert!(done.out.starts_with("status  satisfiable (there may be a better one)\nvalue   0 (checked; sh claims none)\n"), "{}", done.out);
    let script = "echo 'o 77'; echo 's OPTIMUM FOUND'; echo 'v x1'\n";
    for (name, plan) in [("no-objective", "1 x1 >= 1;\n"), ("no-terms", "min: ;\n1 x1 >= 1;\n")] {
        let done = solve(name, plan, script, &[]);
        assert_eq!((done.status, done.out.as_str()), (0, "status  satisfiable\ntrue    1 of 1 variables\nx1\nrows    every row holds, checked: 1 of 1 constraints\n"), "{}", done.err);
    }
    let done = solve("no-constraints", "min: -3 x1;\n", "echo 'o -3'; echo 's OPTIMUM FOUND'; echo 'v x1'\n", &[]);
    assert_eq!(done.status, 0);
    assert!(done.out.ends_with("x1\nrows    every row holds, checked: 0 of 0 constraints\n"), "{}", done.out);
}

#[test]
fn variables_have_the_plans_own_numbers() {
    for (first, moved) in
        [("0", PLAN.replace("x1", "x0").replace("x2", "x1").replace("x3", "x2").replace("x4", "x3")), ("7", PLAN.replace("x4", "x10").replace("x3", "x9").replace("x2", "x8").replace("x1 ", "x7 "))]
    {
        let done = solve(&format!("first-{}", first), &moved, &printing(BEST), &["--first", first]);
        let last = format!("\nheld(satyr,atrium,1)\nx{}\nrows ", first.parse::<u32>().unwrap() + 3);
        assert!(done.status == 0 && done.out.contains(&last), "{}{}", done.out, done.err);
    }
    let plan = "1 x7 1 x9 >= 1;\n";
    let done = solve("first-unknown", plan, "echo 's SATISFIABLE'; echo 'v x1 x2 x3 x4'\n", &["--first", "7"]);
    assert_eq!(done.status, 4);
    assert!(done.err.contains("x10 (x4 in value lines), which is no variable of the plan: it ends with x9 (x3 in value lines)"), "{}", done.err);
    // a number that the plan passes over may have a value, and is not shown
    let done = solve("first-gap", plan, "echo 's SATISFIABLE'; echo 'v x1 x2 x3'\n", &["--first", "7", "-q"]);
    assert_eq!((done.status, done.out.as_str()), (0, "x7\nx9\n"));
}

#[test]
fn json_says_all_of_it() {
    let json = object(&solve("json", PLAN, &printing(BEST), &["--json"]));
    let names: Vec<&String> = json.as_object().unwrap().keys().collect();
    assert_eq!(names, ["plan", "exit_status", "solver", "status", "value", "claimed", "checked", "rows", "failing", "true", "completed", "stopped", "seconds", "messages"]);
    assert_eq!(
        (&json["exit_status"], &json["status"], &json["value"], &json["claimed"], &json["checked"], &json["rows"]),
        (&0.into(), &"optimum".into(), &0.into(), &0.into(), &true.into(), &4.into())
    );
    assert_eq!(json["true"], serde_json::json!([{ "number": 2, "name": "held(satyr,atrium,1)" }, { "number": 4, "name": null }]));
    let json = object(&solve("json-false", PLAN, &printing("v x1 x2 -x3 -x4\ns SATISFIABLE\n"), &["--json"]));
    assert_eq!(json["failing"], serde_json::json!([{ "row": 5, "line": 6, "sum": 0, "bound": 1, "short": 1 }, { "row": 6, "line": 7, "sum": 0, "bound": 1, "short": 1 }]));
    assert_eq!((&json["exit_status"], &json["status"], &json["value"], &json["claimed"]), (&3.into(), &"satisfiable".into(), &3.into(), &Value::Null));
    let json = object(&solve("json-refused", "1 x1\n", "exit 9\n", &["--json"]));
    assert_eq!((&json["exit_status"], &json["checked"]), (&1.into(), &false.into()));
}

#[test]
fn quiet_prints_the_true_variables_alone() {
    let done = solve("quiet", PLAN, &printing(BEST), &["-q"]);
    assert_eq!((done.status, done.out.as_str(), done.err.as_str()), (0, "held(satyr,atrium,1)\nx4\n", ""));
}

#[test]
fn the_answer_goes_to_the_file_that_is_named() {
    let answer = file("answer.txt", "before\n");
    let done = solve("output", PLAN, &printing(BEST), &["-q", "-o", &answer]);
    assert_eq!((done.status, done.out.as_str(), fs::read_to_string(&answer).unwrap().as_str()), (0, "", "held(satyr,atrium,1)\nx4\n"));
    let done = solve("output", PLAN, "exit 1\n", &["-o", &answer]);
    assert_eq!((done.status, fs::read_to_string(&answer).unwrap().as_str()), (4, "held(satyr,atrium,1)\nx4\n"));
    assert_eq!(solve("output", PLAN, &printing(BEST), &["-o", "/no/such/file"]).status, 2);
}

#[test]
fn lies_are_found_out() {
    found_out("lie-status", &printing("s UNSATISFIABLE\nv -x1 x2 -x3 x4\n"), 3, &["the claim of sh is false", "UNSATISFIABLE", "keep every row"]);
    found_out("lie-value", &printing("o -3\nv -x1 x2 -x3 x4\ns OPTIMUM FOUND\n"), 3, &["the claim of sh is false", "the value -1", "value is 0"]);
    let words = ["constraints that fail: 1 of 4", "  7 | 1 x4 > 0;", "line 7 (row 6, counted from 0)", "the sum is 0, asked for is at least 1: short by 1"];
    found_out("lie-variable", &printing("o -2\nv -x1 x2 -x3 -x4\ns OPTIMUM FOUND\n"), 3, &words);
    found_out("lie-over", &printing("v x1 -x2 x3 x4\ns SATISFIABLE\n"), 3, &["  5 | 2 x3 -1 x2 <= 1;", "the sum is 2, asked for is at most 1: over by 1"]);
    found_out("lie-off", &printing("v x1 x2 -x3 x4\ns SATISFIABLE\n"), 3, &["  6 | 1 ~x1 1 x3 = 1;", "the sum is 0, asked for is exactly 1: off by 1"]);
    found_out("lie-both", &printing("s UNSATISFIABLE\nv -x1 x2 -x3 -x4\n"), 3, &["constraints that fail: 1 of 4"]);
}

#[test]
fn many_failing_rows_are_counted_and_some_shown() {
    let done = solve("many-fail", &"1 x1 >= 1;\n".repeat(50), "echo 's SATISFIABLE'; echo 'v -x1'\n", &[]);
    assert_eq!((done.status, done.err.matches("short by 1").count()), (3, 20));
    assert!(done.err.contains("50 of 50") && done.err.contains("and 30 more"), "{}", done.err);
}

#[test]
fn values_that_are_none_of_the_plans_are_found_out() {
    found_out("unknown", &printing("s SATISFIABLE\nv -x1 x2 -x3 x4 -x9\n"), 4, &["x9, which is no variable of the plan: it ends with x4"]);
    found_out("without", &printing("s SATISFIABLE\nv -x1 x2 -x3\n"), 4, &["at line 7", "x4 has no value"]);
    found_out("conflict", &printing("s SATISFIABLE\nv -x1 x2 -x3 x4 x1\n"), 4, &["the value lines of sh", "(22)", "column 17"]);
    found_out("token", &printing("s SATISFIABLE\nv -x1 x2 -x3 yes\n"), 4, &["(21)", "-x3 yes"]);
    found_out("zero", &printing("s SATISFIABLE\nv x0 x2 -x3\n"), 4, &["(5)"]);
}

#[test]
fn an_answer_that_is_not_finished_is_none() {
    found_out("silence", "exit 0\n", 4, &["no status line", "exit status 0"]);
    found_out("no-status", &printing("o -2\nv -x1 x2 -x3 x4\n"), 4, &["no status line"]);
    found_out("no-values", &printing("s SATISFIABLE\n"), 4, &["no value lines"]);
    found_out("half-value", "printf 's SATISFIABLE\\nv -x1 x2 -x3 x4'\n", 4, &["half a line", "v -x1 x2 -x3 x4"]);
    found_out("half-status", "printf 'v -x1 x2 -x3 x4\\ns SATISFIABLE'\n", 4, &["half a line", "s SATISFIABLE"]);
    found_out("two-solutions", &printing("o 1\nv x1\no 0\nv -x1 x2 -x3 x4\no -2\ns SATISFIABLE\n"), 4, &["behind its last `o` line"]);
    found_out("unknown-status", "echo 'line 3 is too much' >&2\necho 's UNKNOWN'\nexit 33\n", 4, &["UNKNOWN", "exit status 33", "  | line 3 is too much"]);
}

#[test]
fn lines_that_cannot_be_read_are_said() {
    found_out("two-statuses", &printing("s SATISFIABLE\nv -x1 x2 -x3 x4\ns OPTIMUM FOUND\n"), 4, &["two statuses"]);
    found_out("other-status", &printing("s PERHAPS\nv -x1 x2 -x3 x4\n"), 4, &["`s PERHAPS`"]);
    found_out("other-value", &printing("o -2.5\nv -x1 x2 -x3 x4\ns OPTIMUM FOUND\n"), 4, &["`o -2.5`"]);
    found_out("none-but-one", &printing("o -2\ns UNSATISFIABLE\n"), 4, &["`o -2` of a solution"]);
}

#[test]
fn a_solver_that_dies_is_no_answer() {
    let answer = printing(BEST);
    found_out("killed", &format!("{}kill -9 $$\n", answer), 4, &["died by SIGKILL"]);
    found_out("fault", "kill -SEGV $$\n", 4, &["died by SIGSEGV"]);
    found_out("failed", "echo 'the file is not mine' >&2\nexit 1\n", 4, &["exit status 1", "  | the file is not mine"]);
}

#[test]
fn none_is_the_solvers_word_alone() {
    let done = solve("none", PLAN, &printing("s UNSATISFIABLE\n"), &[]);
    assert_eq!((done.status, done.out.as_str()), (5, "status  unsatisfiable (the solver's word alone)\n"));
    assert!(done.err.contains("none: sh says that no plan keeps every row; that is the solver's word alone"), "{}", done.err);
    let done = solve("none", PLAN, &printing("s UNSATISFIABLE\n"), &["-q"]);
    assert_eq!((done.status, done.out.as_str()), (5, ""));
}

/// In half a gigabyte of memory.
fn flooded(name: &str, script: &str, words: &str) {
    let (plan, solver) = (file(&format!("{}.opb", name), PLAN), format!("sh {}", file(&format!("{}.sh", name), script)));
    let opb = command(&["solve", &plan, "--solver", &solver]);
    let mut bounded = Command::new("sh");
    bounded.args(["-c", "ulimit -v 524288 && exec \"$0\" \"$@\""]).arg(opb.get_program()).args(opb.get_args());
    let done = ended(&mut bounded);
    assert!(done.status == 4 && done.err.contains(words), "{}: {} {}", name, done.status, done.err);
    assert!(done.took < Duration::from_secs(60), "{}", name);
}

#[test]
fn a_flood_is_stopped() {
    flooded("flood-value", "exec tr '\\0' v < /dev/zero\n", "a line of more than 67108992 bytes");
    flooded("flood-comment", "exec tr '\\0' c < /dev/zero\n", "a line of more than 67108992 bytes");
    flooded("flood-lines", "exec yes 'v -x1 x2 -x3 x4'\n", "value lines of more than 67108992 bytes");
}

#[test]
fn many_answers_are_no_flood() {
    let script = "yes 'o -2\nv -x1 x2 -x3 x4\nc words' | head -n 12000000\necho 's OPTIMUM FOUND'\n";
    let done = solve("many-answers", PLAN, script, &["-q"]);
    assert_eq!((done.status, done.out.as_str(), done.err.as_str()), (0, "held(satyr,atrium,1)\nx4\n", ""));
}

#[test]
fn time_ends_a_solver() {
    let soon = Duration::from_secs(6);
    let timed = |name: &str, script: &str| solve(name, PLAN, script, &["--time", "1.5"]);
    let done = timed("time-silent", "exec sleep 60\n");
    assert!(done.status == 5 && done.took < soon && done.err.contains("no answer in time: sh was stopped after "), "{}", done.err);
    assert_eq!(done.out, "status  unknown (no answer in time)\n");
    let done = timed("time-half", "printf 's SATISFIABLE\\nv -x1 x2'\nexec sleep 60\n");
    assert!(done.status == 5 && done.err.contains("no answer in time"), "{}", done.err);
    assert_eq!(done.out, "status  unknown (no answer in time)\n");
    let done = timed("time-unfinished", "echo 'o -2'; echo 'v -x1 x2 -x3 x4'\nexec sleep 60\n");
    assert!(done.status == 5 && !done.out.contains("held("), "{}", done.out);
    let done = timed("time-answered", &format!("{}exec sleep 60\n", printing(BEST)));
    assert!(done.status == 0 && done.took < soon && done.out.contains("\nheld(satyr,atrium,1)\nx4\n"), "{}{}", done.out, done.err);
    let last = "trap 'kill $!; echo \"s SATISFIABLE\"; echo \"v -x1 x2 -x3 x4\"; exit 0' TERM\nsleep 60 > /dev/null 2>&1 &\nwait\n";
    let done = timed("time-last", last);
    assert!(done.status == 0 && done.took < soon && done.out.starts_with("status  satisfiable (stopped when its time was up"), "{}{}", done.out, done.err);
    let done = timed("time-lie", "echo 's SATISFIABLE'; echo 'v -x1 x2 -x3 -x4'\nexec sleep 60\n");
    assert_eq!(done.status, 3);
}

#[test]
fn a_solver_that_will_not_end_is_ended() {
    let done = solve("time-deaf", PLAN, "trap '' TERM\nexec sleep 60\n", &["--time", "1.5"]);
    assert!(done.status == 5 && done.took > Duration::from_secs(5) && done.took < Duration::from_secs(30), "{:?}", done.took);
}

#[test]
fn a_process_that_holds_the_pipe_is_not_waited_for() {
    let done = solve("holds", PLAN, &format!("{}sleep 60 &\nexit 0\n", printing(BEST)), &[]);
    assert!(done.status == 0 && done.took < Duration::from_secs(20), "{:?}", done.took);
}

#[test]
fn variables_on_which_no_constraint_depends_may_be_open() {
    // the weights of x2 in the constraint add up to 0
    let plan = "min: 1 x1 -4 x2 3 x3;\n1 x1 2 x2 -2 x2 0 x3 >= 1;\n";
    let open = |name: &str, lines: &str| solve(name, plan, &format!("cat <<'END'\ns OPTIMUM FOUND\n{}END\n", lines), &[]);
    let done = open("open-weight", "o -3\nv x1\n");
    assert!(done.status == 0 && done.out.contains("value   -3 ") && done.out.contains("\nx1\nx2\nrows "), "{}{}", done.out, done.err);
    assert!(done.err.contains("variables on which no constraint depends, without a value in the answer: 2. They take the value that their weight in the objective asks for"), "{}", done.err);
    let done = open("open-false", "o 1\nv x1\n");
    assert!(done.status == 0 && done.out.contains("value   1 ") && done.err.contains("are false, as the solver counts them"), "{}{}", done.out, done.err);
    let done = open("open-claim", "o 0\nv x1\n");
    assert!(done.status == 3 && done.err.contains("the value 0, and the objective's value is -3"), "{}", done.err);
    assert_eq!(open("open-constraint", "o -3\nv x2\n").status, 4);
    let done = solve("open-nothing", "1 x1 0 x2 >= 1;\n", "echo 's SATISFIABLE'; echo 'v x1'\n", &["-q"]);
    assert_eq!((done.status, done.out.as_str(), done.err.as_str()), (0, "x1\n", ""));
}

#[test]
fn a_plan_that_is_refused_meets_no_solver() {
    let ran = path("ran");
    let _ = fs::remove_file(&ran);
    let script = format!("touch {}\n", ran.to_str().unwrap());
    let done = solve("refused", "1 x1 >= 1;\n1 y1 >= 1;\n", &script, &[]);
    assert!(done.status == 1 && done.err.contains("refused (4) at line 2"), "{}", done.err);
    let done = solve("two-objectives", "min: 1 x1;\n1 x1 >= 1;\nmin: 2 x1;\n", &script, &[]);
    assert!(done.status == 1 && done.err.contains("2 objectives, at lines 1, 3"), "{}", done.err);
    assert_eq!(done.out, "");
    assert!(!Path::new(&ran).exists());
    assert_eq!(opb(&["solve", "/no/such/plan"]).status, 2);
}

fn opb(words: &[&str]) -> Done {
    ended(&mut command(words))
}

#[test]
fn wrong_words_are_2() {
    let plan = file("words.opb", PLAN);
    for more in [["--time", "nan"], ["--time", "-1"], ["--time", "soon"], ["--solver", "'"], ["--solver", " "]] {
        let done = opb(&["solve", &plan, more[0], more[1]]);
        assert!(done.status == 2 && done.out.is_empty() && !done.err.is_empty(), "{:?}: {} {}", more, done.status, done.err);
    }
}

#[test]
fn a_missing_solver_is_said_with_what_to_install() {
    let plan = file("missing.opb", PLAN);
    let done = opb(&["solve", &plan, "--solver", "/no/such/solver"]);
    assert!(done.status == 4 && done.err.contains("/no/such/solver is not there") && done.err.contains("apt-get install clasp"), "{}", done.err);
    for (solver, words) in [(None, "no solver is installed"), (Some("minisat+"), "install the Debian package minisat+"), (Some("sat4j"), "install the Debian package sat4j")] {
        let mut command = command(&["solve", &plan]);
        solver.map(|name| command.args(["--solver", name]));
        let done = ended(command.env("PATH", "/no/such/folder"));
        assert!(done.status == 4 && done.err.contains(words), "{}", done.err);
    }
}

/// A program in a folder. A shell writes it: a file that is open for writing here cannot be run by another test's process.
fn program(folder: &Path, name: &str, script: &str) {
    fs::create_dir_all(folder).unwrap();
    let mut shell = Command::new("sh").args(["-c", "cat > \"$0\" && chmod +x \"$0\""]).arg(folder.join(name)).stdin(Stdio::piped()).spawn().unwrap();
    shell.stdin.take().unwrap().write_all(script.as_bytes()).unwrap();
    assert!(shell.wait().unwrap().success());
}

#[test]
fn the_first_that_is_installed_is_taken() {
    let (plan, folder) = (file("first.opb", PLAN), path("programs"));
    let _ = fs::remove_dir_all(&folder);
    let toulbar2 =
        "#!/bin/sh\n[ \"$1\" = -s=3 ] || exit 9\necho 'New solution: -2 (0 backtracks, 0 nodes, depth 2)'\necho ' x1=v0 x2=v1 x3=v0 x4=v1'\necho 'Optimum: -2 in 0 backtracks and 0 nodes'\n";
    program(&folder, "toulbar2", toulbar2);
    let solved = |wanted: &str| {
        let done = ended(command(&["solve", &plan]).env("PATH", &folder));
        assert!(done.status == 0 && done.out.contains(wanted), "{}{}", done.out, done.err);
    };
    solved("value   0 (as toulbar2 claims, checked)");
    program(&folder, "minisat+", "#!/bin/sh\necho 's OPTIMUM FOUND'\necho 'v -x1 x2 -x3 x4'\n");
    solved("value   0 (checked; minisat+ claims none)");
    program(&folder, "clasp", "#!/bin/sh\n[ $# = 1 ] || exit 9\necho 'o -2'\necho 'v -x1 x2 -x3 x4'\necho 's OPTIMUM FOUND'\n");
    solved("value   0 (as clasp claims, checked)");
}

fn is_gone(process: &str) -> bool {
    let state = fs::read_to_string(format!("/proc/{}/stat", process.trim())).unwrap_or_default();
    state.is_empty() || state.contains(") Z ")
}

fn until(what: impl Fn() -> bool) -> bool {
    (0..500).any(|_| {
        sleep(Duration::from_millis(20));
        what()
    })
}

#[test]
fn nothing_outlives_the_command() {
    let (folder, process) = (path("folder"), path("process"));
    let _ = fs::remove_dir_all(&folder);
    let _ = fs::remove_file(&process);
    fs::create_dir_all(&folder).unwrap();
    let plan = file("outlives.opb", PLAN);
    let solver = format!("sh {}", file("outlives.sh", &format!("echo $$ > {0}.new\nmv {0}.new {0}\ntrap '' TERM INT\nexec sleep 60\n", process.to_str().unwrap())));
    let mut opb = command(&["solve", &plan, "--solver", &solver]).env("TMPDIR", &folder).stderr(Stdio::null()).spawn().unwrap();
    assert!(until(|| process.exists()));
    assert_eq!(fs::read_dir(&folder).unwrap().count(), 1);
    assert!(Command::new("kill").args(["-TERM", &opb.id().to_string()]).status().unwrap().success());
    assert!(!opb.wait().unwrap().success());
    assert_eq!(fs::read_dir(&folder).unwrap().count(), 0);
    let process = fs::read_to_string(&process).unwrap();
    assert!(until(|| is_gone(&process)));
}

/// Whether it is there; else the test says that it is skipped.
fn installed(solver: &str) -> bool {
    let missing = opb(&["solve", &file("installed.opb", "1 x1 >= 1;\n"), "--solver", solver]).err.contains("is not installed");
    if missing {
        println!("{}: skipped, it is not installed", solver);
    }
    !missing
}

const REAL: [&str; 4] = ["clasp", "minisat+", "sat4j", "toulbar2"];

#[test]
fn real_solvers_solve_the_example() {
    let example = concat!(env!("CARGO_MANIFEST_DIR"), "/../examples/hall.opb");
    for solver in REAL.into_iter().filter(|solver| installed(solver)) {
        let json = object(&opb(&["solve", example, "--solver", solver, "--json"]));
        assert_eq!((&json["exit_status"], &json["status"], &json["value"], &json["checked"], &json["rows"]), (&0.into(), &"optimum".into(), &(-374).into(), &true.into(), &19.into()), "{}", json);
    }
}

#[test]
fn the_example_of_the_readme_is_what_clasp_gives() {
    let top = concat!(env!("CARGO_MANIFEST_DIR"), "/..");
    if installed("clasp") {
        let done = opb(&["solve", &format!("{}/examples/hall.opb", top), "--solver", "clasp"]);
        let lines: Vec<String> = done.out.lines().map(|line| format!("    {}\n", line)).collect();
        let shown = lines[..5].concat() + "    ...\n" + &lines[lines.len() - 1];
        assert!(fs::read_to_string(format!("{}/README.md", top)).unwrap().contains(&shown), "{}", shown);
    }
}

#[test]
fn real_solvers_say_what_is_none_and_what_is_open() {
    for solver in REAL.into_iter().filter(|solver| installed(solver)) {
        let none = file(&format!("real-none-{}.opb", solver), "min: 1 x1;\n1 x1 1 x2 >= 3;\n");
        assert_eq!(opb(&["solve", &none, "--solver", solver]).status, 5, "{}", solver);
        let open = file(&format!("real-open-{}.opb", solver), "min: 3 x5 2 ~x8 4 x9;\n1 x5 1 x7 >= 1;\n");
        let done = opb(&["solve", &open, "--solver", solver, "--first", "5", "-q"]);
        assert_eq!((done.status, done.out.as_str()), (0, "x7\nx8\n"), "{}: {}", solver, done.err);
    }
}

/// So many pigeons for one hole less: there is no plan, and no solver here knows it soon.
fn pigeons(count: usize) -> String {
    let line = |terms: Vec<usize>, end: &str| terms.iter().map(|number| format!("1 x{} ", number + 1)).collect::<String>() + end;
    let holes = count - 1;
    let each: String = (0..count).map(|pigeon| line((0..holes).map(|hole| pigeon * holes + hole).collect(), ">= 1;\n")).collect();
    each + &(0..holes).map(|hole| line((0..count).map(|pigeon| pigeon * holes + hole).collect(), "<= 1;\n")).collect::<String>()
}

#[test]
fn real_solvers_end_when_their_time_is_up() {
    for solver in REAL.into_iter().filter(|solver| installed(solver)) {
        let plan = file(&format!("real-time-{}.opb", solver), &pigeons(16));
        let done = opb(&["solve", &plan, "--solver", solver, "--time", "1"]);
        assert!(done.status == 5 && done.took < Duration::from_secs(6), "{}: {} {} {:?}", solver, done.status, done.err, done.took);
    }
}
