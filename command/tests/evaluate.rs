//! `opb evaluate`: what it prints, and its exit status.
mod common;
use common::{command, file, opb, printed, PLAN, ROOMS};
use std::fs;

#[test]
fn evaluate_prints_sum_bound_and_whether_it_holds() {
    let plan = file("rooms.opb", ROOMS);
    let holds = "le\t2\t4\tholds\neq\t2\t2\tholds\nmin\t-5\n";
    for output in ["v 1 -2 -3 0\n", "v x1 -x2 ~x3", "v 100\n", "c a\r\ns OPTIMUM FOUND\r\nv x1\r\nv -x2\r\nc b\r\nv -x3\r\n"] {
        assert_eq!(opb(&["evaluate", &plan, "-"], output), printed(0, holds), "{}", output);
    }
    let output = file("rooms.out", "v 100\n");
    assert_eq!(opb(&["evaluate", "-", &output], ROOMS), printed(0, holds));
    assert_eq!(opb(&["evaluate", "-", &output], "* nothing\n"), printed(0, ""));
}

#[test]
fn a_constraint_that_fails_is_3() {
    let plan = file("failing.opb", ROOMS);
    let (status, out, message) = opb(&["evaluate", &plan, "-"], "v 111");
    assert_eq!((status, out.as_str()), (3, "le\t6\t4\tfails\neq\t2\t2\tholds\nmin\t-1\n"));
    assert_eq!(message, format!("{}: constraints that fail: 1 of 2, the first at line 2 (row 1, counted from 0)\n  2 | 2 x1 3 x2 1 x3 <= 4;\n", plan));
}

#[test]
fn evaluate_takes_the_value_lines_behind_the_last_o() {
    let plan = file("improved.opb", ROOMS);
    let first = "le\t5\t4\tfails\neq\t3\t2\tfails\nmin\t-5\n";
    let last = "le\t2\t4\tholds\neq\t2\t2\tholds\nmin\t-5\n";
    let cases = [
        ("o 9\nv x1 x2\nv -x3\no -5\nc v x2\nv x1 -x2\n v x2\nv -x3\n", 0, last),
        ("v x1 x2 -x3\no -5\n", 3, first),
        ("v x1 x2 -x3\noptimal\nv x1", 3, first),
        ("v x1 x2 -x3\no\t-5\nv x1 -x2 -x3", 0, last),
    ];
    for (output, status, lines) in cases {
        let (exit, out, _) = opb(&["evaluate", &plan, "-"], output);
        assert_eq!((exit, out.as_str()), (status, lines), "{}", output);
    }
}

#[test]
fn a_refused_value_has_line_and_column_in_the_output() {
    let cases = [
        ("c x\nv 1 -2\nc\nv 3x 4\n", "(21) at line 2, column 3: "),
        ("c\nv 1 -2\nc 5\nv 3 4a\n", "(21) at line 4, column 5: "),
        ("o 1\nv x1\no 2\r\nv x1\r\nc\r\nv x2 -x1\r\n", "(22) at line 6, column 6: "),
        ("s SATISFIABLE\nv x1 x0", "(5) at line 2, column 6: "),
        ("value of x1\nv x1", "(21) at line 1, column 2: "),
    ];
    let plan = file("refused_values.opb", PLAN);
    for (output, message) in cases {
        let (status, out, trouble) = opb(&["evaluate", &plan, "-"], output);
        assert_eq!((status, out.as_str()), (1, ""), "{}", output);
        assert!(trouble.starts_with(&format!("standard input: refused {}", message)), "{}", trouble);
    }
    let (_, _, trouble) = opb(&["evaluate", &plan, "-"], "c\nv 1 -2\nc\nv 3 -1");
    assert!(trouble.contains("\n  4 | v 3 -1\n          ^\n"), "{}", trouble);
}

#[test]
fn an_output_without_value_lines_is_20() {
    let plan = file("no_values.opb", PLAN);
    for output in ["", "s UNSATISFIABLE\n", "o 3\n v 1\n"] {
        let (status, out, trouble) = opb(&["evaluate", &plan, "-"], output);
        assert_eq!((status, out.as_str()), (1, ""));
        assert!(trouble.starts_with("standard input: refused (20): the output has no value lines "), "{}", trouble);
    }
}

#[test]
fn a_row_with_an_unknown_variable_is_12_with_its_line_in_the_plan() {
    let plan = file("unknown.opb", PLAN);
    let (status, out, trouble) = opb(&["evaluate", &plan, "-"], "v -1 2 4 0\n");
    assert_eq!((status, out.as_str()), (1, ""));
    assert!(trouble.starts_with(&format!("{}: refused (12) at line 3 (row 2, counted from 0): ", plan)), "{}", trouble);
    assert!(trouble.contains("\n  3 | min: 4 x3;\n  x3 has no value\n  what to do: "), "{}", trouble);
    let (status, out, trouble) = opb(&["evaluate", "-", &plan], "1 x1 >= 1;\n\n");
    assert_eq!((status, out.as_str()), (1, ""));
    assert!(trouble.starts_with("standard input: refused (2) at line 2, column 1: "), "{}", trouble);
}

#[test]
fn value_lines_count_from_1_whatever_the_first_index_is() {
    let plan = file("from_0.opb", "1 x0 2 x1 >= 2;\n");
    assert_eq!(opb(&["evaluate", "--first", "0", &plan, "-"], "v -x1 x2"), printed(0, "ge\t2\t2\tholds\n"));
    let (status, _, trouble) = opb(&["evaluate", "--first", "0", &plan, "-"], "v x2");
    assert_eq!(status, 1);
    assert!(trouble.contains("\n  x0 (x1 in value lines) has no value\n"), "{}", trouble);
    let (status, _, trouble) = opb(&["evaluate", "--first", "0", &plan, "-"], "v x0 x1");
    assert_eq!(status, 1);
    assert!(trouble.starts_with("standard input: refused (5) at line 1, column 3: "), "{}", trouble);
}

/// README.md shows tabs as `|`, each line four columns in.
#[test]
fn the_example_of_the_readme_prints_what_it_shows() {
    let top = concat!(env!("CARGO_MANIFEST_DIR"), "/..");
    let readme = fs::read_to_string(format!("{}/README.md", top)).unwrap();
    let output = fs::read_to_string(format!("{}/examples/hall.out", top)).unwrap();
    let shown = |text: &str| text.lines().map(|line| format!("    {}\n", line.replace('\t', "|"))).collect::<String>();
    let evaluate = |output: &str| {
        let output = file("hall.out", output);
        let done = command(&["evaluate", "examples/hall.opb", &output]).current_dir(top).output().unwrap();
        (done.status.code(), String::from_utf8(done.stdout).unwrap(), String::from_utf8(done.stderr).unwrap())
    };
    let (status, holds, _) = evaluate(&output);
    assert_eq!(status, Some(0));
    assert!(readme.contains(&shown(&holds.split_inclusive('\n').take(6).collect::<String>())), "{}", shown(&holds));
    let (status, fails, message) = evaluate(&output.replace(" -x10 ", " x10 "));
    let fails: String = fails.split_inclusive('\n').filter(|line| line.contains("fails")).collect();
    assert_eq!(status, Some(3));
    assert!(readme.contains(&shown(&(fails.clone() + &message))), "{}", shown(&(fails + &message)));
}
