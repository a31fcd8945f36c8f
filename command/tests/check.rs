//! `opb check`: counts, refusals line by line, warnings, JSON.
mod common;
use common::{file, opb, printed, PLAN};
use serde_json::{json, Value};

#[test]
fn check_counts_rows_terms_and_variables() {
    let plan = file("counted.opb", PLAN);
    let line = ": accepted: rows 4 (comments 1, constraints 2, objectives 1), terms 4, variables 3, highest x3\n";
    assert_eq!(opb(&["check", &plan, "-"], PLAN), printed(0, &format!("{}{}standard input{}", plan, line, line)));
    let apart = "standard input: accepted: rows 1 (comments 0, constraints 1, objectives 0), terms 3, variables 2, highest x1000\n";
    assert_eq!(opb(&["check", "-", "--first", "0"], "1 x0 1 ~x1000 1 x0 > 0"), printed(0, apart));
}

#[test]
fn check_points_at_the_place() {
    let (status, out, trouble) = opb(&["check", "-"], "1 x1 >= 1;\n\n1 x2 >= 1;");
    assert_eq!((status, trouble.as_str()), (1, ""));
    assert_eq!(
        out,
        "standard input: refused (2) at line 2, column 1: no statement begins here (a blank line is none)\n  2 |\n      ^\n  what to do: remove the blank line; all blank lines go by `sed '/^[[:space:]]*$/d'`\nstandard input: 1 line is refused\n"
    );
    let (status, out, _) = opb(&["check", "-"], "* é\n1 x1 >= 1;\té 2\r\n");
    assert_eq!(status, 1);
    assert!(out.contains("(2) at line 2, column 12: ") && out.contains("\n  2 | 1 x1 >= 1; ?? 2\n                 ^\n"), "{}", out);
}

#[test]
fn check_cuts_long_lines() {
    let text = format!("{}3x1 >= 1;{}\n", "1 x1 >= 1; ".repeat(9), " 1 x1 >= 1;".repeat(9));
    let (status, out, _) = opb(&["check", "-"], &text);
    assert_eq!(status, 1);
    let lines: Vec<&str> = out.lines().collect();
    assert!(lines[0].contains("(4) at line 1, column 100: "), "{}", out);
    assert_eq!(lines[1], "  1 | ...; 1 x1 >= 1; 1 x1 >= 1; 3x1 >= 1; 1 x1 >= 1; 1 x1 >= 1; 1 x1 >= 1; 1 x1 ...");
    assert_eq!(lines[2].len(), lines[1].find("3x1").unwrap() + 1);
}

#[test]
fn check_says_all_files_and_the_greatest_status() {
    let (good, bad) = (file("good.opb", PLAN), file("bad.opb", "1 x1 >= 1;\n1 x0 >= 1;\n"));
    let (status, out, _) = opb(&["check", &bad, &good], "");
    assert_eq!(status, 1);
    assert!(out.starts_with(&format!("{}: refused (5) at line 2, column 1: ", bad)) && out.contains(&format!("\n{}: accepted: rows 4 ", good)), "{}", out);
    assert_eq!(opb(&["check", "--first", "0", "--", &good, &bad], "").0, 0);
}

/// Number, line and column of each refusal that check shows.
fn refusals(text: &str) -> Vec<String> {
    let lines = text.lines().filter_map(|line| line.strip_prefix("standard input: refused "));
    lines.map(|line| line.split(": ").next().unwrap().to_string()).collect()
}

#[test]
fn check_goes_on_behind_a_refused_line() {
    let plan = "1 x1 >= 1;\n3x1 >= 1; 3x1 >= 1;\n* good\n1 x0 >= 1;\r\n\r\n1 x1 >= 1; 1 x1 1;\n1 x1 >= 99999999999999999999;";
    let (status, out, trouble) = opb(&["check", "-"], plan);
    assert_eq!((status, trouble.as_str()), (1, ""));
    assert_eq!(refusals(&out), ["(4) at line 2, column 1", "(5) at line 4, column 1", "(2) at line 5, column 1", "(4) at line 6, column 12", "(3) at line 7, column 1"]);
    assert!(out.ends_with("\nstandard input: 5 lines are refused\n"), "{}", out);
    assert!(out.contains("\n  6 | 1 x1 >= 1; 1 x1 1;\n                 ^\n"), "{}", out);
}

#[test]
fn check_shows_20_refusals_or_all() {
    let plan = "1 x1 >= 1;\n3x1 >= 1;\n".repeat(25);
    let (status, out, _) = opb(&["check", "-"], &plan);
    assert_eq!((status, refusals(&out).len()), (1, 20));
    assert!(out.ends_with("\nstandard input: 25 lines are refused, 5 of them not shown (--all shows all)\n"), "{}", out);
    let (status, out, _) = opb(&["check", "-", "--all"], &plan);
    assert_eq!((status, refusals(&out).len(), refusals(&out)[24].as_str()), (1, 25, "(4) at line 50, column 1"));
    assert!(out.ends_with("\nstandard input: 25 lines are refused\n"), "{}", out);
}

#[test]
fn blank_lines_one_after_another_are_one_finding() {
    let (status, out, _) = opb(&["check", "-"], "1 x1 >= 1;\n\n \t\n\r\n1 x2 >= 1;\n\n1 x3 >= 1;\n\n  ");
    assert_eq!((status, refusals(&out)), (1, ["(2) at line 2, column 1", "(2) at line 6, column 1", "(2) at line 8, column 1"].map(str::to_string).to_vec()));
    assert!(out.contains("what to do: lines 2 to 4 are blank: remove them; ") && out.ends_with("\nstandard input: 5 lines are refused\n"), "{}", out);
    let (_, out, _) = opb(&["check", "-"], &"\n".repeat(100_000));
    assert!(out.contains("lines 1 to 100000 are blank") && out.ends_with("\nstandard input: 100000 lines are refused\n"), "{}", out);
}

/// Chunks are of 1,048,576 bytes; lines lie across their ends, one line is longer, and refusals stand on both sides.
#[test]
fn a_file_of_several_chunks_adds_up() {
    let line = "1 x1 -20 ~x70000 >= -5;\n";
    let long = format!("min:{};\n", " 1 x3".repeat(300_000));
    let good = format!("{}{}* note\n{}", line.repeat(60_000), long, line.repeat(60_000));
    let counts = "rows 120002 (comments 1, constraints 120000, objectives 1), terms 540000, variables 3, highest x70000\n";
    assert_eq!(opb(&["check", "-"], &good), printed(0, &format!("standard input: accepted: {}", counts)));
    let bad = format!("{}3x1 >= 1;\n{}", good, good.replace("* note", "3*x1 >= 1;\n\n\n# note"));
    let (status, out, _) = opb(&["check", "-"], &bad);
    let places = ["(4) at line 120003, column 1", "(4) at line 180005, column 1", "(2) at line 180006, column 1", "(2) at line 180008, column 1"];
    assert_eq!((status, refusals(&out)), (1, places.map(str::to_string).to_vec()));
}

/// Were each refused line to cost a walk through all that follows, this would take minutes.
#[test]
fn a_file_of_refused_lines_alone_is_done_in_time() {
    let plan = "3x1 >= 1;\n".repeat(200_000);
    let begun = std::time::Instant::now();
    let (status, out, _) = opb(&["check", "-"], &plan);
    assert!(status == 1 && out.ends_with("\nstandard input: 200000 lines are refused, 199980 of them not shown (--all shows all)\n"));
    assert!(begun.elapsed().as_secs() < 100);
}

/// The warnings and remarks of an accepted plan.
fn warnings(words: &[&str], plan: &str) -> Vec<String> {
    let (status, _, trouble) = opb(words, plan);
    assert_eq!(status, 0, "{}", plan);
    trouble.lines().map(|line| line.strip_prefix("standard input: ").unwrap().to_string()).collect()
}

#[test]
fn a_header_is_held_against_the_rows() {
    let rows = "1 x1 1 x3 >= 1;\n1 x3 >= 0;\n";
    let cases: [(&str, &[&str]); 7] = [
        ("* #variable= 3 #constraint= 2\n", &[]),
        ("* #variable= 2 #constraint= 2\n", &["warning: the header says 2 variables, and the highest is x3 of 2: it must say 3"]),
        ("* #variable= 3 #constraint= 4\n", &["warning: the header says 4 constraints, and there are 2"]),
        ("* #variable= 9 #constraint= 2\n", &["remark: the header says 9 variables, which solvers allow; the highest in a row is x3"]),
        ("* a\n* #variable= 3 #constraint= 2\n", &["warning: the header stands at line 2, and solvers look for it in the first"]),
        ("* #variable= 3\n", &["warning: the header at line 1 is not of the form `* #variable= N #constraint= M`"]),
        ("* #variable= 3 #constraint= 2\n* b\n* #variable= 3 #constraint= 2\n", &["warning: there are 2 headers, the second at line 3"]),
    ];
    for (header, expected) in cases {
        assert_eq!(warnings(&["check", "-"], &format!("{}{}", header, rows)), expected, "{}", header);
    }
    let from_0 = |variables: u32| format!("* #variable= {} #constraint= 1\n1 x0 1 x1 >= 1;\n", variables);
    assert_eq!(warnings(&["check", "-", "--first", "0"], &from_0(2)), [""; 0]);
    assert_eq!(warnings(&["check", "-", "--first", "0"], &from_0(1)), ["warning: the header says 1 variables, and the highest is x1 of 2: it must say 2"]);
}

#[test]
fn a_plan_without_rows_or_with_two_objectives_is_warned_of() {
    for plan in ["", "* a\n", "  "] {
        assert_eq!(warnings(&["check", "-"], plan), ["warning: the plan has no constraint and no objective"]);
    }
    assert_eq!(warnings(&["check", "-"], "min: 1 x1;\nmin: 2 x1;\n"), ["warning: the plan has 2 objectives, and solvers take one"]);
    assert_eq!(warnings(&["check", "-"], "min: 1 x1;\n"), [""; 0]);
}

#[test]
fn a_comment_that_swallows_a_plan_is_warned_of() {
    let expected = "the comment at line 1 has a CR in it: where lines end in CR alone (old Macs), all that follows is comment; `tr '\\r' '\\n'` mends that";
    assert_eq!(warnings(&["check", "-"], "* a\r1 x1 >= 1;\r")[1], format!("warning: {}", expected));
    assert_eq!(warnings(&["check", "-"], "* a\r\n1 x1 >= 1;\r\n"), [""; 0]);
}

#[test]
fn names_are_held_against_the_rows() {
    let cases: [(&str, &[&str]); 6] = [
        ("* output x1 a\n* output x2 b\n* 0\n", &[]),
        ("* output x1 a\n* output x2 b\n", &["warning: no comment `* 0` closes the names, as clasp asks"]),
        ("* 0\n* output x1 a\n", &["warning: no comment `* 0` closes the names, as clasp asks"]),
        ("* output x1 a\n* output x1 b\n* 0\n", &["warning: the name at line 3 is a second one for its variable; the first counts"]),
        ("* output x1 a\n* output x2 a\n* 0\n", &["warning: the name at line 3 stands for another variable already, or twice for one"]),
        ("* output x7 a\n* output x0 b\n* output x2 c\n* 0\n", &["warning: names stand for variables that no row has: 2, the first x0"]),
    ];
    for (names, expected) in cases {
        assert_eq!(warnings(&["check", "-"], &format!("1 x1 1 x2 >= 1;\n{}", names)), expected, "{}", names);
    }
    let (_, out, _) = opb(&["check", "-"], "* output x2 b\n* 0\n1 x2 >= 1;\n");
    assert!(out.ends_with(", variables 1, highest x2, names 1\n"), "{}", out);
}

#[test]
fn quiet_says_nothing_of_an_accepted_file() {
    assert_eq!(opb(&["check", "-q", "-"], "* #variable= 9 #constraint= 9\n"), printed(0, ""));
    let (status, out, _) = opb(&["check", "-q", "-"], "3x1");
    assert!(status == 1 && out.starts_with("standard input: refused (4) at line 1, column 1: "), "{}", out);
}

/// One object on each line.
fn objects(text: &str) -> Vec<Value> {
    text.lines().map(|line| serde_json::from_str(line).unwrap()).collect()
}

#[test]
fn json_says_what_an_accepted_file_holds() {
    let plan = "* #variable= 3 #constraint= 3\n* output x3 c\n* 0\n3 x1 -2 ~x3 >= 1;\nmin: 4 x3;\n1 x1 < 1\n";
    let (status, out, _) = opb(&["check", "--json", "-q", "-"], plan);
    let expected = json!({
        "name": "standard input", "accepted": true, "rows": 6, "comments": 3, "constraints": 2, "objectives": 1, "terms": 4, "variables": 2, "highest": 3, "names": 1,
        "header": {"variables": 3, "constraints": 3}, "refusals": [], "refused": 0, "warnings": ["the header says 3 constraints, and there are 2"], "remark": null, "status": 0,
    });
    assert_eq!((status, objects(&out)), (0, vec![expected]));
}

#[test]
fn json_has_an_object_for_each_file() {
    let (good, bad) = (file("good.opb", PLAN), file("bad.opb", "1 x1 >= 1;\n\n\n1 x1 >= 1; 3*x1 >= \u{e9}\"\\;\n"));
    let (status, out, trouble) = opb(&["check", "--json", &good, "no such file", &bad], "");
    let all = objects(&out);
    assert_eq!((status, all.len()), (2, 3));
    assert!(trouble.starts_with("opb: no such file: "), "{}", trouble);
    let told = |key: &str| all.iter().map(|object| object[key].clone()).collect::<Vec<_>>();
    assert_eq!((told("accepted"), told("status"), told("refused")), (vec![json!(true), json!(false), json!(false)], vec![json!(0), json!(2), json!(1)], vec![json!(0), json!(0), json!(3)]));
    assert_eq!((told("name"), told("rows")), (vec![json!(good), json!("no such file"), json!(bad)], vec![json!(4), json!(null), json!(null)]));
    let blank = "lines 2 to 3 are blank: remove them; all blank lines go by `sed '/^[[:space:]]*$/d'`";
    let times = "write `3 x1`, with a blank and no `*` between weight and variable";
    let expected = json!([
        {"number": 2, "meaning": "no statement begins here (a blank line is none)", "place": 11, "line": 2, "column": 1, "text": "", "advice": blank, "last_line": 3},
        {"number": 4, "meaning": "a weight of this statement has no blank behind it, or no variable there", "place": 24, "line": 4, "column": 12, "text": "1 x1 >= 1; 3*x1 >= ??\"\\;", "advice": times, "last_line": 4},
    ]);
    assert_eq!(all[2]["refusals"], expected);
}

#[test]
fn json_shows_20_refusals_or_all() {
    let plan = "3x1 >= 1;\n".repeat(25);
    let shown = |words: &[&str]| objects(&opb(words, &plan).1)[0]["refusals"].as_array().unwrap().len();
    assert_eq!((shown(&["check", "--json", "-"]), shown(&["check", "--json", "--all", "-"])), (20, 25));
}

#[test]
fn a_file_that_is_too_long_is_refused_for_that_alone() {
    let path = file("long.opb", "");
    std::fs::OpenOptions::new().write(true).open(&path).unwrap().set_len(1_073_741_824).unwrap();
    let (status, out, _) = opb(&["check", &path], "");
    std::fs::remove_file(&path).unwrap();
    assert_eq!((status, out), (1, format!("{}: refused (1): the file is longer than 1,073,741,823 bytes\n  what to do: split the plan into several files\n", path)));
}
