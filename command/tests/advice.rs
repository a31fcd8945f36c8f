//! Advice by what stands there: the smallest plan of each kind.
mod common;
use common::{opb, opb_on, path, PLAN};
use std::fs;

/// What the command advises on the first refusal.
fn advice(plan: &[u8]) -> String {
    let (status, out, _) = opb_on(&["check", "-"], plan);
    assert_eq!(status, 1, "{}", String::from_utf8_lossy(plan));
    out.lines().find_map(|line| line.strip_prefix("  what to do: ")).unwrap().to_string()
}

fn advises(cases: &[(&[u8], &str)]) {
    for (plan, text) in cases {
        assert!(advice(plan).contains(text), "{}: {}", String::from_utf8_lossy(plan), advice(plan));
    }
}

#[test]
fn of_files_that_are_no_text() {
    advises(&[
        (b"\x1f\x8b\x08\0\n\n\n", "packed by gzip"),
        (b"\xfd7zXZ\0\0", "packed by xz"),
        (b"\x28\xb5\x2f\xfd\x04", "packed by zstd"),
        (b"BZh91AY", "packed by bzip2"),
        (b"PK\x03\x04\x14", "zip archive"),
        (b"\xff\xfe1\0 \0x\0", "UTF-16"),
        (b"\xfe\xff\x001\0 \0x", "UTF-16"),
        (b"1\0 \0x\x001\0", "UTF-16"),
        (b"\x001\0 \0x\x001", "UTF-16"),
        (b"\xef\xbb\xbf1 x1 >= 1;", "byte order mark"),
    ]);
    let (_, out, _) = opb_on(&["check", "-"], b"\x1f\x8b\x08\0\n\n\n");
    assert!(out.matches("refused").count() == 1, "{}", out);
    let (_, out, _) = opb_on(&["check", "-"], b"\xef\xbb\xbf1 x1 >= 1;\n1 x2 >= 1;\n");
    assert!(out.ends_with("\nstandard input: 1 line is refused\n"), "{}", out);
}

#[test]
fn of_beginnings_of_statements() {
    advises(&[
        (b"max: 1 x1;", "write `min:` with every weight's sign turned"),
        (b"MAX: 1 x1;", "write `min:` with every weight's sign turned"),
        (b"maximize\n", "write `min:` with every weight's sign turned"),
        (b"minimize: 1 x1;", "write `min:`, which is all"),
        (b"Min: 1 x1;", "`min:` in small letters"),
        (b"min : 1 x1;", "with the colon right behind it"),
        (b"# note", "begin a comment with `*`"),
        (b"1 x1 >= 1; # note", "begin a comment with `*`"),
        (b"// note", "begin a comment with `*`"),
        (b"c note", "begin a comment with `*`"),
        (b"p cnf 3 2", "DIMACS"),
        (b"soft: 3;", "WBO"),
        (b"s SATISFIABLE", "opb evaluate PLAN OUTPUT"),
        (b"x1 + x2 >= 1", "a weight before each variable"),
        (b"~x1 >= 1", "a weight before each variable"),
        (b">= 1;", "on one line"),
        (b"1 x1 >= 1;;", "remove the `;`"),
        (b"c1: 1 x1 >= 1;", "a row has no name"),
        (b"\n", "remove the blank line; "),
        (b"1 x1 >= 1;\n\n\n", "lines 2 to 3 are blank"),
        (b"1 x1 >= 1;\r1 x2 >= 1;\r", "CR alone"),
        (b"what", "remove a blank line, or begin with"),
    ]);
}

#[test]
fn of_weights_and_variables() {
    advises(&[
        (b"3*x1 >= 1;", "no `*` between weight and variable"),
        (b"3 * x1 >= 1;", "no `*` between weight and variable"),
        (b"1 x1 +3*x2 >= 1;", "no `*` between weight and variable"),
        (b"min: 3*x1;", "no `*` between weight and variable"),
        (b"1.5 x1 >= 1;", "whole numbers"),
        (b"1e3 x1 >= 1;", "write the number out"),
        (b"3 y1 >= 1;", "call a variable `x`"),
        (b"3 energy >= 1;", "call a variable `x`"),
        (b"3 x_1 >= 1;", "call a variable `x`"),
        (b"3 x1_2 >= 1;", "call a variable `x`"),
        (b"3 X1 >= 1;", "small letters"),
        (b"3 !x1 >= 1;", "`~x1`"),
        (b"3 ~ x1 >= 1;", "`~x1`, with nothing between"),
        (b"3 >= 1;", "left of the operator"),
        (b"3 ;", "a variable behind each weight"),
        (b"3x1 >= 1;", "write `3 x1` or `3 ~x1`, not `3x1`"),
        (b"3 x1 + 2 x2 >= 1;", "the sign belongs to the weight: write `+2`"),
        (b"3 x1 - 12 x2 >= 1;", "the sign belongs to the weight: write `-12`"),
        (b"+x1 >= 1;", "a weight before each variable, such as `+1 x1`"),
        (b"1 x1 + x2 >= 1;", "a weight before each variable, such as `+1 x1`"),
        (b"1 x1 - ~x2 >= 1;", "a weight before each variable, such as `-1 x1`"),
        (b"1\xc2\xa0x1 >= 1;", "no-break space"),
        (b"1 x1 \xe2\x88\x922 x2 >= 1;", "write `-`"),
        (b"\xe2\x88\x922 x2 >= 1;", "write `-`"),
        (b"1 x1, 2 x2 >= 1;", "no commas"),
        (b"1 x1 x2 >= 1;", "products of variables are not read"),
        (b"min: x1;", "a weight before each variable"),
        (b"9223372036854775808 x1 >= 1;", "which 64 bits hold"),
        (b"1 x0 >= 1;", "`--first 0`"),
        (b"1 x3 1 x0 >= 1; 3x", "`--first 0`"),
        (b"1 x0 1 x1073741825 >= 1;", "compare the variables' numbers"),
    ]);
    let (_, out, _) = opb(&["check", "-", "--first", "5"], "1 x7 1 x4 >= 1;");
    assert!(out.contains("`--first 4`"), "{}", out);
}

#[test]
fn of_operators_bounds_and_endings() {
    advises(&[
        (b"1 x1 == 1;", "write `=`, not `==`"),
        (b"1 x1 => 1;", "write `>=`, not `=>`"),
        (b"1 x1 =< 1;", "write `<=`, not `=<`"),
        (b"1 x1 != 1;", "\"not equal\""),
        (b"1 x1 <> 1;", "\"not equal\""),
        (b"1 x1 \xe2\x89\xa5 1;", "write `>=`"),
        (b"1 x1 \xe2\x89\xa4 1;", "write `<=`"),
        (b"1 x1 >= ;", "write the bound behind the operator"),
        (b"1 x1 >=\n", "write the bound behind the operator"),
        (b"1 x1 >= 9223372036854775808;", "which 64 bits hold"),
        (b"1 x1 >= - 2;", "the sign belongs to the bound: write `-2`"),
        (b"1 x1 >= \xe2\x88\x922;", "write `-`"),
        (b"1 x1 >= x2;", "left of the operator"),
        (b"1 x1 >= 1 x2;", "left of the operator"),
        (b"1 x1 >= 1 +2 x2;", "left of the operator"),
        (b"1 x1 >= 1.5;", "whole numbers"),
        (b"1 x1 >= 1 <= 2;", "one operator in each row"),
        (b"1 x1 1 x2\n", "on one line"),
        (b"1 x1;", "on one line"),
        (b"1 x1 >= 1 * note", "end the statement with `;`"),
        (b"1 x1 >= 1 # note", "end the statement with `;`"),
        (b"min: 1 x1 >= 2;", "an objective has no bound"),
        (b"1 x1 >= 1\r1 x2 >= 1\r", "CR alone"),
        (b"1 x1 >= 1 2;", "end it with `;` or a new line"),
        (b"9223372036854775807 x1 1 x2 >= 1;", "use smaller units"),
    ]);
}

#[test]
fn of_all_commands_that_read_a_plan() {
    for words in [&["normal", "-"][..], &["rewrite", "-", "--no-negated"], &["evaluate", "-", "/dev/null"]] {
        let (status, out, trouble) = opb(words, "1 x1 >= 1;\n3*x1 >= 1;\n");
        assert_eq!((status, out.as_str()), (1, ""));
        assert!(trouble.contains("no `*` between weight and variable"), "{}", trouble);
    }
}

/// The first index has no say in them.
#[test]
fn of_value_lines_is_the_general_one() {
    let plan = path("plan.opb");
    fs::write(&plan, PLAN).unwrap();
    for answer in ["v x0", "v -x0", "v x1 x0 x2"] {
        let (status, _, trouble) = opb(&["evaluate", &plan, "-"], answer);
        assert!(status == 1 && trouble.contains("refused (5)") && !trouble.contains("--first"), "{}", trouble);
    }
}
