//! `opb normal`, and `opb rewrite` with --negated and --no-negated.
mod common;
use common::{opb, printed};

const OFFSET: &str = "* objective offset for previous objective: ";

#[test]
fn rewriting_normalises_first() {
    let text = "* hall\n3 x1 -2 x2 <= -1;\nmin: -4 x1 1 ~x3;\n-1 x1 = 0;\n";
    let negated = format!("* hall\n3 ~x1 2 x2 >= 4;\nmin: 4 ~x1 1 ~x3;\n{}-4\n1 ~x1 = 1;\n", OFFSET);
    assert_eq!(opb(&["normal", "-"], text), printed(0, &negated));
    assert_eq!(opb(&["rewrite", "--negated", "-"], text), printed(0, &negated));
    let plain = format!("* hall\n-3 x1 2 x2 >= 1;\nmin: -4 x1 -1 x3;\n{}1\n-1 x1 = 0;\n", OFFSET);
    assert_eq!(opb(&["rewrite", "-", "--no-negated"], text), printed(0, &plain));
    assert_eq!(opb(&["rewrite", "-", "--no-negated"], &negated.replace(&format!("{}-4\n", OFFSET), "")), printed(0, &plain.replace("objective: 1", "objective: 5")));
}

#[test]
fn rewriting_keeps_the_first_index() {
    assert_eq!(opb(&["normal", "-", "--first", "0"], "-1 x0 >= 0;"), printed(0, "1 ~x0 >= 1;\n"));
}

#[test]
fn a_row_that_cannot_be_rewritten_is_shown_with_its_line() {
    let (status, out, message) = opb(&["normal", "-"], "* a; b\n1 x1 >= 1; -1 x1 >= 9223372036854775807;\n");
    assert_eq!((status, out.as_str()), (1, ""));
    assert!(message.starts_with("standard input: refused (8) at line 2 (row 2, counted from 0): "), "{}", message);
    assert!(message.contains("\n  2 | 1 x1 >= 1; -1 x1 >= 9223372036854775807;\n"), "{}", message);
    let (status, out, message) = opb(&["rewrite", "--negated", "-"], "1 x1 >= 1 2");
    assert_eq!((status, out.as_str()), (1, ""));
    assert!(message.starts_with("standard input: refused (7) at line 1, column 1: "), "{}", message);
}
