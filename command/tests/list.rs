//! `opb list`.
mod common;
use common::{file, opb, printed, PLAN};

#[test]
fn list_prints_the_house_lines() {
    let lines = "opb\t4\t4\t1\nc\t6\nge\t1\t3\tx1\t-2\t~x2\nmin\t0\t4\tx3\nle\t0\t1\tx1\n";
    assert_eq!(opb(&["list", "-"], PLAN), printed(0, lines));
    assert_eq!(opb(&["list", &file("listed.opb", PLAN)], ""), printed(0, lines));
    assert_eq!(opb(&["list", "-"], "1 x1 >= 1;\n\n1 x2 >= 1;"), printed(1, "refused\t2\t11\n"));
}

#[test]
fn list_has_no_limit_of_65536_bytes() {
    let text = "1 x1 >= 1;\n".repeat(10_000);
    let (status, out, _) = opb(&["list", "-"], &text);
    assert_eq!((status, out.lines().count()), (0, 10_001));
    assert!(out.starts_with("opb\t10000\t10000\t1\nge\t1\t1\tx1\n"));
}

#[test]
fn names_stand_in_the_place_of_variables() {
    let plan = "* output x1 held(satyr,atrium,1)\n* output x3 a\tb\n* output x2\n* 0\n3 x1 -2 ~x1 1 x2 >= 1;\nmin: 4 ~x3 5 x13;\n";
    let lines = "opb\t6\t5\t1\nc\t30\nc\t13\nc\t9\nc\t1\nge\t1\t3\theld(satyr,atrium,1)\t-2\t~held(satyr,atrium,1)\t1\tx2\nmin\t0\t4\t~a b\t5\tx13\n";
    assert_eq!(opb(&["list", "--names", "-"], plan), printed(0, lines));
    assert_eq!(opb(&["list", "--names", "-"], PLAN), opb(&["list", "-"], PLAN));
    let from_0 = "opb\t2\t1\t0\nc\t11\nge\t1\t1\tgate\n";
    assert_eq!(opb(&["list", "--names", "-", "--first=0"], "* output x0 gate\n1 x0 >= 1;"), printed(0, &from_0.replace("11", "14")));
}
