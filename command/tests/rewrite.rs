//! `opb rewrite --for-solvers`: the bytes that it prints, and that they mean what the plan means.
use opb::{Kind, Table, Value};
use std::collections::HashSet;
use std::io::Write;
use std::process::{Command, Stdio};

const OFFSET: &str = "* objective offset for previous objective: ";

/// Exit status, standard output and standard error, for a plan on standard input.
fn opb(words: &[&str], plan: &[u8]) -> (i32, Vec<u8>, String) {
    let mut command = Command::new(env!("CARGO_BIN_EXE_opb"));
    let mut child = command.args(words).stdin(Stdio::piped()).stdout(Stdio::piped()).stderr(Stdio::piped()).spawn().unwrap();
    child.stdin.take().unwrap().write_all(plan).unwrap();
    let done = child.wait_with_output().unwrap();
    (done.status.code().unwrap(), done.stdout, String::from_utf8(done.stderr).unwrap())
}

fn for_solvers(plan: &str, first: &str) -> String {
    let (status, written, trouble) = opb(&["rewrite", "-", "--for-solvers", "--first", first], plan.as_bytes());
    assert_eq!((status, trouble.as_str()), (0, ""), "{}", plan);
    String::from_utf8(written).unwrap()
}

fn refused(plan: &str) -> String {
    let (status, written, trouble) = opb(&["rewrite", "-", "--for-solvers"], plan.as_bytes());
    assert_eq!((status, written.len()), (1, 0), "{}", plan);
    trouble
}

#[test]
fn header_objective_and_the_rest_in_order() {
    let plan = "* rooms\n3 x1 -2 ~x2 >= 1;\n* the goal\nmin: 4 ~x3 1 x1;\n1 x1 < 1\n* end\n";
    let written = format!("* #variable= 3 #constraint= 2\nmin: -4 x3 1 x1;\n{}4\n* rooms\n3 x1 2 x2 >= 3;\n* the goal\n-1 x1 >= 0;\n* end\n", OFFSET);
    assert_eq!(for_solvers(plan, "1"), written);
}

#[test]
fn every_operator_becomes_at_least_or_equal() {
    let plan = "1 x1 2 x2 >= 1; 1 x1 2 x2 <= 1; 1 x1 2 x2 > 1; 1 x1 2 x2 < 1; 1 x1 -2 ~x2 = 1;";
    let written = "* #variable= 2 #constraint= 5\n1 x1 2 x2 >= 1;\n-1 x1 -2 x2 >= -1;\n1 x1 2 x2 >= 2;\n-1 x1 -2 x2 >= 0;\n1 x1 2 x2 = 3;\n";
    assert_eq!(for_solvers(plan, "1"), written);
}

#[test]
fn variables_count_from_1_whatever_the_first_index() {
    let plan = "min: 1 x7 2 x9;\n* output x7 a\n* output x9 b(c,1)\n* 0\n1 x8 1 x7 >= 1;\n";
    let written = |first: u32| {
        let x = |number: u32| format!("x{}", number + 1 - first);
        let [seven, eight, nine] = [x(7), x(8), x(9)];
        format!("* #variable= {} #constraint= 1\nmin: 1 {} 2 {};\n* output {} a\n* output {} b(c,1)\n* 0\n1 {} 1 {} >= 1;\n", 10 - first, seven, nine, seven, nine, eight, seven)
    };
    for first in [0, 1, 7] {
        assert_eq!(for_solvers(plan, &first.to_string()), written(first));
    }
    assert_eq!(for_solvers("1 x0 >= 1;", "0"), "* #variable= 1 #constraint= 1\n1 x1 >= 1;\n");
}

#[test]
fn a_name_below_the_first_index_names_nothing_and_is_left_out() {
    let plan = "1 x7 >= 1;\n* output x3 below\n* output x9 behind\n* output x7\n* output x y\n* 0\n";
    assert_eq!(for_solvers(plan, "7"), "* #variable= 1 #constraint= 1\n1 x1 >= 1;\n* output x3 behind\n* output x7\n* output x y\n* 0\n");
}

#[test]
fn an_old_header_is_replaced_wherever_it_stands() {
    let rows = "min: 1 x2;\n1 x1 >= 1;\n";
    let written = format!("* #variable= 2 #constraint= 1\n{}", rows);
    for plan in ["* #variable= 36 #constraint= 19\n", "*#variable= 2 #constraint= 1\n", "* #variable= \n* #variable=\n"] {
        assert_eq!(for_solvers(&format!("{}{}", plan, rows), "1"), written, "{}", plan);
        assert_eq!(for_solvers(&format!("{}{}", rows, plan), "1"), written, "{}", plan);
    }
    assert_eq!(for_solvers(&written, "1"), written);
}

#[test]
fn an_objective_without_terms_is_left_out() {
    let written = "* #variable= 1 #constraint= 1\n1 x1 >= 1;\n* goal\n";
    assert_eq!(for_solvers("* goal\nmin:;\n1 x1 >= 1;", "1"), written);
    assert_eq!(for_solvers("* goal\n1 x1 >= 1;\nmin: \n", "1"), written);
    assert_eq!(for_solvers("min:;", "1"), "* #variable= 0 #constraint= 0\n");
    assert_eq!(for_solvers("", "1"), "* #variable= 0 #constraint= 0\n");
}

#[test]
fn an_offset_of_an_earlier_rewrite_is_a_comment_like_any_other() {
    let plan = format!("1 x1 >= 1;\n{}9\nmin: 1 x1;\n", OFFSET);
    assert_eq!(for_solvers(&plan, "1"), format!("* #variable= 1 #constraint= 1\nmin: 1 x1;\n1 x1 >= 1;\n{}9\n", OFFSET));
    let plan = format!("min: 4 ~x1;\n{}9\n", OFFSET);
    assert_eq!(for_solvers(&plan, "1"), format!("* #variable= 1 #constraint= 0\nmin: -4 x1;\n{}4\n{}9\n", OFFSET, OFFSET));
}

/// Sat4j has wrong answers where a variable stands in a row twice, toulbar2 where a weight is 0.
#[test]
fn a_variable_stands_once_in_a_row_and_with_a_weight() {
    let plan = "min: 3 x1 2 ~x1 0 x2 -5 x3;\n-17 x1 8 x1 4 x1 = 0;\n1 x5 1 ~x5 2 x6 -3 x6 <= 2;\n4 x5 1 x2 0 x1 0 ~x3 < 9;\n";
    let written = format!("* #variable= 6 #constraint= 3\nmin: 1 x1 -5 x3;\n{}2\n-5 x1 = 0;\n1 x6 >= -1;\n-4 x5 -1 x2 >= -8;\n", OFFSET);
    assert_eq!(for_solvers(plan, "1"), written);
}

/// The row would have no terms, and a solver would have no value for the variable.
#[test]
fn a_weight_of_0_stays_where_there_is_no_other() {
    let plan = "1 x1 -1 x1 >= 1;\n0 x2 0 x1 = 0;\n1 x1 0 x3 >= 1;\n";
    assert_eq!(for_solvers(plan, "1"), "* #variable= 3 #constraint= 3\n0 x1 >= 1;\n0 x2 = 0;\n1 x1 0 x3 >= 1;\n");
    assert_eq!(for_solvers("min: 1 x1 -1 x1;\n", "1"), "* #variable= 1 #constraint= 0\nmin: 0 x1;\n");
}

/// Behind a CR, clasp and Sat4j would read a statement.
#[test]
fn a_comment_has_no_end_of_a_line_within() {
    assert_eq!(for_solvers("1 x1 >= 1;\n* a\r1 x1 >= 2;\n* b\0c\td\r\n", "1"), "* #variable= 1 #constraint= 1\n1 x1 >= 1;\n* a 1 x1 >= 2;\n* b c\td\n");
}

#[test]
fn comments_are_kept_byte_for_byte() {
    let (status, written, _) = opb(&["rewrite", "-", "--for-solvers"], b"* \xff\xfe\n1 x1 >= 1;*\n");
    assert_eq!((status, written.as_slice()), (0, &b"* #variable= 1 #constraint= 1\n1 x1 >= 1;\n* \xff\xfe\n* \n"[..]));
}

#[test]
fn several_objectives_are_refused_with_their_lines() {
    assert_eq!(
        refused("1 x1 >= 1;\nmin: 1 x1;\n* c\nmin:; min: 1 x2;"),
        "standard input: refused: there are 3 objectives, at lines 2, 4, 4, and solvers take one at most\n  what to do: leave one of them, or make them one `min:` whose weights say how much each counts\n"
    );
    let many = refused(&"min: 1 x1;\n".repeat(1000));
    assert!(many.contains("1000 objectives, at lines 1, 2, 3") && many.contains(", 19, 20, ..., and"), "{}", many);
}

/// The objective goes before the row, and so does the header; the line told is the plan's.
#[test]
fn a_row_that_cannot_be_written_is_told_by_its_line_in_the_plan() {
    let trouble = refused("* c\n1 x1 >= 1;\n1 x1 <= -9223372036854775807;\nmin: 1 x1;\n");
    assert!(trouble.starts_with("standard input: refused (8) at line 3 (row 2, counted from 0): "), "{}", trouble);
    assert!(trouble.contains("\n  3 | 1 x1 <= -9223372036854775807;\n"), "{}", trouble);
    let trouble = refused("min: 1 x1;\n1 x1 1 ~x1 >= -9223372036854775808;\n");
    assert!(trouble.starts_with("standard input: refused (8) at line 2 (row 1, counted from 0): "), "{}", trouble);
}

/// Numbers of one fixed run.
struct Numbers(u64);

impl Numbers {
    /// From `least` to `most`.
    fn next(&mut self, least: i64, most: i64) -> i64 {
        self.0 = self.0.wrapping_mul(6364136223846793005).wrapping_add(1442695040888963407);
        least + ((self.0 >> 33) as i64) % (most - least + 1)
    }

    fn sum(&mut self, first: u32) -> String {
        let terms = (0..self.next(1, 5)).map(|_| format!("{} {}x{}", self.next(-9, 9), if self.next(0, 2) == 0 { "~" } else { "" }, self.next(0, 4) + i64::from(first)));
        terms.collect::<Vec<String>>().join(" ")
    }

    fn row(&mut self, first: u32) -> String {
        match self.next(0, 5) {
            0 => format!("* output x{} n{}\n", self.next(0, 9), self.next(0, 99)),
            _ => format!("{} {} {};\n", self.sum(first), ["<=", ">=", "<", ">", "="][self.next(0, 4) as usize], self.next(-20, 20)),
        }
    }

    fn plan(&mut self, first: u32) -> String {
        let mut rows: Vec<String> = (0..self.next(0, 6)).map(|_| self.row(first)).collect();
        if self.next(0, 3) > 0 {
            let place = self.next(0, rows.len() as i64) as usize;
            let sum = self.sum(first);
            rows.insert(place, format!("min: {};\n", sum));
        }
        rows.concat()
    }
}

/// The constraints' truths in their order, and the objective's value.
fn meaning(table: &Table, assignment: u64) -> (Vec<bool>, Option<i64>) {
    let (mut truths, mut goal) = (Vec::new(), None);
    for row in (0..table.kinds.len()).filter(|row| table.kind(*row) != Some(Kind::Comment)) {
        match table.evaluate(row, &[assignment]).unwrap() {
            Value::Constraint { holds, .. } => truths.push(holds),
            Value::Objective { value, .. } => goal = Some(value),
        }
    }
    (truths, goal)
}

/// The number in the line behind the objective's, where it is the writer's.
fn offset(written: &str) -> i64 {
    let mut lines = written.lines().skip_while(|line| !line.starts_with("min:"));
    lines.nth(1).and_then(|line| line.strip_prefix(OFFSET)).map_or(0, |number| number.parse().unwrap())
}

fn has_twice(table: &Table, row: usize) -> bool {
    let literals = table.literals.iter().skip(table.firsts[row]).take(table.counts[row]);
    table.kind(row) != Some(Kind::Comment) && literals.map(|literal| literal / 2).collect::<HashSet<u32>>().len() < table.counts[row]
}

#[test]
fn what_is_read_again_means_what_the_plan_means() {
    let mut numbers = Numbers(16);
    let mut offsets = 0;
    for case in 0..300 {
        let first = [0, 1, 7][case % 3];
        let plan = numbers.plan(first);
        let written = for_solvers(&plan, &first.to_string());
        let (before, after) = (opb::read(plan.as_bytes(), first).unwrap(), opb::read(written.as_bytes(), 1).unwrap());
        assert!(!written.contains('~') && !written.contains('<') && !(0..after.kinds.len()).any(|row| has_twice(&after, row)), "{}", written);
        offsets += (offset(&written) != 0) as usize;
        for assignment in 0..32 {
            let (truths, goal) = meaning(&after, assignment);
            assert_eq!((truths, goal.map(|value| value + offset(&written))), meaning(&before, assignment), "{}written as\n{}", plan, written);
        }
    }
    assert!(offsets > 50, "{}", offsets);
}
