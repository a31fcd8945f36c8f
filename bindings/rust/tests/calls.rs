//! Each call of the library: what it answers, each refusal with its place, and that a refused call changes nothing.
use opb::{count, position, read, Assignment, Kind, Literal, Literals, Position, Reason, Refusal, Row, Size, Table, Value};

const PLAN: &[u8] = b"* budget\n3 x1 -2 ~x2 >= 1;\nmin: 4 x3;\n1 x1 < 1\n";

fn refusal<T>(reason: Reason, place: u64) -> Result<T, Refusal> {
    Err(Refusal { reason, place })
}

/// A table of so many entries that no call would make.
fn marked(rows: usize, terms: usize) -> Table {
    Table { kinds: vec![170; rows], firsts: vec![170; rows], counts: vec![170; rows], bounds: vec![170; rows], weights: vec![170; terms], literals: vec![170; terms] }
}

fn one_row(kind: Kind, bound: i64, terms: &[(i64, u32)]) -> Table {
    let mut table = Table::default();
    table.push(kind, bound, terms);
    table
}

#[test]
fn a_file_is_read_into_columns_of_its_size() {
    let table = read(PLAN, 1).unwrap();
    assert_eq!(count(PLAN, 1), Ok(Size { rows: 4, terms: 4 }));
    assert_eq!(table.kinds, [Kind::Comment, Kind::AtLeast, Kind::Objective, Kind::AtMost].map(Kind::number));
    assert_eq!(table.firsts, [2, 0, 2, 3]);
    assert_eq!(table.counts, [6, 2, 1, 1]);
    assert_eq!(table.bounds, [0, 1, 0, 0]);
    assert_eq!(table.weights, [3, -2, 4, 1]);
    assert_eq!(table.literals, [0, 3, 4, 0]);
    assert_eq!(read(b"", 1), Ok(Table::default()));
}

#[test]
fn each_refusal_of_reading_has_its_place() {
    let files: [(&[u8], Reason, u64); 11] = [
        (b">= 1;", Reason::Statement, 0),
        (b"1 x1 >= 1;\n\n1 x2 >= 1;", Reason::Statement, 11),
        (b"1 x1 >= 1;\r\n\r\n", Reason::Statement, 12),
        (b"* a\n1 x1 >= ;", Reason::Number, 4),
        (b"1x1 >= 1;", Reason::Literal, 0),
        (b"1 x1 >= 1; 1 x0 >= 1;", Reason::Variable, 11),
        (b"\t1 x1073741825 >= 1;", Reason::Variable, 1),
        (b"1 x1;", Reason::Operator, 0),
        (b"1 x1 >= 1 2", Reason::Ending, 0),
        (b"1 x1 < -9223372036854775808;", Reason::Overflow, 0),
        (b"9223372036854775807 x1 1 x2 >= 0;", Reason::Overflow, 0),
    ];
    for (file, reason, place) in files {
        let mut table = marked(4, 4);
        assert_eq!(count(file, 1), refusal(reason, place));
        assert_eq!(read(file, 1), refusal(reason, place));
        assert_eq!(table.read_into(file, 1), refusal(reason, place));
        assert_eq!(table, marked(4, 4));
    }
}

#[test]
fn the_first_index_is_an_option() {
    assert_eq!(read(b"1 x0 >= 1;", 0).unwrap().literals, [0]);
    assert_eq!(read(b"1 ~x9 >= 1;", 7).unwrap().literals, [5]);
    assert_eq!(read(b"1 x1073741824 >= 1;", 1).unwrap().literals, [2_147_483_646]);
}

#[test]
fn reading_changes_only_what_it_counts() {
    let mut table = marked(6, 6);
    assert_eq!(table.read_into(PLAN, 1), Ok(Size { rows: 4, terms: 4 }));
    assert_eq!((&table.kinds[4..], &table.literals[4..]), (&[170, 170][..], &[170, 170][..]));
    let mut table = marked(3, 4);
    assert_eq!(table.read_into(PLAN, 1), refusal(Reason::Rows, 4));
    assert_eq!(table, marked(3, 4));
    let mut table = marked(4, 3);
    assert_eq!(table.read_into(PLAN, 1), refusal(Reason::Terms, 4));
    assert_eq!(table, marked(4, 3));
}

#[test]
fn normal_rows_have_no_negative_weight() {
    let normal = read(b"3 x1 -2 x2 >= -1;\n* a\nmin: -4 x1;", 1).unwrap().normal().unwrap();
    assert_eq!(normal.weights, [3, 2, 4]);
    assert_eq!(normal.literals, [0, 3, 1]);
    assert_eq!(normal.bounds, [1, 0, -4]);
    assert_eq!(normal.firsts, [0, 20, 2]);
}

#[test]
fn normal_tables_have_the_room_they_need() {
    let mut shared = one_row(Kind::AtLeast, 1, &[(-1, 0), (2, 2)]);
    shared.push(Kind::AtMost, 1, &[]);
    shared.firsts[1] = 0;
    shared.counts[1] = 2;
    assert_eq!(shared.normal().unwrap().weights, [1, 2, 1, 2]);
    let mut unused = one_row(Kind::AtLeast, 1, &[(-1, 0), (2, 2)]);
    unused.counts[0] = 1;
    assert_eq!(unused.normal().unwrap().weights, [1]);
}

#[test]
fn each_refusal_of_normalising_has_its_place() {
    let cases = [(one_row(Kind::Clause, 1, &[(1, 0)]), Reason::Row), (one_row(Kind::AtLeast, 1, &[(1, u32::MAX)]), Reason::Row), (one_row(Kind::AtLeast, i64::MAX, &[(-1, 0)]), Reason::Overflow)];
    for (table, reason) in cases {
        let mut normal = marked(1, 1);
        assert_eq!(table.normal(), refusal(reason, 0));
        assert_eq!(table.normal_into(&mut normal), refusal(reason, 0));
        assert_eq!(normal, marked(1, 1));
    }
    let table = one_row(Kind::AtLeast, 0, &[(-1, 0)]);
    assert_eq!(table.normal_into(&mut marked(0, 1)), refusal(Reason::Rows, 1));
    assert_eq!(table.normal_into(&mut marked(1, 0)), refusal(Reason::Terms, 1));
}

#[test]
fn a_row_is_evaluated() {
    let table = read(PLAN, 1).unwrap();
    assert_eq!(table.evaluate(1, &[5]), Ok(Value::Constraint { sum: 1, holds: true, ones: 2 }));
    assert_eq!(table.evaluate(3, &[5]), Ok(Value::Constraint { sum: 1, holds: false, ones: 2 }));
    assert_eq!(table.evaluate(2, &[5, u64::MAX]), Ok(Value::Objective { value: 4, ones: 66 }));
    assert_eq!(table.evaluate(0, &[5]), refusal(Reason::Row, 0));
    assert_eq!(table.evaluate(4, &[5]), refusal(Reason::Row, 4));
    assert_eq!(table.evaluate(1, &[]), refusal(Reason::Assignment, 1));
    assert_eq!(one_row(Kind::Objective, i64::MAX, &[(1, 0)]).evaluate(0, &[1]), refusal(Reason::Overflow, 0));
}

/// What these blocks say, one after the other.
fn assignment(blocks: &[&[u8]]) -> Assignment {
    let mut assignment = Assignment::new();
    for block in blocks {
        assignment.extend(block).unwrap();
    }
    assignment
}

/// `1` true, `0` false, `?` not known, for each variable below the length.
fn told(assignment: &Assignment) -> String {
    (0..assignment.len()).map(|index| assignment.value(index).map_or('?', |value| if value { '1' } else { '0' })).collect()
}

#[test]
fn value_lines_have_three_forms() {
    let cases: [(&[&[u8]], &str); 12] = [
        (&[b"v -1 +2 4 0"], "01?1"),
        (&[b"v x1 ~x2\nv -x4 x1"], "10?0"),
        (&[b"v 101"], "101"),
        (&[b"v 101", b"v 1\n", b"v 0"], "1011"),
        (&[b"v x5", b"v 01"], "????101"),
        (&[b"v 1"], "1"),
        (&[b"v 10"], "10"),
        (&[b"v 0"], ""),
        (&[b"v -0 00\nv"], ""),
        (&[b"v 1\nv 10"], "1????????1"),
        (&[b"v x2\r\nv\t-x1\r\n"], "01"),
        (&[b"v1 -2"], "10"),
    ];
    for (blocks, values) in cases {
        assert_eq!(told(&assignment(blocks)), values, "{:?}", blocks);
    }
    assert!(Assignment::new().is_empty() && Assignment::new().value(0).is_none());
}

#[test]
fn each_refusal_of_value_lines_has_its_place_and_changes_nothing() {
    let before = assignment(&[b"v -1 2"]);
    let blocks: [(&[u8], Reason, u64); 15] = [
        (b"", Reason::Line, 0),
        (b"\n", Reason::Line, 0),
        (b"v 3\n\nv 4", Reason::Line, 4),
        (b"v 3 4\nc 5", Reason::Line, 6),
        (b"v 1\nv x2", Reason::Token, 2),
        (b"v x1abc", Reason::Token, 2),
        (b"v 3 - 4", Reason::Token, 4),
        (b"v 3 4a\nc", Reason::Token, 4),
        (b"v x3 x0 -x3", Reason::Variable, 5),
        (b"v x1073741825", Reason::Variable, 2),
        (b"v 3 -99999999999999999999", Reason::Variable, 4),
        (b"v 3 -3", Reason::Conflict, 4),
        (b"v x3 ~x3", Reason::Conflict, 5),
        (b"v x3\nv x1", Reason::Conflict, 7),
        (b"v x999 -x2", Reason::Conflict, 7),
    ];
    for (block, reason, place) in blocks {
        let mut after = before.clone();
        assert_eq!(after.extend(block), refusal(reason, place), "{:?}", block);
        assert_eq!(after, before);
    }
}

#[test]
fn an_assignment_grows_as_value_lines_need() {
    let mut assignment = assignment(&[b"v 1 -64"]);
    assert_eq!((assignment.values(), assignment.known()), (&[1][..], &[1 | 1 << 63][..]));
    assignment.extend(b"v -65 1000").unwrap();
    assert_eq!((assignment.len(), assignment.values().len(), assignment.known().len()), (1000, 16, 16));
    assert_eq!([0, 1, 63, 64, 999, 1000, usize::MAX].map(|index| assignment.value(index)), [Some(true), None, Some(false), Some(false), Some(true), None, None]);
    assert_eq!((assignment.values()[15], assignment.known()[1]), (1 << 39, 1));
}

#[test]
fn a_row_is_evaluated_where_its_variables_are_known() {
    let table = read(PLAN, 1).unwrap();
    let known = assignment(&[b"v x1 -x2 x70"]);
    assert_eq!(table.evaluate_known(1, &known), Ok(Value::Constraint { sum: 1, holds: true, ones: 2 }));
    assert_eq!(table.evaluate_known(3, &known), Ok(Value::Constraint { sum: 1, holds: false, ones: 2 }));
    assert_eq!(table.evaluate_known(2, &known), refusal(Reason::Assignment, 2));
    assert_eq!(table.evaluate_known(2, &assignment(&[b"v 001"])), Ok(Value::Objective { value: 4, ones: 1 }));
    assert_eq!(table.evaluate_known(1, &Assignment::new()), refusal(Reason::Assignment, 1));
    assert_eq!(table.evaluate_known(0, &known), refusal(Reason::Row, 0));
}

#[test]
fn a_row_is_judged_without_the_ones() {
    let table = read(PLAN, 1).unwrap();
    let known = assignment(&[b"v x1 -x2 x70"]);
    assert_eq!(table.judge(1, &known), Ok(Value::Constraint { sum: 1, holds: true, ones: 0 }));
    assert_eq!(table.judge(3, &known), Ok(Value::Constraint { sum: 1, holds: false, ones: 0 }));
    assert_eq!(table.judge(2, &known), refusal(Reason::Assignment, 2));
    assert_eq!(table.judge(2, &assignment(&[b"v 001"])), Ok(Value::Objective { value: 4, ones: 0 }));
    assert_eq!(table.judge(1, &Assignment::new()), refusal(Reason::Assignment, 1));
    assert_eq!(table.judge(0, &known), refusal(Reason::Row, 0));
    assert_eq!(table.judge(4, &known), refusal(Reason::Row, 4));
}

#[test]
fn rows_are_written_in_both_modes() {
    let file = b"* hall\n3 x1 2 x2 <= 4;\nmin: 4 ~x1 1 x3;\n1 x1 = 1;";
    let table = read(file, 1).unwrap();
    assert_eq!(table.write(file, 1, Literals::Negated).unwrap(), b"* hall\n3 ~x1 2 ~x2 >= 1;\nmin: 4 ~x1 1 x3;\n1 x1 = 1;\n");
    assert_eq!(table.write(file, 1, Literals::Plain).unwrap(), b"* hall\n-3 x1 -2 x2 >= -4;\nmin: -4 x1 1 x3;\n* objective offset for previous objective: 4\n1 x1 = 1;\n");
    let clause = one_row(Kind::Clause, 0, &[(0, 0), (0, 3)]);
    assert_eq!(clause.write(b"", 1, Literals::Negated).unwrap(), b"1 x1 1 ~x2 >= 1;\n");
    assert_eq!(clause.write(b"", 1, Literals::Plain).unwrap(), b"1 x1 -1 x2 >= 0;\n");
    assert_eq!(one_row(Kind::CardinalityAtMost, 1, &[(0, 0), (0, 2)]).write(b"", 0, Literals::Negated).unwrap(), b"1 ~x0 1 ~x1 >= 1;\n");
    assert_eq!(Table::default().write(b"", 1, Literals::Plain), Ok(Vec::new()));
}

#[test]
fn what_is_normalised_and_written_means_the_same() {
    let file = b"3 x1 -2 ~x2 >= 1;\n-1 x1 -4 x3 <= -2;\n2 ~x1 -1 x2 1 x3 = 1;\n-5 ~x2 3 x2 > -4;\nmin: -4 x1 2 ~x3;";
    let table = read(file, 1).unwrap();
    let normal = table.normal().unwrap();
    for literals in [Literals::Negated, Literals::Plain] {
        let again = read(&normal.write(file, 1, literals).unwrap(), 1).unwrap();
        for words in (0..8).map(|word| [word]) {
            assert!((0..4).all(|row| holds(&table, row, &words) == holds(&again, row, &words)), "{:?}", words);
            assert_eq!(table.evaluate(4, &words), normal.evaluate(4, &words));
        }
    }
}

fn holds(table: &Table, row: usize, words: &[u64]) -> bool {
    matches!(table.evaluate(row, words), Ok(Value::Constraint { holds: true, .. }))
}

#[test]
fn each_refusal_of_writing_has_its_place() {
    let cases = [
        (one_row(Kind::AtLeast, 0, &[(-1, 0)]), Reason::Row),
        (one_row(Kind::AtLeast, 0, &[]), Reason::Empty),
        (one_row(Kind::AtLeast, 0, &[(1, u32::MAX - 1)]), Reason::Row),
        (one_row(Kind::AtMost, i64::MIN, &[(1, 0)]), Reason::Overflow),
        (Table { counts: vec![3], ..one_row(Kind::Comment, 0, &[]) }, Reason::Comment),
        (Table { counts: vec![4], ..one_row(Kind::Comment, 0, &[]) }, Reason::Row),
    ];
    for (table, reason) in cases {
        let mut out = [170; 64];
        assert_eq!(table.write(b"a\nb", 1, Literals::Negated), refusal(reason, 0));
        assert_eq!(table.write_into(b"a\nb", 1, Literals::Negated, &mut out), refusal(reason, 0));
        assert_eq!(out, [170; 64]);
    }
    let table = one_row(Kind::AtLeast, 0, &[(1, 2)]);
    assert_eq!(table.write(b"", u32::MAX, Literals::Negated), refusal(Reason::Variable, 0));
    assert_eq!(table.write_into(b"", 1, Literals::Negated, &mut [0; 10]), refusal(Reason::Output, 11));
    assert_eq!(table.write_into(b"", 1, Literals::Negated, &mut [0; 12]), Ok(11));
}

#[test]
fn rows_are_listed() {
    let table = read(PLAN, 1).unwrap();
    let lines = b"opb\t4\t4\t1\nc\t6\nge\t1\t3\tx1\t-2\t~x2\nmin\t0\t4\tx3\nle\t0\t1\tx1\n";
    assert_eq!(table.list(1).unwrap(), lines);
    assert_eq!(table.list_into(1, &mut [0; 9]), refusal(Reason::Output, lines.len() as u64));
    assert_eq!(one_row(Kind::Clause, 1, &[]).list(1), refusal(Reason::Row, 0));
}

#[test]
fn no_memory_is_a_refusal() {
    assert_eq!(Table::of_size(Size { rows: usize::MAX, terms: 0 }), refusal(Reason::Rows, u64::MAX));
    assert_eq!(Table::of_size(Size { rows: 0, terms: usize::MAX }), refusal(Reason::Terms, u64::MAX));
}

#[test]
fn refusals_say_number_place_meaning_and_what_to_do() {
    let blank_line = Refusal { reason: Reason::Statement, place: 11 };
    assert_eq!(blank_line.to_string(), "refused (2) at byte 11: no statement begins here (a blank line is none); remove a blank line, or begin with `*`, `min:`, a digit, `+` or `-`");
    for number in (1..=15).chain(20..=22) {
        let reason = Reason::of(number).unwrap();
        assert_eq!(reason.number(), number);
        assert!(Refusal { reason, place: 7 }.to_string().starts_with(&format!("refused ({}) ", number)));
    }
    assert_eq!([0, 16, 19, 23].map(Reason::of), [None; 4]);
}

#[test]
fn kinds_have_the_numbers_of_the_header() {
    let kinds = (0..=8).map(|number| Kind::of(number).unwrap());
    assert!(kinds.enumerate().all(|(number, kind)| kind.number() as usize == number && u8::from(kind) as usize == number));
    assert_eq!([9, 170, 255].map(Kind::of), [None; 3]);
    assert_eq!((0..=8).filter(|number| Kind::of(*number).unwrap().is_constraint()).collect::<Vec<_>>(), [1, 2, 3, 5, 6, 7, 8]);
}

/// A row in words: kind, bound, and weight, sign and number of each term.
fn told_row(row: Row) -> (Option<Kind>, i64, Vec<(i64, bool, u64)>) {
    (row.kind, row.bound, row.terms.map(|term| (term.weight, term.literal.is_negated(), term.literal.number(1))).collect())
}

#[test]
fn rows_come_in_order_from_both_ends() {
    let table = read(PLAN, 1).unwrap();
    let rows: Vec<_> = table.rows().map(told_row).collect();
    assert_eq!(rows[0], (Some(Kind::Comment), 0, vec![]));
    assert_eq!(rows[1], (Some(Kind::AtLeast), 1, vec![(3, false, 1), (-2, true, 2)]));
    assert_eq!(rows[2..], [(Some(Kind::Objective), 0, vec![(4, false, 3)]), (Some(Kind::AtMost), 0, vec![(1, false, 1)])]);
    assert_eq!(table.rows().map(|row| row.index).collect::<Vec<_>>(), [0, 1, 2, 3]);
    assert_eq!(table.rows().rev().map(|row| row.index).collect::<Vec<_>>(), [3, 2, 1, 0]);
    assert_eq!((table.rows().len(), table.rows().skip(3).len(), (&table).into_iter().count()), (4, 1, 4));
    assert_eq!(table.row(1).unwrap().terms.rev().map(<(i64, u32)>::from).collect::<Vec<_>>(), [(-2, 3), (3, 0)]);
    assert_eq!(table.row(1).unwrap().terms.len(), 2);
    assert_eq!(table.rows().filter(Row::is_constraint).count(), 2);
    assert!(table.row(4).is_none() && Table::default().rows().next().is_none());
}

#[test]
fn comment_rows_have_their_text() {
    let table = read(PLAN, 1).unwrap();
    let row = table.row(0).unwrap();
    assert_eq!((row.text.clone(), row.comment(PLAN)), (Some(2..8), Some(&b"budget"[..])));
    assert_eq!((row.comment(&PLAN[..8]), row.comment(&PLAN[..7])), (Some(&b"budget"[..]), None));
    assert!(table.rows().skip(1).all(|row| row.text.is_none() && row.comment(PLAN).is_none()));
}

#[test]
fn clauses_and_cardinality_rows_have_weights_of_one() {
    let mut table = one_row(Kind::Clause, 7, &[(5, 0), (-5, 3)]);
    table.push(Kind::CardinalityEqual, 2, &[(0, 0), (9, 2)]);
    assert_eq!(told_row(table.row(0).unwrap()), (Some(Kind::Clause), 1, vec![(1, false, 1), (1, true, 2)]));
    assert_eq!(told_row(table.row(1).unwrap()), (Some(Kind::CardinalityEqual), 2, vec![(1, false, 1), (1, false, 2)]));
}

#[test]
fn rows_that_no_call_would_make_have_no_kind_and_no_terms() {
    let good = one_row(Kind::AtLeast, 1, &[(1, 0), (2, 2)]);
    let bad = [
        Table { kinds: vec![9], ..good.clone() },
        Table { counts: vec![3], ..good.clone() },
        Table { firsts: vec![1], ..good.clone() },
        Table { firsts: vec![3], counts: vec![0], ..good.clone() },
        Table { firsts: vec![usize::MAX], ..good.clone() },
        Table { counts: vec![usize::MAX], firsts: vec![1], ..good.clone() },
        Table { weights: vec![1], ..good.clone() },
        Table { literals: vec![0], ..good.clone() },
        Table { kinds: vec![0], counts: vec![usize::MAX], firsts: vec![1], ..good.clone() },
    ];
    for table in bad {
        let row = table.row(0).unwrap();
        assert_eq!((row.kind, row.terms.len(), row.text, table.rows().len()), (None, 0, None, 1), "{:?}", table);
        assert_eq!(table.evaluate(0, &[0]), refusal(Reason::Row, 0), "{:?}", table);
    }
    assert_eq!(Table { bounds: vec![], ..good.clone() }.rows().len(), 0);
    assert_eq!(marked(3, 3).rows().filter(|row| row.kind.is_none()).count(), 3);
}

#[test]
fn literals_have_an_index_and_a_sign() {
    for code in [0, 1, 2, 3, 2_147_483_646, 2_147_483_647] {
        let literal = Literal::of(code);
        assert_eq!(Literal::new(literal.index(), literal.is_negated()), Some(literal));
        assert_eq!((literal.code(), literal.number(7)), (code, u64::from(code / 2) + 7));
    }
    assert_eq!(Literal::new(opb::INDEX_LIMIT + 1, false), None);
    assert_eq!(Literal::of(u32::MAX).number(u32::MAX), 2_147_483_647 + 4_294_967_295);
}

#[test]
fn a_place_has_a_line_and_a_column() {
    let file = b"a\n\nbcd\r\ne";
    let lines = (0..=9).map(|place| position(file, place));
    let expected = [(1, 1), (1, 2), (2, 1), (3, 1), (3, 2), (3, 3), (3, 4), (3, 5), (4, 1), (4, 2)];
    assert!(lines.eq(expected.map(|(line, column)| Position { line, column })));
    assert_eq!([10, u64::MAX].map(|place| position(file, place)), [Position { line: 4, column: 2 }; 2]);
    assert_eq!((position(b"", 0), position(b"a\n", 2)), (Position { line: 1, column: 1 }, Position { line: 2, column: 1 }));
}

#[test]
fn comments_are_pushed_as_ranges_of_a_text() {
    let mut table = one_row(Kind::AtLeast, 1, &[(1, 0)]);
    table.push_comment(1..3);
    assert_eq!(table.write(b"abcd", 1, Literals::Plain).unwrap(), b"1 x1 >= 1;\n* bc\n");
}

/// The number that the header gives to a name.
fn of_header(name: &str) -> Option<u64> {
    let header = include_str!("../../../include/opb.h");
    header.lines().find_map(|line| line.strip_prefix("#define ")?.strip_prefix(name)?.strip_prefix(' ')?.parse().ok())
}

/// A name of the header for one of an enum: `AtLeast` is `OPB_AT_LEAST`.
fn name(prefix: &str, variant: &str) -> String {
    let words = variant.chars().map(|letter| if letter.is_uppercase() { format!("_{}", letter) } else { letter.to_uppercase().to_string() });
    prefix.to_string() + &words.collect::<String>()
}

#[test]
fn names_and_numbers_are_those_of_the_header() {
    for kind in (0..=8).filter_map(Kind::of) {
        assert_eq!(of_header(&name("OPB", &format!("{:?}", kind))), Some(u64::from(kind.number())), "{:?}", kind);
    }
    for reason in (0..=u8::MAX).filter_map(Reason::of) {
        assert_eq!(of_header(&name("OPB_REFUSED", &format!("{:?}", reason))), Some(u64::from(reason.number())), "{:?}", reason);
    }
    assert_eq!((of_header("OPB_FILE_LIMIT"), of_header("OPB_INDEX_LIMIT")), (Some(opb::FILE_LIMIT as u64), Some(u64::from(opb::INDEX_LIMIT))));
    let version = ["OPB_VERSION_MAJOR", "OPB_VERSION_MINOR", "OPB_VERSION_PATCH"].map(|part| of_header(part).unwrap().to_string());
    assert_eq!(version.join("."), opb::VERSION);
}
