//! Times rustsat: rustsat-bench WHAT FILE, WHAT one of read, write, write-plain, values (FILE is a block of value lines). Prints what bench/measure.c prints, and makes the call once before the clock starts, as it does. The rows written are those of the file without negative weights.

use rustsat::types::Assignment;
use rustsat::{kind, Lines, Reading, Row};
use std::time::Instant;

fn peak() -> u64 {
    let status = std::fs::read_to_string("/proc/self/status").unwrap_or_default();
    let line = status.lines().find(|line| line.starts_with("VmHWM:")).unwrap_or("");
    line.split_whitespace().nth(1).and_then(|word| word.parse().ok()).unwrap_or(0)
}

fn told(began: Instant, bytes: usize) {
    println!("{:.9} {} {}", began.elapsed().as_secs_f64(), bytes, peak());
}

/// A negative weight w on a literal is -w on the opposite one; a bound grows by -w
fn normal(mut row: Row) -> Row {
    for term in row.terms.iter_mut().filter(|term| term.0 < 0) {
        *term = (-term.0, term.1 ^ 1);
        row.bound += if row.kind == kind::OBJECTIVE { -term.0 } else { term.0 };
    }
    if row.kind == kind::COMMENT {
        row.text = row.text.split_off(2.min(row.text.len()));
        row.text.retain(|&byte| byte != b'\n');
    }
    row
}

fn main() {
    let words: Vec<String> = std::env::args().collect();
    let file = std::fs::read(&words[2]).expect("a file");
    if words[1] == "read" {
        let before = rustsat::count(&file, 1).expect("the file is read");
        let began = Instant::now();
        let statements = rustsat::count(&file, 1).expect("the file is read");
        told(began, file.len());
        assert!(statements == before);
        return;
    }
    if words[1] == "values" {
        let block = std::str::from_utf8(&file).expect("text");
        let before = Assignment::from_vline(block).expect("the block is read").len();
        let began = Instant::now();
        let length = Assignment::from_vline(block).expect("the block is read").len();
        told(began, file.len());
        assert!(length == before);
        return;
    }
    let Reading::Rows(rows, left) = rustsat::read(&file, 1) else { panic!("the file is read") };
    assert!(left.trim().is_empty());
    let rows: Vec<Row> = rows.into_iter().map(normal).collect();
    let mut out = Vec::with_capacity(2 * file.len() + 64);
    Lines::of(&rows).write(&mut out, 1, words[1] == "write-plain");
    out.clear();
    let lines = Lines::of(&rows);
    let began = Instant::now();
    lines.write(&mut out, 1, words[1] == "write-plain");
    told(began, out.len());
}
