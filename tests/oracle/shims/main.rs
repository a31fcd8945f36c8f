//! What the Rust makes of a file on standard input: `oracle [FIRST INDEX] < FILE`; or of a block of value lines: `oracle values < FILE`. For a person who wants to look at one input; the
//! differential run calls the library.

use rustsat::{Known, Reading};
use std::io::Read;

fn main() {
    rustsat::quiet();
    let word = std::env::args().nth(1).unwrap_or("1".into());
    let mut file = Vec::new();
    std::io::stdin().read_to_end(&mut file).expect("standard input");
    if word == "values" {
        return println!("{:?}", rustsat::extend(&Known::default(), std::str::from_utf8(&file).expect("UTF-8")));
    }
    match rustsat::read(&file, word.parse().expect("a first index")) {
        Reading::Rows(rows, left) => {
            rows.iter().for_each(|row| println!("{row:?}"));
            println!("left over: {left:?}");
        }
        other => println!("{other:?}"),
    }
}
