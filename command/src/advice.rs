//! What to do about a refusal, by what stands there.
use crate::lines::Line;
use crate::statement::{self, blanks, is_blank, number, operator, Stop, Wanted};
use opb::{Reason, Refusal};

/// The greatest variable index, and so the greatest variable number that no first index makes too large.
const GREATEST: u64 = 1_073_741_823;

/// A beginning, and what to do about it.
type Rule = (&'static [u8], &'static str);

const CR_ALONE: &str = "the lines end in CR alone, as on old Macs: `tr '\\r' '\\n'` makes line feeds of them";
const UTF_16: &str = "the file is in UTF-16: save it as UTF-8 without a byte order mark, or let `iconv -f UTF-16 -t UTF-8` do that";
const COMMENT: &str = "begin a comment with `*`";
const WEIGHT: &str = "write a weight before each variable, such as `1 x1`; products of variables are not read";
const TIMES: &str = "write `3 x1`, with a blank and no `*` between weight and variable";
const DECIMAL: &str = "write whole numbers: multiply the weights and the bound of the row until they are";
const EXPONENT: &str = "write the number out, with digits alone";
const NOT_EQUAL: &str = "no row says \"not equal\": write `>=` or `<=` where that is meant, or two rows with a helping variable";
const ONE_LINE: &str = "write the whole statement on one line, such as `1 x1 2 x2 >= 1;`";
const LEFT: &str = "write all variables left of the operator and one number right of it";
const NAME: &str = "call a variable `x` with a number right behind it, such as `x1`; what it stands for can be said by a comment, `* output x1 NAME`";
const TILDE: &str = "write a negated variable as `~x1`";
const OUTPUT: &str = "this looks like a solver's output: `opb evaluate PLAN OUTPUT` reads that";
const BEFORE_COMMENT: &str = "end the statement with `;`, and begin the comment with `*`";

const NO_BREAK: &str = "a no-break space stands there: write a plain one";
const MINUS: &str = "a minus sign of another font stands there: write `-`";

/// Files that are no text; nothing more need be said of them.
const NO_TEXT: [Rule; 7] = [
    (b"\x1f\x8b", "the file is packed by gzip: unpack it, for instance by `zcat`, and read it as a file or from standard input (`-`)"),
    (b"\xfd7zXZ\0", "the file is packed by xz: unpack it, for instance by `xzcat`, and read it as a file or from standard input (`-`)"),
    (b"\x28\xb5\x2f\xfd", "the file is packed by zstd: unpack it, for instance by `zstdcat`, and read it as a file or from standard input (`-`)"),
    (b"BZh", "the file is packed by bzip2: unpack it, for instance by `bzcat`, and read it as a file or from standard input (`-`)"),
    (b"PK\x03\x04", "the file is a zip archive: unpack it, for instance by `unzip`"),
    (b"\xff\xfe", UTF_16),
    (b"\xfe\xff", UTF_16),
];

/// What no statement begins with; in small letters.
const BEGINNINGS: [Rule; 25] = [
    (b"\xef\xbb\xbf", "the file begins with a byte order mark: save it as UTF-8 without one, or leave its first three bytes out by `tail -c +4`"),
    (b"max", "write `min:` with every weight's sign turned; the least value is then the greatest with its sign turned"),
    (b"minimi", "write `min:`, which is all that an objective begins with"),
    (b"min", "write `min:` in small letters, with the colon right behind it"),
    (b"#", COMMENT),
    (b"//", COMMENT),
    (b"%", COMMENT),
    (b"c ", COMMENT),
    (b"p cnf", "this looks like a DIMACS file: write each clause as a row, such as `1 x1 1 ~x2 >= 1;`"),
    (b"soft:", "soft constraints (WBO files) are not read: give each a helping variable with its cost in the objective"),
    (b"s ", OUTPUT),
    (b"v ", OUTPUT),
    (b"o ", OUTPUT),
    (b"x", WEIGHT),
    (b"~", WEIGHT),
    (b"<", ONE_LINE),
    (b">", ONE_LINE),
    (b"=", ONE_LINE),
    (b"\xe2\x89", ONE_LINE),
    (b"!=", ONE_LINE),
    (b";", "remove the `;` that ends nothing"),
    (b"\r", CR_ALONE),
    (b"\0", UTF_16),
    (b"\xc2\xa0", NO_BREAK),
    (b"\xe2\x88\x92", MINUS),
];

/// Right behind a weight, where a blank should stand.
const NO_BLANK: [Rule; 8] = [(b"*", TIMES), (b".", DECIMAL), (b",", DECIMAL), (b"e", EXPONENT), (b"E", EXPONENT), (b"\r", CR_ALONE), (b"\0", UTF_16), (b"\xc2\xa0", NO_BREAK)];

/// Behind a weight and a blank, where a variable should stand.
const NO_VARIABLE: [Rule; 14] = [
    (b"*", TIMES),
    (b"X", "write `x` in small letters"),
    (b"!", TILDE),
    (b"\xc2\xac", TILDE),
    (b"not ", TILDE),
    (b"~x", NAME),
    (b"~", "write `~x1`, with nothing between"),
    (b"-x", NAME),
    (b"_", NAME),
    (b"<", LEFT),
    (b">", LEFT),
    (b"=", LEFT),
    (b"\r", CR_ALONE),
    (b";", "write a variable behind each weight, such as `1 x1 >= 1;`"),
];

/// Behind a sum, where an operator should stand.
const NO_OPERATOR: [Rule; 15] = [
    (b"!", NOT_EQUAL),
    (b"\xe2\x89\xa0", NOT_EQUAL),
    (b"\xe2\x89\xa5", "write `>=`"),
    (b"\xe2\x89\xa4", "write `<=`"),
    (b"x", WEIGHT),
    (b"~", WEIGHT),
    (b"*", "write the weight before its variable, such as `3 x1`; products of variables are not read"),
    (b"_", NAME),
    (b"[", NAME),
    (b"\r", CR_ALONE),
    (b";", ONE_LINE),
    (b"\0", UTF_16),
    (b",", "write the terms one behind the other, with blanks between and no commas"),
    (b"\xc2\xa0", NO_BREAK),
    (b"\xe2\x88\x92", MINUS),
];

/// Behind an operator, where a number should stand, with the operator's last byte before it.
const NO_BOUND: [Rule; 10] = [
    (b"==", "write `=`, not `==`"),
    (b"=>", "write `>=`, not `=>`"),
    (b"=<", "write `<=`, not `=<`"),
    (b"<>", NOT_EQUAL),
    (b"=x", LEFT),
    (b"<x", LEFT),
    (b">x", LEFT),
    (b"=~", LEFT),
    (b"<~", LEFT),
    (b">~", LEFT),
];

/// Where a statement should end.
const NO_ENDING: [Rule; 13] = [
    (b"\r", CR_ALONE),
    (b"*", BEFORE_COMMENT),
    (b"#", BEFORE_COMMENT),
    (b"//", BEFORE_COMMENT),
    (b".", DECIMAL),
    (b",", DECIMAL),
    (b"e", EXPONENT),
    (b"E", EXPONENT),
    (b"x", LEFT),
    (b"~", LEFT),
    (b"<", "write one operator in each row: a sum between two bounds is two rows"),
    (b">", "write one operator in each row: a sum between two bounds is two rows"),
    (b"\0", UTF_16),
];

/// Where an objective should end.
const NO_OBJECTIVE: [Rule; 6] = [
    (b"x", WEIGHT),
    (b"~", WEIGHT),
    (b"<", "an objective has no bound: leave the bound out, or `min:`"),
    (b">", "an objective has no bound: leave the bound out, or `min:`"),
    (b"=", "an objective has no bound: leave the bound out, or `min:`"),
    (b"*", BEFORE_COMMENT),
];

fn by_beginning(rules: &[Rule], text: &[u8]) -> Option<String> {
    rules.iter().find(|rule| text.starts_with(rule.0)).map(|rule| rule.1.to_string())
}

/// What to do about a file that is no text.
pub fn no_text(file: &[u8]) -> Option<String> {
    let between = matches!(file, [0, 1..=127, ..] | [1..=127, 0, ..]);
    by_beginning(&NO_TEXT, file).or_else(|| if between { Some(UTF_16.to_string()) } else { None })
}

/// How many blank lines, each with its ending, the text begins with, and their bytes.
pub fn blank_lines(text: &[u8]) -> (usize, usize) {
    let lines = text.split_inclusive(|byte| *byte == b'\n').take_while(|line| matches!(line[blanks(line)..], [b'\n'] | [b'\r', b'\n']));
    lines.fold((0, 0), |(count, bytes), line| (count + 1, bytes + line.len()))
}

/// What a planner can do about the refusal of a file, of which this is the line.
pub fn of(file: &[u8], line: &Line, refusal: &Refusal) -> String {
    let text = line.bytes.get((refusal.place as usize).saturating_sub(line.start)..).unwrap_or_default();
    let text = text.strip_suffix(b"\r\n").or_else(|| text.strip_suffix(b"\n")).unwrap_or(text);
    let special = match refusal.reason {
        _ if line.start == 0 && no_text(file).is_some() => no_text(file),
        Reason::Statement => blank(file, line).or_else(|| beginning(text)),
        Reason::Variable => low_variable(text),
        reason => statement::stop(text).filter(|stop| stop.wanted.reason() == reason).and_then(|stop| at_stop(text, stop)),
    };
    special.unwrap_or_else(|| refusal.reason.advice().to_string())
}

fn blank(file: &[u8], line: &Line) -> Option<String> {
    let all = "all blank lines go by `sed '/^[[:space:]]*$/d'`";
    match blank_lines(&file[line.start..]).0 {
        0 => None,
        1 => Some(format!("remove the blank line; {}", all)),
        count => Some(format!("lines {} to {} are blank: remove them; {}", line.number, line.number + count - 1, all)),
    }
}

fn beginning(text: &[u8]) -> Option<String> {
    let small = text[..text.len().min(8)].to_ascii_lowercase();
    by_beginning(&BEGINNINGS, &small).or_else(|| label(text))
}

/// `name: 1 x1 >= 1`, as other formats have it.
fn label(text: &[u8]) -> Option<String> {
    let word = text.iter().take_while(|byte| byte.is_ascii_alphanumeric() || **byte == b'_').count();
    if word == 0 || text.get(word) != Some(&b':') {
        return None;
    }
    Some("a row has no name: write it as a comment, which begins with `*`, on a line before the row".to_string())
}

/// A number that no first index makes too large is refused because it is below the first index.
fn low_variable(text: &[u8]) -> Option<String> {
    // value lines have variables too, and no first index
    if statement::stop(text).is_some() {
        return None;
    }
    let numbers = statement::variables(text);
    if numbers.iter().any(|number| *number > GREATEST) {
        return None;
    }
    let least = numbers.iter().min()?;
    Some(format!("where x{0} is the plan's first variable, say so by `--first {0}`; else mend the number", least))
}

fn at_stop(text: &[u8], stop: Stop) -> Option<String> {
    let rest = &text[stop.at..];
    match stop.wanted {
        Wanted::Weight => sign(rest, "weight").or_else(|| too_large(rest)),
        Wanted::Blank => by_beginning(&NO_BLANK, rest),
        Wanted::Variable => no_variable(rest),
        Wanted::Operator if rest.is_empty() => Some(ONE_LINE.to_string()),
        Wanted::Operator => by_beginning(&NO_OPERATOR, rest),
        Wanted::Bound => no_bound(text, stop.at),
        Wanted::Ending if text.starts_with(b"min:") => by_beginning(&NO_OBJECTIVE, rest).or_else(|| by_beginning(&NO_ENDING, rest)),
        Wanted::Ending => by_beginning(&NO_ENDING, rest).or_else(|| right_side(rest)),
    }
}

/// A sign with a blank behind it, or with a variable.
fn sign(rest: &[u8], what: &str) -> Option<String> {
    let sign = *rest.first().filter(|byte| matches!(**byte, b'+' | b'-'))? as char;
    let behind = &rest[1..][blanks(&rest[1..])..];
    match behind.first()? {
        b'x' | b'~' => Some(format!("write a weight before each variable, such as `{}1 x1`", sign)),
        b'0'..=b'9' if is_blank(rest[1]) => {
            let number = String::from_utf8_lossy(&behind[..number(behind)?]);
            Some(format!("the sign belongs to the {}: write `{}{}`, with no blank between", what, sign, number))
        }
        _ => None,
    }
}

fn too_large(rest: &[u8]) -> Option<String> {
    number(rest)?;
    Some("write numbers from -9223372036854775808 to 9223372036854775807, which 64 bits hold: count in greater units".to_string())
}

fn no_variable(rest: &[u8]) -> Option<String> {
    let letter = || rest.first().filter(|byte| byte.is_ascii_alphabetic()).map(|_| NAME.to_string());
    by_beginning(&NO_VARIABLE, rest).or_else(letter)
}

fn no_bound(text: &[u8], at: usize) -> Option<String> {
    let (before, rest) = (text[..at].iter().rev().find(|byte| !is_blank(**byte))?, &text[at..]);
    if matches!(rest.first(), None | Some(b';')) {
        return Some("write the bound behind the operator, such as `>= 1;`".to_string());
    }
    let both: Vec<u8> = std::iter::once(*before).chain(rest.iter().copied().take(1)).collect();
    let sign = || by_beginning(&[(b"\xc2\xa0", NO_BREAK), (b"\xe2\x88\x92", MINUS)], rest).or_else(|| sign(rest, "bound"));
    by_beginning(&NO_BOUND, &both).or_else(sign).or_else(|| too_large(rest))
}

/// More behind the bound, with a variable in it.
fn right_side(rest: &[u8]) -> Option<String> {
    let statement = rest.split(|byte| *byte == b';').next()?;
    let begins = number(rest).is_some() || matches!(rest, [b'+' | b'-', ..]) || operator(rest).is_some();
    if begins && statement.contains(&b'x') {
        return Some(LEFT.to_string());
    }
    None
}
