//! Blocks of value lines, one after the other on one assignment: the library is held against request A1's rules everywhere and against the Rust on the domain, the Rust against docs/DIFFERENCES.md
//! wherever it can be asked.

use crate::compare::{ensure, show, Seen, Verdict};
use crate::library::{Valued, GROWN};
use crate::table::ValuesCase;
use crate::values::{bytes, form, items, judge, judge_rust, read, six, Form, Item, Judged, Rows, GREATEST};
use rustsat::{Known, Valuing};
use std::collections::HashSet;

/// The Rust's assignment has a byte for each variable; only where a case asks for it is that more than so many
const LONGEST: u64 = 1 << 20;

/// A call by the rules: the rows before, what it comes to, the rows afterwards
pub struct Call {
    pub before: Rows,
    pub judged: Judged,
    pub after: Rows,
}

fn call(before: Rows, block: &[u8]) -> Call {
    let judged = judge(block, &before);
    let mut after = before.clone();
    if let Judged::Accepted(length, heard) = &judged {
        after.length = *length;
        heard.iter().for_each(|(&variable, &value)| after.set(variable, value));
    }
    Call { before, judged, after }
}

/// The calls for each block: one; where it is refused for want of words, and those are not too many, another with as many
pub fn calls(case: &ValuesCase) -> Vec<Vec<Call>> {
    let mut rows = case.before.clone();
    let mut each = |block: &Vec<u8>| {
        let mut calls = vec![call(rows.clone(), block)];
        if let Judged::Refused(12, words @ 0..=GROWN) = calls[0].judged {
            rows.grow(words as usize);
            calls.push(call(rows.clone(), block));
        }
        rows = calls[calls.len() - 1].after.clone();
        calls
    };
    case.blocks.iter().map(|block| each(block)).collect()
}

/// The Rust on each block, on the assignment that our rules have then; none where it cannot be asked
pub fn ask(case: &ValuesCase) -> Vec<Option<(Valuing, Known)>> {
    let one = |(block, calls): (&Vec<u8>, &Vec<Call>)| {
        let before = &calls[0].before;
        let text = std::str::from_utf8(block).ok().filter(|text| askable(case, text, before))?;
        Some(rustsat::extend(&Known { length: before.length as usize, values: before.all() }, text))
    };
    case.blocks.iter().zip(&calls(case)).map(one).collect()
}

/// Its assignments have no variable at or beyond their length, and none that becomes known by a longer row of values
fn askable(case: &ValuesCase, block: &str, before: &Rows) -> bool {
    let longest = if case.great { 2 * GREATEST } else { LONGEST };
    let short = before.length <= longest && judge_rust(block, before).1 <= longest;
    let hidden = before.known.iter().skip(before.values.len()).any(|word| *word != 0);
    short && !hidden && before.all().last().map_or(true, |last| u64::from(last.0) < before.length)
}

pub fn compare(case: &ValuesCase, answers: &[Vec<Valued>], rust: &[Option<(Valuing, Known)>]) -> Verdict {
    let mut seen = Seen::default();
    for (((block, calls), answers), rust) in case.blocks.iter().zip(&calls(case)).zip(answers).zip(rust) {
        ensure(calls.len() == answers.len(), || format!("{} calls for \"{}\", by the rules {}", answers.len(), show(block), calls.len()))?;
        calls.iter().zip(answers).try_for_each(|(call, answer)| as_ruled(block, call, answer))?;
        let (before, last) = (&calls[0].before, &answers[answers.len() - 1]);
        let domain = rust.is_some() && in_domain(block, before);
        if let Some((answer, after)) = rust {
            as_predicted(block, before, answer, after)?;
            if domain {
                same(block, last, answer, after)?;
            }
        }
        seen.differences.extend(differences(block, calls, rust.as_ref()));
        seen.blocks.push((answers[0].refusal, domain));
    }
    Ok(seen)
}

/// The library against the rules: the answer, and both rows afterwards
fn as_ruled(block: &[u8], call: &Call, answer: &Valued) -> Result<(), String> {
    let expected = match call.judged {
        Judged::Refused(number, place) => (number, place, 0),
        _ => (0, 0, call.after.length),
    };
    let told = (answer.refusal, answer.place, answer.length);
    ensure(told == expected, || format!("opb_values answers {told:?} for \"{}\" on {:?}, by the rules it is {expected:?}", show(block), call.before))?;
    let rows = answer.values == call.after.values && answer.known == call.after.known;
    ensure(rows, || format!("opb_values leaves {:x?} and {:x?} of \"{}\" on {:?}, by the rules {:x?}", answer.values, answer.known, show(block), call.before, call.after))?;
    ensure(!answer.touched, || "opb_values changed what it should not".into())
}

/// "the block is ASCII, x tokens are whole, numbers within our limit, and no known variable is met again negated"
pub fn in_domain(block: &[u8], before: &Rows) -> bool {
    let letters = bytes(block);
    let form = form(&letters, six);
    let mut met = HashSet::new();
    let mut within = |item: &Item| match item {
        Item::Untagged(_) => true,
        Item::Token(_, token) if form == Form::Bits => before.length + token.len() as u64 <= GREATEST,
        Item::Token(_, token) => match read(form, token) {
            None => true,
            Some((_, 0, left)) => form == Form::Signed && left == 0,
            Some((negated, value, left)) => {
                let again = !met.insert(value) || before.value(value - 1).is_some();
                left == 0 && value <= GREATEST && !(negated && again)
            }
        },
    };
    block.is_ascii() && items(&letters, six).iter().all(|item| within(item))
}

/// On the domain: we accept where the Rust does, with its length and its values; or want the words that its length needs
fn same(block: &[u8], ours: &Valued, answer: &Valuing, after: &Known) -> Result<(), String> {
    let rows = Rows { length: ours.length, values: ours.values.clone(), known: ours.known.clone() };
    let alike = match (ours.refusal, answer) {
        (0, Valuing::Success) => ours.length == after.length as u64 && rows.all() == after.values,
        (12, Valuing::Success) => ours.place == (after.length as u64 + 63) / 64,
        (0 | 12, _) => false,
        (_, answer) => matches!(answer, Valuing::Error(_)),
    };
    ensure(alike, || format!("in the domain we answer {ours:?} to \"{}\", the Rust {answer:?}, {after:?}", show(block)))
}

/// The Rust against what is listed of it: its answer, and what is then in its assignment, refused or not
fn as_predicted(block: &[u8], before: &Rows, answer: &Valuing, after: &Known) -> Result<(), String> {
    let (judged, length, heard) = judge_rust(std::str::from_utf8(block).expect("it was asked"), before);
    let alike = match judged {
        Judged::Accepted(..) => *answer == Valuing::Success,
        Judged::Refused(..) => matches!(answer, Valuing::Error(_)),
        Judged::Panic => matches!(answer, Valuing::Panic(_)),
    };
    ensure(alike, || format!("the Rust does not do what is listed of \"{}\" on {before:?}: {answer:?}, not {judged:?}", show(block)))?;
    let mut values: std::collections::BTreeMap<u32, bool> = before.all().into_iter().collect();
    values.extend(heard.into_iter().map(|(variable, value)| (variable as u32, value)));
    let expected = Known { length: length as usize, values: values.into_iter().collect() };
    ensure(*after == expected, || format!("the Rust does not leave what is listed of \"{}\": {after:?}, not {expected:?}", show(block)))
}

/// The listed differences that a block shows; `as_ruled` and `as_predicted` have asserted each
fn differences(block: &[u8], calls: &[Call], rust: Option<&(Valuing, Known)>) -> Vec<&'static str> {
    let (before, ours) = (&calls[0].before, &calls[calls.len() - 1].judged);
    let text = match (std::str::from_utf8(block), rust) {
        (Err(_), _) => return vec!["values: a block that is not UTF-8: the Rust's types rule it out, not asked"],
        (_, None) => return vec!["values: a length, or a variable beyond the length, that the Rust is not asked for"],
        (Ok(text), _) => text,
    };
    let (theirs, _, heard) = judge_rust(text, before);
    let unicode = text.chars().any(|letter| letter.is_whitespace() && !letter.is_ascii());
    let mut found = Vec::new();
    if calls.len() > 1 {
        found.push("values: no room (12): the Rust's assignment grows");
    }
    if !matches!(theirs, Judged::Accepted(..)) && !heard.is_empty() {
        found.push("values: a block refused half way: the Rust keeps what came before");
    }
    found.extend(match (ours, &theirs) {
        (Judged::Refused(20, _), Judged::Panic) => Some("values: a first character beyond ASCII: the Rust panics (20)"),
        (Judged::Refused(21, _), Judged::Accepted(..)) if unicode => Some("values: Unicode white space: the Rust parts tokens there (21)"),
        (Judged::Refused(21, _), Judged::Accepted(..)) => Some("values: `x1abc`: the Rust takes the front (21)"),
        (Judged::Refused(5, _), Judged::Panic) => Some("values: `x0`, or an index above the Rust's own limit: the Rust panics (5)"),
        (Judged::Refused(5, _), Judged::Accepted(..)) => Some("values: an index above our limit, within the Rust's: the Rust goes on (5)"),
        (Judged::Refused(22, _), Judged::Accepted(..)) => Some("values: `v 1 -1`: the Rust overwrites (22)"),
        (Judged::Accepted(..) | Judged::Refused(12, _), Judged::Refused(22, _)) => Some("values: `v -1 -1`: the Rust refuses"),
        (Judged::Refused(12, _) | Judged::Accepted(..), Judged::Accepted(..)) | (Judged::Refused(..), Judged::Refused(..)) => None,
        _ => Some("values: two or more of these in one block"),
    });
    found
}
