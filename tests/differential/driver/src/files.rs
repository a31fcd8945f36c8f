//! Files to read: all short ones over a small alphabet, random ones around each limit, damaged copies of good ones.

use crate::meaning::{Assignment, WORDS};
use crate::random::Random;
use crate::rules::{judge, Limits};
use crate::table::{Case, ReadCase};

/// The telling bytes: at least one of each class, one that is no character on its own
const BYTES: [&[u8]; 18] = [b"1", b"0", b"+", b"-", b" ", b"\t", b"\n", b"\r", b";", b"*", b"~", b"x", b"<", b">", b"=", b"m", b":", b"\xC3"];

/// Words that make statements out of few letters
const WORDS_OF_FILES: [&[u8]; 13] = [b"1", b" ", b"x1", b"~", b"-", b"<", b">", b"=", b";", b"\n", b"\r", b"*", b"min:"];

/// What every short string of telling bytes is put between
const FRAMES: [(&str, &str); 9] = [
    ("1 x1", "1;"),
    ("1 x1 >= 1", ""),
    ("1 x1 >= 1", "1 x2 <= 1;"),
    ("1", "x1 = 1"),
    ("1 x1 ", ">= 1\n"),
    ("1 x", " >= 1;* end"),
    ("min:", "\n1 x1 = 1"),
    ("min: 1 x1", "1 x2;"),
    ("* a", "\n1 x1 >= 1;"),
];

/// All strings of at most `longest` letters, the shortest first
fn strings(letters: &'static [&'static [u8]], longest: u32) -> impl Iterator<Item = Vec<u8>> {
    (0..=longest).flat_map(move |length| (0..letters.len().pow(length)).map(move |code| spelt(letters, length, code)))
}

/// the string whose letters are the digits of a number
fn spelt(letters: &[&[u8]], length: u32, code: usize) -> Vec<u8> {
    let base = letters.len();
    (0..length).flat_map(|at| letters[code / base.pow(at) % base].iter().copied()).collect()
}

/// Every short file, with first index 1; framed ones with 0 too
pub fn exhaustive() -> impl Iterator<Item = Case> {
    let framed = FRAMES.iter().flat_map(|(front, back)| strings(&BYTES, 3).map(move |middle| [front.as_bytes(), &middle, back.as_bytes()].concat()));
    let whole = strings(&BYTES, 4).chain(strings(&WORDS_OF_FILES, 5)).map(|file| (file, 1));
    let framed = framed.flat_map(|file| [(file.clone(), 1), (file, 0)]);
    whole.chain(framed).enumerate().map(|(at, (file, first))| read_case(file, first, None, &mut Random::new(at as u64)))
}

/// A file with assignments to try it under, where it is accepted: every one of its variables' values if they are few, else some
fn read_case(file: Vec<u8>, first: u32, lengths: Option<[u32; 6]>, random: &mut Random) -> Case {
    let judged = judge(&file, Limits::ours(first));
    let mut variables: Vec<usize> = judged.rows.iter().flat_map(|row| &row.terms).map(|term| (term.1 / 2) as usize).filter(|&variable| variable < 64 * WORDS).collect();
    variables.sort_unstable();
    variables.dedup();
    let tried = match variables.len() {
        _ if judged.refusal.is_some() || judged.rows.is_empty() => 0,
        few @ 0..=3 => 1 << few,
        _ => 6,
    };
    let assignments = (0..tried).map(|values| assignment(&variables, values, random)).collect();
    Case::Read(ReadCase { file, first, lengths, assignments })
}

/// random words, in which the first variables have the values that the bits of a number say
fn assignment(variables: &[usize], values: u64, random: &mut Random) -> Assignment {
    let mut words: Assignment = [0; WORDS].map(|_: u64| random.next());
    for (at, variable) in variables.iter().take(3).enumerate() {
        let bit = 1 << (variable % 64);
        words[variable / 64] = if values >> at & 1 == 1 { words[variable / 64] | bit } else { words[variable / 64] & !bit };
    }
    words
}

pub const FIRSTS: [u32; 16] = [1, 1, 1, 1, 1, 0, 0, 2, 7, 100, 1_073_741_823, 1_073_741_824, 2_147_483_647, 2_147_483_648, u32::MAX - 4, u32::MAX];

/// How a random file is made: numbers lie at a limit three or four times in `edge`, so that most files are good ones and some are full of limits
#[derive(Clone, Copy)]
struct Style {
    first: u32,
    edge: u64,
}

/// A random file: good, around a limit, or damaged; now and then with too little room
pub fn random(random: &mut Random) -> Case {
    let first = random.of(&FIRSTS);
    let edge = random.of(&[24, 1000, 1000]);
    let mut file = statements(random, Style { first, edge });
    if random.once_in(2) {
        (0..=random.below(3)).for_each(|_| damage(&mut file, random));
    }
    let lengths = if random.once_in(8) { Some(room(&file, first, random)) } else { None };
    read_case(file, first, lengths, random)
}

/// column lengths around the counts that the file needs
fn room(file: &[u8], first: u32, random: &mut Random) -> [u32; 6] {
    let judged = judge(file, Limits::ours(first));
    let rows = judged.rows.len() as u32;
    let terms = judged.rows.iter().map(|row| row.terms.len() as u32).sum::<u32>();
    let mut near = |count: u32| (count + random.below(3) as u32).saturating_sub(random.below(4).saturating_sub(1) as u32 / 2);
    [near(rows), near(rows), near(rows), near(rows), near(terms), near(terms)]
}

fn damage(file: &mut Vec<u8>, random: &mut Random) {
    let at = random.below(file.len() as u64 + 1) as usize;
    let byte = if random.once_in(6) { random.next() as u8 } else { random.of(&BYTES)[0] };
    match random.below(6) {
        0 | 1 => file.insert(at, byte),
        2 if at < file.len() => file[at] = byte,
        3 if at < file.len() => drop(file.remove(at)),
        4 => file.truncate(at),
        _ if at + 1 < file.len() => file.swap(at, at + 1),
        _ => file.push(byte),
    }
}

fn statements(random: &mut Random, style: Style) -> Vec<u8> {
    let mut file = Vec::new();
    let count = if random.once_in(2000) { 200 } else { random.of(&[0, 1, 1, 2, 2, 3, 5, 9]) };
    for _ in 0..count {
        file.extend(blanks(random, 4));
        match random.below(8) {
            0 => comment(&mut file, random),
            1 => objective(&mut file, random, style),
            _ => constraint(&mut file, random, style),
        }
    }
    file.extend(blanks(random, 6));
    file
}

/// no blank, or once in so many times one or more
fn blanks(random: &mut Random, times: u64) -> Vec<u8> {
    if !random.once_in(times) {
        return Vec::new();
    }
    random.of(&[&b" "[..], b"\t", b"  ", b" \t "]).to_vec()
}

fn comment(file: &mut Vec<u8>, random: &mut Random) {
    let text: &[u8] = random.of(&[&b" budget"[..], b"", b" ", b"  two", b"\ttab", b" #variable= 3 #constraint= 2", b" 1 x1 < 1; *", "\u{e9}\u{4e2d}".as_bytes(), b" a\rb", b" \xFF", b" a\r"]);
    file.push(b'*');
    file.extend(text);
    file.extend(random.of(&[&b"\n"[..], b"\n", b"\r\n"]));
}

fn objective(file: &mut Vec<u8>, random: &mut Random, style: Style) {
    file.extend(b"min:");
    file.extend(blanks(random, 2));
    let count = random.below(4);
    sum(file, random, style, count);
    ending(file, random);
}

fn constraint(file: &mut Vec<u8>, random: &mut Random, style: Style) {
    let count = 1 + random.of(&[0, 0, 1, 1, 2, 3, 6]);
    sum(file, random, style, count);
    file.extend(random.of(&[&b">="[..], b">=", b">=", b"<=", b"<=", b"=", b"=", b">", b"<"]));
    file.extend(blanks(random, 2));
    file.extend(number(random, style));
    ending(file, random);
}

fn ending(file: &mut Vec<u8>, random: &mut Random) {
    file.extend(blanks(random, 3));
    file.extend(random.of(&[&b";\n"[..], b";\n", b";", b"\n", b";\r\n", b"\r\n", b"; \n", b";  ", b" \t\n"]));
}

fn sum(file: &mut Vec<u8>, random: &mut Random, style: Style, count: u64) {
    let limit = random.once_in(style.edge / 4).then(|| limit_weights(random, count));
    for term in 0..count as usize {
        file.extend(limit.as_ref().map_or_else(|| number(random, style), |weights| weights[term].to_string().into_bytes()));
        file.extend(random.of(&[&b" "[..], b" ", b" ", b"\t", b"  "]));
        file.extend(random.of(&[&b""[..], b"", b"~", b"-"]));
        file.push(b'x');
        file.extend(file_number(random, style));
        file.extend(random.of(&[&b" "[..], b" ", b"\t "]));
    }
    if random.once_in(3) {
        file.pop();
    }
}

/// weights whose sizes add up to M, one less or one more
fn limit_weights(random: &mut Random, count: u64) -> Vec<i128> {
    let mut rest = i128::from(i64::MAX) + random.of(&[-1, 0, 0, 1]);
    let mut weights = Vec::new();
    for _ in 1..count {
        let part = i128::from(random.next() >> random.of(&[2, 8, 60])) % (rest + 1);
        rest -= part;
        weights.push(part);
    }
    weights.push(rest);
    weights.iter().map(|weight| if random.once_in(2) { -weight } else { *weight }).collect()
}

fn number(random: &mut Random, style: Style) -> Vec<u8> {
    let limit = i128::from(i64::MAX);
    let size = match random.below(style.edge) {
        0 => limit + random.of(&[-1, 0, 1, 2]),
        1 => random.of(&[1 << 31, 1 << 32, 1 << 62, 1 << 64, 99_999_999_999_999_999_999]),
        2 => i128::from(random.next() >> random.below(64)),
        _ if random.once_in(3) => i128::from(random.of_length(9)),
        _ => i128::from(random.below(5)),
    };
    let sign = random.of(&["", "", "", "+", "-", "-"]);
    let zeros = if random.once_in(20) { "000" } else { "" };
    format!("{sign}{zeros}{size}").into_bytes()
}

fn file_number(random: &mut Random, style: Style) -> Vec<u8> {
    let index = match random.below(style.edge) {
        0 => random.of(&[-1, 1_073_741_822, 1_073_741_823, 1_073_741_824]),
        1 => random.of(&[2_147_483_646, 2_147_483_647, 2_147_483_648]),
        2 => i128::from(random.of(&[u32::MAX as u64 - 1, u32::MAX as u64, u32::MAX as u64 + 1, u64::MAX])) - i128::from(style.first),
        3 => 1 << random.of(&[64, 65, 90]),
        4 => random.of(&[62, 63, 64, 65, 127, 128]),
        _ if random.once_in(6) => i128::from(random.of_length(9)),
        _ => i128::from(random.below(4)),
    };
    let number = (index + i128::from(style.first)).max(0);
    let zeros = if random.once_in(20) { "00" } else { "" };
    format!("{zeros}{number}").into_bytes()
}
