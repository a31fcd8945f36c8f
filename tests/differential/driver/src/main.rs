//! The differential run: the library against rustsat's own reader and writer and its reader of value lines, over exhaustive, random and damaged inputs. tests/differential/run says how it is called.

mod blocks;
mod compare;
mod files;
mod library;
mod lists;
mod meaning;
mod planted;
mod random;
mod rows;
mod rules;
mod table;
mod tally;
mod values;
mod valuing;
mod writing;

use compare::{ask_rust, compare, show, Verdict};
use library::Library;
use random::Random;
use table::{Case, ReadCase, ValuesCase};
use tally::Tally;

const BATCH: usize = 4000;

struct Asked {
    runner: Vec<String>,
    fault: Option<String>,
    lists: Option<String>,
    seed: u64,
    count: usize,
}

/// --runner "COMMAND WORDS" [--plant FAULT|all] [--lists FOLDER] [SEED] [COUNT]
fn asked() -> Asked {
    let mut asked = Asked { runner: Vec::new(), fault: None, lists: None, seed: 1, count: 600_000 };
    let (mut words, mut numbers) = (std::env::args().skip(1), 0);
    while let Some(word) = words.next() {
        match word.as_str() {
            "--runner" => asked.runner = words.next().expect("a command").split_whitespace().map(String::from).collect(),
            "--plant" => asked.fault = Some(words.next().filter(|name| name == "all" || planted::NAMES.contains(&name.as_str())).expect("a fault, or all")),
            "--lists" => asked.lists = words.next(),
            _ if numbers == 0 => asked.seed = word.parse().expect("a seed"),
            _ => asked.count = word.parse().expect("a count"),
        }
        numbers += usize::from(!word.starts_with("--"));
    }
    asked
}

/// Every case of a run: the exhaustive ones, then so many random ones, three in four to be read; then blocks of value lines, every short one and a quarter as many random cases
fn cases(seed: u64, count: usize) -> impl Iterator<Item = Case> {
    let long = [1_073_741_823, 1_073_741_824, 4_294_967_296].map(Case::Long);
    let mut random = Random::new(seed);
    let others = (0..count).map(move |_| if random.once_in(4) { rows::random(&mut random) } else { files::random(&mut random) });
    let mut lines = Random::new(seed);
    let values = (0..count / 4).map(move |_| blocks::random(&mut lines));
    long.into_iter().chain(files::exhaustive()).chain(rows::exhaustive()).chain(others).chain(blocks::exhaustive()).chain(values)
}

/// A batch through library and oracle; the oracle works while the library does
fn verdicts(library: &mut Library, batch: &[Case], fault: Option<&str>) -> Vec<Verdict> {
    library.send(batch);
    let rust: Vec<_> = batch.iter().map(ask_rust).collect();
    let mut answers = library.receive(batch);
    if let Some(fault) = fault {
        batch.iter().zip(&mut answers).for_each(|(case, answer)| planted::plant(fault, case, answer));
    }
    batch.iter().zip(answers.iter().zip(&rust)).map(|(case, (answer, rust))| compare(case, answer, rust)).collect()
}

fn size(case: &Case) -> usize {
    match case {
        Case::Read(case) => case.file.len(),
        Case::Write(case) => case.table.kinds.len() + case.table.weights.len() + case.text.len(),
        Case::Values(case) => case.blocks.iter().map(|block| block.len() + 1).sum::<usize>() + case.before.values.len() + case.before.known.len(),
        Case::Long(_) => 0,
    }
}

/// The smallest unexplained case, its message, and the number of cases up to the first
struct Unexplained {
    case: Case,
    message: String,
    number: u64,
    count: u64,
}

fn run(library: &mut Library, asked: &Asked, fault: Option<&str>) -> (Tally, Option<Unexplained>) {
    let mut tally = Tally::default();
    let mut worst: Option<Unexplained> = None;
    let mut all = cases(asked.seed, asked.count);
    loop {
        let batch: Vec<Case> = all.by_ref().take(BATCH).collect();
        if batch.is_empty() || (fault.is_some() && worst.is_some()) {
            return (tally, worst);
        }
        let verdicts = verdicts(library, &batch, fault);
        batch.iter().zip(verdicts).for_each(|(case, verdict)| note(&mut tally, &mut worst, case, verdict));
    }
}

fn note(tally: &mut Tally, worst: &mut Option<Unexplained>, case: &Case, verdict: Verdict) {
    tally.cases += 1;
    let message = match verdict {
        Ok(seen) => return tally.add(case, &seen),
        Err(message) => message,
    };
    let (number, count) = worst.as_ref().map_or((tally.cases, 1), |found| (found.number, found.count + 1));
    if worst.as_ref().map_or(true, |found| size(case) < size(&found.case)) {
        *worst = Some(Unexplained { case: case.clone(), message, number, count });
    } else if let Some(found) = worst {
        found.count = count;
    }
}

/// Takes bytes out of a file or a block as long as it stays unexplained
fn shrink(library: &mut Library, found: &mut Unexplained, fault: Option<&str>) {
    while let Some((case, message)) = shorter(&found.case).into_iter().find_map(|case| {
        let verdict = verdicts(library, std::slice::from_ref(&case), fault).remove(0);
        verdict.err().map(|message| (case, message))
    }) {
        found.case = case;
        found.message = message;
    }
}

/// A file with one byte less, for each byte; blocks likewise, and with a block less
fn shorter(case: &Case) -> Vec<Case> {
    let case = match case {
        Case::Read(case) => case,
        Case::Values(case) => return shorter_blocks(case),
        _ => return Vec::new(),
    };
    let without = |at: usize| [&case.file[..at], &case.file[at + 1..]].concat();
    (0..case.file.len()).map(|at| Case::Read(ReadCase { file: without(at), lengths: None, ..case.clone() })).collect()
}

fn shorter_blocks(case: &ValuesCase) -> Vec<Case> {
    let mut cases = Vec::new();
    for at in 0..case.blocks.len() {
        let mut fewer = case.clone();
        fewer.blocks.remove(at);
        cases.push(fewer);
        for byte in 0..case.blocks[at].len() {
            let mut less = case.clone();
            less.blocks[at].remove(byte);
            cases.push(less);
        }
    }
    cases.into_iter().map(Case::Values).collect()
}

fn print_case(found: &Unexplained) {
    println!("{}", found.message);
    match &found.case {
        Case::Read(case) => println!("smallest input, first index {}: \"{}\"", case.first, show(&case.file)),
        Case::Values(case) => println!("smallest input, on {:x?}: {:?}", case.before, case.blocks.iter().map(|block| show(block)).collect::<Vec<_>>()),
        other => println!("smallest input: {other:?}"),
    }
}

/// The run with a planted fault; whether it was found
fn run_planted(asked: &Asked, fault: &str) -> bool {
    let mut library = Library::start(&asked.runner);
    let (tally, worst) = run(&mut library, asked, Some(fault));
    match worst {
        Some(mut found) => {
            shrink(&mut library, &mut found, Some(fault));
            print_case(&found);
            println!("planted fault '{fault}': found at case {}", found.number);
            true
        }
        None => {
            println!("planted fault '{fault}': NOT found in {} cases", tally.cases);
            false
        }
    }
}

/// The run; whether it found nothing unexplained
fn run_honest(asked: &Asked) -> bool {
    let mut library = Library::start(&asked.runner);
    let (tally, worst) = run(&mut library, asked, None);
    tally.print();
    match worst {
        Some(mut found) => {
            shrink(&mut library, &mut found, None);
            print_case(&found);
            println!("{} cases, {} unexplained, the first at case {} (seed {})", tally.cases, found.count, found.number, asked.seed);
            false
        }
        None => {
            println!("no unexplained difference in {} cases (seed {})", tally.cases, asked.seed);
            true
        }
    }
}

fn main() {
    rustsat::quiet();
    let asked = asked();
    let well = match (&asked.lists, asked.fault.as_deref()) {
        (Some(folder), _) => lists::write(folder, asked.seed),
        (None, Some("all")) => planted::NAMES.iter().filter(|fault| !run_planted(&asked, fault)).count() == 0,
        // a run that finds something ends with 1, planted or not
        (None, Some(fault)) => !run_planted(&asked, fault),
        (None, None) => run_honest(&asked),
    };
    std::process::exit(i32::from(!well));
}
