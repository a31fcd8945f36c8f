//! What is wrong with a plan that is accepted.
use super::sums::Sums;
use crate::header::Header;

/// What a solver may trip over, or a planner did not mean.
pub fn of(file: &[u8], sums: &Sums, first: u32) -> Vec<String> {
    let mut all = Vec::new();
    all.extend(rows(sums));
    all.extend(
        sums.broken.map(|place| format!("the comment at line {} has a CR in it: where lines end in CR alone (old Macs), all that follows is comment; `tr '\\r' '\\n'` mends that", line(file, place))),
    );
    all.extend(header_place(file, sums));
    all.extend(sums.header.iter().flat_map(|header| header_numbers(header, sums, first)));
    all.extend(names(file, sums));
    all.extend(nameless(sums, first));
    all
}

/// The number of the line that this byte is in.
fn line(file: &[u8], place: usize) -> usize {
    1 + file[..place].iter().filter(|byte| **byte == b'\n').count()
}

fn rows(sums: &Sums) -> Option<String> {
    match (sums.constraints(), sums.objectives) {
        (0, 0) => Some("the plan has no constraint and no objective".to_string()),
        (_, objectives) if objectives > 1 => Some(format!("the plan has {} objectives, and solvers take one", objectives)),
        _ => None,
    }
}

/// Solvers look for the header in the first line.
fn header_place(file: &[u8], sums: &Sums) -> Vec<String> {
    let mut all = Vec::new();
    if let Some(place) = sums.headers.first() {
        let number = line(file, *place);
        if number > 1 {
            all.push(format!("the header stands at line {}, and solvers look for it in the first", number));
        }
        if sums.header.is_none() {
            all.push(format!("the header at line {} is not of the form `* #variable= N #constraint= M`", number));
        }
    }
    if let Some(place) = sums.headers.get(1) {
        all.push(format!("there are {} headers, the second at line {}", sums.headers.len(), line(file, *place)));
    }
    all
}

/// Where variables begin with x0 there is one more of them than the greatest number says.
fn header_numbers(header: &Header, sums: &Sums, first: u32) -> Vec<String> {
    let highest = sums.highest(first).unwrap_or(0);
    let (count, constraints) = (sums.variables.len() as u64, sums.constraints() as u64);
    let least = highest.max(count);
    let mut all = Vec::new();
    if header.variables < least {
        all.push(format!("the header says {} variables, and the highest is x{} of {}: it must say {}", header.variables, highest, count, least));
    }
    if header.constraints != constraints {
        all.push(format!("the header says {} constraints, and there are {}", header.constraints, constraints));
    }
    all
}

/// A header may name more variables than the rows have; that one of them was forgotten is for the planner to say.
pub fn remark(sums: &Sums, first: u32) -> Option<String> {
    let (header, highest) = (sums.header?, sums.highest(first).unwrap_or(0));
    if header.variables <= highest.max(sums.variables.len() as u64) {
        return None;
    }
    Some(format!("the header says {} variables, which solvers allow; the highest in a row is x{}", header.variables, highest))
}

fn names(file: &[u8], sums: &Sums) -> Vec<String> {
    let second = sums.names.second.map(|place| format!("the name at line {} is a second one for its variable; the first counts", line(file, place)));
    let again = sums.names.again.map(|place| format!("the name at line {} stands for another variable already, or twice for one", line(file, place)));
    let open = if sums.names.open { Some("no comment `* 0` closes the names, as clasp asks".to_string()) } else { None };
    [second, again, open].into_iter().flatten().collect()
}

/// Names of variables that no row has.
fn nameless(sums: &Sums, first: u32) -> Option<String> {
    let (above, below) = (sums.names.indexes.without(&sums.variables), &sums.names.below);
    let mut above = above.map(|index| u64::from(index) + u64::from(first)).peekable();
    let one = below.iter().min().map(|number| u64::from(*number)).or_else(|| above.peek().copied())?;
    Some(format!("names stand for variables that no row has: {}, the first x{}", above.count() + below.len(), one))
}
