//! Variables that an answer leaves open. Sat4j prints no value for a variable that stands in the objective alone as long as it has not had to choose one; its `o` line counts it as false. In the solver's
//! file a variable stands in the objective alone where its weights in each constraint of the plan add up to 0.
use opb::{Assignment, Kind, Refusal, Table, Value};
use std::collections::{BTreeMap, BTreeSet};
use std::fmt::Write;

/// An assignment with a value for these, how many they are, and how they were chosen.
pub struct Completed {
    pub assignment: Assignment,
    pub count: usize,
    pub how: &'static str,
}

const BY_WEIGHT: &str = "take the value that their weight in the objective asks for";
const AS_FALSE: &str = "are false, as the solver counts them";

/// The variables of a row that have no value, each with what it adds to the row by being true.
fn without_value(table: &Table, row: usize, assignment: &Assignment) -> BTreeMap<u32, i128> {
    let mut found = BTreeMap::new();
    let terms = table.firsts[row]..table.firsts[row] + table.counts[row];
    for term in terms.filter(|term| assignment.value(table.literals[*term] as usize / 2).is_none()) {
        let (literal, weight) = (table.literals[term], i128::from(table.weights[term]));
        *found.entry(literal / 2).or_insert(0) += if literal % 2 == 0 { weight } else { -weight };
    }
    found
}

/// The variables of the plan that have no value and on which no constraint depends, each with its weight in the objective.
fn open_variables(table: &Table, assignment: &Assignment) -> BTreeMap<u32, i128> {
    let (mut open, mut asked_for) = (BTreeMap::new(), BTreeSet::new());
    for row in (0..table.kinds.len()).filter(|row| table.kind(*row) != Some(Kind::Comment)) {
        let found = without_value(table, row, assignment);
        if table.kind(row) == Some(Kind::Objective) {
            open.extend(found);
        } else {
            found.keys().for_each(|index| {
                open.entry(*index).or_insert(0);
            });
            asked_for.extend(found.into_iter().filter(|(_, weight)| *weight != 0).map(|(index, _)| index));
        }
    }
    open.retain(|index, _| !asked_for.contains(index));
    open
}

/// The assignment and values for the open variables, through the same call that reads a solver's value lines.
fn with(assignment: &Assignment, open: &BTreeMap<u32, i128>, is_true: impl Fn(i128) -> bool) -> Result<Assignment, Refusal> {
    let mut line = "v".to_string();
    for (index, weight) in open {
        // a string takes whatever is written to it
        let _ = write!(line, " {}x{}", if is_true(*weight) { "" } else { "-" }, u64::from(*index) + 1);
    }
    let mut completed = assignment.clone();
    completed.extend(line.as_bytes())?;
    Ok(completed)
}

fn is_worth(table: &Table, objective: usize, assignment: &Assignment, claimed: i128) -> bool {
    matches!(table.judge(objective, assignment), Ok(Value::Objective { value, .. }) if i128::from(value) == claimed)
}

/// By weight, which is best; as false where the claimed value counts them so: a solver that was stopped may not have come to them.
pub fn completed(table: &Table, objective: Option<usize>, assignment: Assignment, claimed: Option<i128>) -> Result<Completed, Refusal> {
    let open = open_variables(table, &assignment);
    let count = open.len();
    if count == 0 {
        return Ok(Completed { assignment, count, how: "" });
    }
    let by_weight = with(&assignment, &open, |weight| weight < 0)?;
    match objective.zip(claimed) {
        Some((row, claimed)) if !is_worth(table, row, &by_weight, claimed) => {
            let as_false = with(&assignment, &open, |_| false)?;
            if is_worth(table, row, &as_false, claimed) {
                return Ok(Completed { assignment: as_false, count, how: AS_FALSE });
            }
        }
        _ => {}
    }
    Ok(Completed { assignment: by_weight, count, how: BY_WEIGHT })
}
