//! A plan written as every solver takes it: a true header, the objective, then the rest, no negated variable, none twice in a row, numbered from x1. One call of the proved writer over the plan's rows in
//! another order.
use crate::header::{is_header, Header};
use crate::names::{comment, of_text};
use crate::single::mend;
use opb::{Kind, Literals, Reason, Refusal, Table};

/// The first number of a variable, to solvers.
const FIRST: u32 = 1;

/// The text, what its header says, and what is to be added to a value that a solver tells.
#[derive(Debug)]
pub struct ForSolvers {
    pub text: Vec<u8>,
    pub offset: i64,
    pub header: Header,
}

/// Why there is none: a row of the plan, or the rows of several objectives.
#[derive(Debug)]
pub enum NotForSolvers {
    Refusal(Refusal),
    Objectives(Vec<usize>),
}

impl From<Refusal> for NotForSolvers {
    fn from(refusal: Refusal) -> NotForSolvers {
        NotForSolvers::Refusal(refusal)
    }
}

/// Only rows without negative weights can be written, so the table is normalised first.
pub fn for_solvers(file: &[u8], table: &Table, first: u32) -> Result<ForSolvers, NotForSolvers> {
    let objective = objective(table)?;
    let mut normal = table.normal()?;
    mend(&mut normal)?;
    let offset = objective.map_or(0, |row| offset(&normal, row));
    let header = header(&normal);
    let mut lines = Lines::new(normal, header);
    lines.take_rows(file, first_row(table, objective), first)?;
    Ok(ForSolvers { text: lines.written()?, offset, header })
}

/// The row of the objective, where it has terms.
fn objective(table: &Table) -> Result<Option<usize>, NotForSolvers> {
    let rows: Vec<usize> = (0..table.kinds.len()).filter(|row| table.kind(*row) == Some(Kind::Objective)).collect();
    match rows.as_slice() {
        [] => Ok(None),
        [row] => Ok(Some(*row).filter(|row| table.counts[*row] > 0)),
        _ => Err(NotForSolvers::Objectives(rows)),
    }
}

fn is_constraint(table: &Table, row: usize) -> bool {
    table.kind(row).map_or(false, Kind::is_constraint)
}

/// The row behind the header: the objective; without one, a constraint. Where a single comment stands there, Sat4j 2.3.5 takes the line behind that for a comment, too.
fn first_row(table: &Table, objective: Option<usize>) -> Option<usize> {
    objective.or_else(|| (0..table.kinds.len()).find(|row| is_constraint(table, *row)))
}

/// What is true of the table as it is written: no variable is left out of it.
fn header(table: &Table) -> Header {
    let highest = table.literals.iter().max().map_or(0, |literal| u64::from(literal / 2) + u64::from(FIRST));
    Header { variables: highest, constraints: (0..table.kinds.len()).filter(|row| is_constraint(table, *row)).count() as u64 }
}

/// What the writer says behind the objective: a negated literal of weight w is written as -w on its variable, and the offset grows by w. A sum beyond 64 bits is a refusal of the writer.
fn offset(normal: &Table, row: usize) -> i64 {
    let terms = normal.firsts[row]..normal.firsts[row] + normal.counts[row];
    let negated = terms.filter(|term| normal.literals[*term] % 2 == 1);
    negated.fold(normal.bounds[row], |sum, term| sum.wrapping_add(normal.weights[term]))
}

/// The table that is written: the plan's terms, and rows in another order, each with the row of the plan that it comes from. The texts of its comments are made for it.
struct Lines {
    normal: Table,
    table: Table,
    rows: Vec<usize>,
    text: Vec<u8>,
}

impl Lines {
    /// The header alone.
    fn new(normal: Table, header: Header) -> Lines {
        let mut lines = Lines { normal, table: Table::default(), rows: Vec::new(), text: Vec::new() };
        lines.comment(0, header.text().as_bytes());
        lines
    }

    /// The row that goes first, then the rest in the plan's order; an objective that does not go first is one without terms.
    fn take_rows(&mut self, file: &[u8], lead: Option<usize>, first: u32) -> Result<(), Refusal> {
        self.make_room()?;
        if let Some(row) = lead {
            self.terms(row);
        }
        for row in (0..self.normal.kinds.len()).filter(|row| Some(*row) != lead) {
            match self.normal.kind(row) {
                Some(Kind::Objective) => {}
                Some(Kind::Comment) => self.plan_comment(row, comment(file, &self.normal, row), first),
                _ => self.terms(row),
            }
        }
        Ok(())
    }

    /// For as many rows as the plan has, and the header.
    fn make_room(&mut self) -> Result<(), Refusal> {
        let rows = self.normal.kinds.len() + 1;
        let refusal = Refusal { reason: Reason::Rows, place: rows as u64 };
        let table = &mut self.table;
        table.kinds.try_reserve(rows).map_err(|_| refusal)?;
        table.firsts.try_reserve(rows).map_err(|_| refusal)?;
        table.counts.try_reserve(rows).map_err(|_| refusal)?;
        table.bounds.try_reserve(rows).map_err(|_| refusal)?;
        self.rows.try_reserve(rows).map_err(|_| refusal)
    }

    /// One row more.
    fn row(&mut self, from: usize, kind: u8, first: usize, count: usize, bound: i64) {
        self.rows.push(from);
        self.table.kinds.push(kind);
        self.table.firsts.push(first);
        self.table.counts.push(count);
        self.table.bounds.push(bound);
    }

    /// A row with its terms where they are.
    fn terms(&mut self, row: usize) {
        let normal = &self.normal;
        let (kind, first, count, bound) = (normal.kinds[row], normal.firsts[row], normal.counts[row], normal.bounds[row]);
        self.row(row, kind, first, count, bound);
    }

    /// A CR ends a line to clasp and Sat4j, so that behind it a statement could stand; clasp takes no zero byte. A blank is put in the place of both.
    fn comment(&mut self, from: usize, text: &[u8]) {
        let first = self.text.len();
        self.text.extend(text.iter().map(|byte| if matches!(byte, 0 | b'\r') { b' ' } else { *byte }));
        self.row(from, Kind::Comment.number(), first, text.len(), 0);
    }

    /// An old header is left out; a name gets its variable's new number, and is left out where it has none.
    fn plan_comment(&mut self, row: usize, text: &[u8], first: u32) {
        if is_header(text) {
            return;
        }
        match of_text(text) {
            None => self.comment(row, text),
            Some((number, name)) => {
                if let Some(index) = number.checked_sub(first) {
                    self.comment(row, format!("output x{} {}", u64::from(index) + u64::from(FIRST), name).as_bytes());
                }
            }
        }
    }

    /// A row that is refused is told as the plan's.
    fn written(self) -> Result<Vec<u8>, Refusal> {
        let Lines { normal, mut table, rows, text } = self;
        table.weights = normal.weights;
        table.literals = normal.literals;
        table.write(&text, FIRST, Literals::Plain).map_err(|refusal| match refusal.reason {
            Reason::Output => refusal,
            _ => Refusal { place: rows[refusal.place as usize] as u64, ..refusal },
        })
    }
}

#[cfg(test)]
mod tests {
    use super::{for_solvers, NotForSolvers};
    use crate::header::Header;
    use opb::{Kind, Reason, Refusal, Table};

    /// No plan that was read has such a row; the objective behind it goes first, and the row is still the plan's.
    #[test]
    fn a_constraint_without_terms_is_told_by_the_plans_row() {
        let mut table = Table::default();
        table.push(Kind::AtLeast, 1, &[(1, 0)]);
        table.push(Kind::Equal, 0, &[]);
        table.push(Kind::Objective, 0, &[(1, 0)]);
        let refusal = Refusal { reason: Reason::Empty, place: 1 };
        assert!(matches!(for_solvers(b"", &table, 1), Err(NotForSolvers::Refusal(told)) if told == refusal));
    }

    /// Also where the plan has an offset of an earlier rewrite directly behind the objective.
    #[test]
    fn the_offset_is_the_one_that_the_writer_prints() {
        let of = |plan: &str| {
            let written = for_solvers(plan.as_bytes(), &opb::read(plan.as_bytes(), 1).unwrap(), 1).unwrap();
            (written.offset, written.header, written.text.split(|byte| *byte == b'\n').nth(2).map(<[u8]>::to_vec).unwrap_or_default())
        };
        let line = |offset: i64| format!("* objective offset for previous objective: {}", offset).into_bytes();
        let header = Header { variables: 2, constraints: 0 };
        assert_eq!(of("min: 4 ~x1 -3 ~x2 -9 x1;"), (1, header, line(1)));
        assert_eq!(of("min: 4 x1 -3 x2;\n* objective offset for previous objective: 9\n"), (0, header, line(9)));
        assert_eq!(of("min: -9223372036854775807 ~x2;"), (-9223372036854775807, header, line(-9223372036854775807)));
        assert_eq!(of("1 x2 >= 1;"), (0, Header { variables: 2, constraints: 1 }, Vec::new()));
    }
}
