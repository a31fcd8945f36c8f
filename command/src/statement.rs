//! Where a refused statement stops being one. The library names the statement and the reason; what stands at the very place is needed for advice alone, and where this is not of the library's mind, it
//! has no say.
use opb::Reason;

/// What was looked for where a statement stops.
#[derive(Clone, Copy, Debug, PartialEq, Eq)]
pub enum Wanted {
    Weight,
    /// Between a weight and its variable.
    Blank,
    Variable,
    Operator,
    Bound,
    Ending,
}

/// Where a statement stops: what was looked for, and how many bytes of it stand before that.
#[derive(Clone, Copy, Debug, PartialEq, Eq)]
pub struct Stop {
    pub wanted: Wanted,
    pub at: usize,
}

impl Wanted {
    /// Why a statement without it is refused.
    pub fn reason(self) -> Reason {
        match self {
            Wanted::Weight | Wanted::Bound => Reason::Number,
            Wanted::Blank | Wanted::Variable => Reason::Literal,
            Wanted::Operator => Reason::Operator,
            Wanted::Ending => Reason::Ending,
        }
    }
}

/// How many bytes of a class the text begins with.
fn run(text: &[u8], class: impl Fn(u8) -> bool) -> usize {
    text.iter().take_while(|byte| class(**byte)).count()
}

pub fn is_blank(byte: u8) -> bool {
    matches!(byte, b' ' | b'\t')
}

pub fn blanks(text: &[u8]) -> usize {
    run(text, is_blank)
}

/// The number that the text begins with, if it has digits: its length, with its sign.
pub fn number(text: &[u8]) -> Option<usize> {
    let sign = usize::from(matches!(text.first(), Some(b'+' | b'-')));
    let digits = run(&text[sign..], |byte| byte.is_ascii_digit());
    if digits == 0 {
        None
    } else {
        Some(sign + digits)
    }
}

/// The length of a number that 64 bits hold.
fn held(text: &[u8]) -> Option<usize> {
    let length = number(text)?;
    std::str::from_utf8(&text[..length]).ok()?.parse::<i64>().ok().map(|_| length)
}

/// The length of a variable, with its `~` or `-`.
fn variable(text: &[u8]) -> Option<usize> {
    let negation = usize::from(matches!(text.first(), Some(b'~' | b'-')));
    let digits = run(text[negation..].strip_prefix(b"x")?, |byte| byte.is_ascii_digit());
    if digits == 0 {
        None
    } else {
        Some(negation + 1 + digits)
    }
}

/// The length of an operator.
pub fn operator(text: &[u8]) -> Option<usize> {
    match text {
        [b'<' | b'>', b'=', ..] => Some(2),
        [b'<' | b'>' | b'=', ..] => Some(1),
        _ => None,
    }
}

/// A statement read from the left.
struct Reader<'a> {
    text: &'a [u8],
    at: usize,
}

impl Reader<'_> {
    /// Takes so much as the rule says, or stops.
    fn take(&mut self, wanted: Wanted, rule: impl Fn(&[u8]) -> Option<usize>) -> Result<(), Stop> {
        let length = rule(&self.text[self.at..]).ok_or(Stop { wanted, at: self.at })?;
        self.at += length;
        Ok(())
    }

    fn blanks(&mut self) {
        self.at += blanks(&self.text[self.at..]);
    }

    fn term(&mut self) -> Result<(), Stop> {
        self.take(Wanted::Weight, held)?;
        self.take(Wanted::Blank, |text| Some(blanks(text)).filter(|count| *count > 0))?;
        self.take(Wanted::Variable, variable)?;
        self.blanks();
        Ok(())
    }

    /// Whether another term begins here.
    fn more(&self) -> bool {
        matches!(self.text.get(self.at), Some(b'0'..=b'9' | b'+' | b'-'))
    }

    fn terms(&mut self) -> Result<(), Stop> {
        while self.more() {
            self.term()?;
        }
        Ok(())
    }

    fn bound(&mut self) -> Result<(), Stop> {
        self.take(Wanted::Operator, operator)?;
        self.blanks();
        self.take(Wanted::Bound, held)?;
        self.blanks();
        Ok(())
    }

    fn stop(&mut self, objective: bool) -> Result<(), Stop> {
        self.blanks();
        self.terms()?;
        if !objective {
            self.bound()?;
        }
        self.take(Wanted::Ending, |text| if matches!(text.first(), None | Some(b';')) { Some(0) } else { None })
    }
}

/// Where the statement that this text begins with stops being one, if it does. The text ends where its line does.
pub fn stop(text: &[u8]) -> Option<Stop> {
    let objective = text.starts_with(b"min:");
    Reader { text, at: if objective { 4 } else { 0 } }.stop(objective).err()
}

/// The numbers of the variables of the statement that this text begins with, as far as they can be held.
pub fn variables(text: &[u8]) -> Vec<u64> {
    let statement = text.split(|byte| *byte == b';').next().unwrap_or_default();
    let behind_x = statement.split(|byte| *byte == b'x').skip(1);
    behind_x.filter_map(|text| std::str::from_utf8(&text[..run(text, |byte| byte.is_ascii_digit())]).ok()?.parse().ok()).collect()
}

#[cfg(test)]
mod tests {
    use super::{stop, variables, Stop, Wanted};

    #[test]
    fn a_statement_stops_where_the_library_says_why() {
        let cases =
            ["3*x1 >= 1", "3 y1 >= 1", "1 x1 + 2 x2 >= 1", "+x1 >= 1", "1 x1 x2 >= 1", "1 x1 == 1", "1 x1 >= 1 2", "min: x1", "min: 1 x1 >= 2", "99999999999999999999 x1 >= 1", "1 x1", "1 x1 >="];
        for case in cases {
            let reason = stop(case.as_bytes()).map(|it| it.wanted.reason());
            assert_eq!(reason, opb::count(case.as_bytes(), 1).err().map(|refusal| refusal.reason), "{}", case);
        }
        for case in ["1 x1 >= 1", "min:", "min: 1 -x1 ;", "+1  ~x1 -02 x2<-3 ; 1 x", "1 x1 > 2"] {
            assert_eq!(stop(case.as_bytes()), None, "{}", case);
        }
        assert_eq!(stop(b"1 x1 == 1"), Some(Stop { wanted: Wanted::Bound, at: 6 }));
    }

    #[test]
    fn variables_are_those_of_one_statement() {
        assert_eq!(variables(b"1 x3 2 ~x0 >= 1; 1 x7 >= 1"), [3, 0]);
        assert!(variables(b"1 x99999999999999999999 2 x >= 1").is_empty());
    }
}
