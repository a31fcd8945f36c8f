//! A solver's `s`, `o` and `v` lines, read as they come. Of the rest of its output nothing is kept, and of these no more than one answer needs.
use super::toulbar2;
use crate::values::{is_value, is_worth, Coming};
use std::mem::take;

/// An answer has a value for each variable, with room for every way to say it.
const ROOM: usize = 64 << 20;
const ROOM_OF_VARIABLE: usize = 32;

/// How many characters of a line are shown that cannot be read.
const SHOWN: usize = 72;

/// The words of an `s` line.
#[derive(Clone, Copy, Debug, PartialEq, Eq)]
pub enum Claim {
    Optimum,
    Satisfiable,
    Unsatisfiable,
    Unknown,
    Unsupported,
}

const CLAIMS: [(&str, Claim); 5] =
    [("OPTIMUM FOUND", Claim::Optimum), ("SATISFIABLE", Claim::Satisfiable), ("UNSATISFIABLE", Claim::Unsatisfiable), ("UNKNOWN", Claim::Unknown), ("UNSUPPORTED", Claim::Unsupported)];

impl Claim {
    fn of(word: &str) -> Option<Claim> {
        CLAIMS.iter().find(|(said, _)| *said == word).map(|(_, claim)| *claim)
    }

    pub fn word(self) -> &'static str {
        CLAIMS.iter().find(|(_, claim)| *claim == self).map_or("", |(word, _)| word)
    }
}

/// Whose lines they are.
#[derive(Clone, Copy, Debug, PartialEq, Eq)]
pub enum Form {
    Usual,
    Toulbar2,
}

/// What was said so far.
pub struct Said {
    form: Form,
    most: usize,
    line: Vec<u8>,
    length: usize,
    kept: bool,
    pub claim: Option<Claim>,
    pub worth: Option<i64>,
    pub values: Coming,
}

fn shown(line: &[u8]) -> String {
    String::from_utf8_lossy(line).trim_end().chars().take(SHOWN).collect()
}

fn is_status(line: &[u8]) -> bool {
    line.first() == Some(&b's') && line.get(1).map_or(false, u8::is_ascii_whitespace)
}

impl Said {
    /// For an answer of so many variables.
    pub fn new(form: Form, variables: u64) -> Said {
        let most = ROOM.saturating_add((variables as usize).saturating_mul(ROOM_OF_VARIABLE));
        Said { form, most, line: Vec::new(), length: 0, kept: false, claim: None, worth: None, values: Coming::default() }
    }

    /// The next bytes, which may end within a line. What cannot be read is said in words.
    pub fn take(&mut self, bytes: &[u8]) -> Result<(), String> {
        bytes.split_inclusive(|byte| *byte == b'\n').try_for_each(|piece| self.take_piece(piece))
    }

    /// A line or a part of one.
    fn take_piece(&mut self, piece: &[u8]) -> Result<(), String> {
        if self.length == 0 {
            self.kept = self.keeps(piece[0]);
        }
        self.length += piece.len();
        if self.length > self.most {
            return Err(format!("it prints a line of more than {} bytes", self.most));
        }
        if self.kept {
            self.line.extend_from_slice(piece);
        }
        if piece.ends_with(b"\n") {
            self.length = 0;
            let line = take(&mut self.line);
            return self.take_line(&line);
        }
        Ok(())
    }

    /// Whether a line with this first byte may be one that counts; comments go as they come.
    fn keeps(&self, first: u8) -> bool {
        match self.form {
            Form::Usual => matches!(first, b's' | b'o' | b'v'),
            Form::Toulbar2 => toulbar2::keeps(first),
        }
    }

    fn take_line(&mut self, line: &[u8]) -> Result<(), String> {
        match self.form {
            Form::Usual => self.take_usual(line),
            Form::Toulbar2 => toulbar2::translated(line).map_or(Ok(()), |line| self.take_usual(&line)),
        }
    }

    fn take_usual(&mut self, line: &[u8]) -> Result<(), String> {
        if is_value(line) {
            if self.values.len() + line.len() > self.most {
                return Err(format!("it prints value lines of more than {} bytes for one answer", self.most));
            }
            self.values.value(line);
        } else if is_worth(line) {
            self.values.worth();
            self.worth = Some(number(line).ok_or_else(|| format!("`{}` is no line with a number of 64 bits", shown(line)))?);
        } else if is_status(line) {
            self.take_claim(line)?;
        }
        Ok(())
    }

    fn take_claim(&mut self, line: &[u8]) -> Result<(), String> {
        let word = String::from_utf8_lossy(&line[1..]);
        let claim = Claim::of(word.trim()).ok_or_else(|| format!("`{}` is no status that solvers have", shown(line)))?;
        match self.claim {
            Some(before) if before != claim => Err(format!("it has two statuses, `s {}` and then `s {}`", before.word(), claim.word())),
            _ => {
                self.claim = Some(claim);
                Ok(())
            }
        }
    }

    /// No more comes: a line that counts must have ended.
    pub fn end(&self) -> Result<(), String> {
        let line = &self.line;
        let counts = match self.form {
            Form::Usual => line.len() == 1 || is_status(line) || is_worth(line) || is_value(line),
            Form::Toulbar2 => toulbar2::translated(line).is_some(),
        };
        if counts {
            return Err(format!("its last line is half a line (no line feed ends it): `{}`", shown(line)));
        }
        Ok(())
    }
}

/// The number of an `o` line.
fn number(line: &[u8]) -> Option<i64> {
    std::str::from_utf8(&line[1..]).ok()?.trim().parse().ok()
}

#[cfg(test)]
mod tests {
    use super::{Claim, Form, Said};

    fn said(pieces: &[&str]) -> Result<Said, String> {
        let mut said = Said::new(Form::Usual, 3);
        pieces.iter().try_for_each(|piece| said.take(piece.as_bytes()))?;
        said.end()?;
        Ok(said)
    }

    #[test]
    fn lines_may_come_in_pieces() {
        let said = said(&["c x\no", " 4\no -", "3\nv x1", " -x2\r\ns OPTI", "MUM FOUND\r\n", "solving"]).unwrap();
        assert_eq!((said.claim, said.worth, said.values.block()), (Some(Claim::Optimum), Some(-3), Some(&b"v x1 -x2\r\n"[..])));
    }

    #[test]
    fn what_cannot_be_read_is_said() {
        let words = [
            ("s MAYBE\n", "no status"),
            ("s UNKNOWN\ns SATISFIABLE\n", "two statuses"),
            ("o 3.5\n", "64 bits"),
            ("o 9223372036854775808\n", "64 bits"),
            ("v x1", "half"),
            ("s", "half"),
            ("s \n", "no status"),
        ];
        for (lines, why) in words {
            let message = said(&[lines]).err().unwrap();
            assert!(message.contains(why), "{}: {}", lines, message);
        }
        assert_eq!(said(&["s UNKNOWN\ns UNKNOWN\n"]).unwrap().claim, Some(Claim::Unknown));
    }

    #[test]
    fn no_more_is_kept_than_an_answer_needs() {
        let mut said = Said::new(Form::Usual, 0);
        let comment = vec![b'c'; 1 << 20];
        assert!((0..64).all(|_| said.take(&comment).is_ok()) && said.take(&comment).is_err());
        assert_eq!(said.line.len(), 0);
        let mut said = Said::new(Form::Usual, 0);
        let line = [b"v".as_slice(), &vec![b' '; (1 << 20) - 2], b"\n"].concat();
        assert!((0..64).all(|_| said.take(&line).is_ok()) && said.take(&line).unwrap_err().contains("value lines"));
    }
}
