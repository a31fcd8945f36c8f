//! The header line of OPB files, `* #variable= N #constraint= M`: a comment to our reader, and asked for by solvers.

/// What a header says.
#[derive(Clone, Copy, Debug, PartialEq, Eq)]
pub struct Header {
    pub variables: u64,
    pub constraints: u64,
}

/// Whether a comment's text is a header, true or not.
pub fn is_header(text: &[u8]) -> bool {
    text.starts_with(b"#variable=")
}

impl Header {
    /// What a comment's text says, if it is a header that says both numbers.
    pub fn of(text: &[u8]) -> Option<Header> {
        let mut words = std::str::from_utf8(text).ok()?.split_ascii_whitespace();
        let mut number = |name: &str| {
            let word = words.next()?.strip_prefix(name)?;
            if word.is_empty() {
                words.next()?.parse().ok()
            } else {
                word.parse().ok()
            }
        };
        Some(Header { variables: number("#variable=")?, constraints: number("#constraint=")? })
    }

    /// As a comment's text.
    pub fn text(&self) -> String {
        format!("#variable= {} #constraint= {}", self.variables, self.constraints)
    }
}

#[cfg(test)]
mod tests {
    use super::Header;

    #[test]
    fn a_header_has_two_numbers() {
        let header = Some(Header { variables: 36, constraints: 19 });
        assert_eq!(Header::of(b"#variable= 36 #constraint= 19"), header);
        assert_eq!(Header::of(b"#variable=36  #constraint= 19 #equal= 2"), header);
        assert_eq!(Header::of(b"#variable= 36"), None);
        assert_eq!(Header::of(b"#variable= many #constraint= 19"), None);
        assert_eq!(header.map(|it| it.text()), Some("#variable= 36 #constraint= 19".to_string()));
    }
}
