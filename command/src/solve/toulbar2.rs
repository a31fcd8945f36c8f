//! The lines of toulbar2 (`-s=3`) as those that other solvers print.

/// Whether a line with this first byte may be one of those below.
pub fn keeps(first: u8) -> bool {
    matches!(first, b'N' | b'O' | b'T' | b' ')
}

/// The line in the usual form, if it has one.
pub fn translated(line: &[u8]) -> Option<Vec<u8>> {
    let text = std::str::from_utf8(line).ok()?;
    let begins = |words: &str| text.starts_with(words);
    if let Some(rest) = text.strip_prefix("New solution: ") {
        return Some(format!("o {}\n", rest.split_whitespace().next()?).into_bytes());
    }
    if begins(" x") {
        return Some(values(text));
    }
    let status = match () {
        () if begins("Optimum: ") => "s OPTIMUM FOUND\n",
        () if begins("No solution ") => "s UNSATISFIABLE\n",
        // it was told to end: what it has is a solution, if there is one
        () if begins("Time limit expired") => "s SATISFIABLE\n",
        () => return None,
    };
    Some(status.as_bytes().to_vec())
}

/// `x1=v0 x2=v1` is `v -x1 x2`. A word that is neither stays as it is, and is refused with the values.
fn values(text: &str) -> Vec<u8> {
    let mut line = String::with_capacity(text.len());
    line.push('v');
    for word in text.split_whitespace() {
        let (sign, name) = match word.split_once('=') {
            Some((name, "v0")) => ("-", name),
            Some((name, "v1")) => ("", name),
            _ => ("", word),
        };
        line.extend([" ", sign, name]);
    }
    line.push('\n');
    line.into_bytes()
}

#[cfg(test)]
mod tests {
    use super::translated;

    #[test]
    fn its_lines_are_told_as_others_tell_them() {
        let told = |line: &str| translated(line.as_bytes()).map(|line| String::from_utf8(line).unwrap());
        assert_eq!(told("New solution: -373 (6 backtracks, 24 nodes, depth 7)\n").as_deref(), Some("o -373\n"));
        assert_eq!(told(" x1=v1 x2=v0 x12=v1\n").as_deref(), Some("v x1 -x2 x12\n"));
        assert_eq!(told(" x1=v2 x2\n").as_deref(), Some("v x1=v2 x2\n"));
        assert_eq!(told("Optimum: -374 in 293 backtracks\n").as_deref(), Some("s OPTIMUM FOUND\n"));
        assert_eq!(told("No solution found by initial propagation!\n").as_deref(), Some("s UNSATISFIABLE\n"));
        assert_eq!(told("No solution in 0 backtracks and 0 nodes\n").as_deref(), Some("s UNSATISFIABLE\n"));
        assert_eq!(told("Time limit expired... Aborting...\n").as_deref(), Some("s SATISFIABLE\n"));
        assert_eq!(told("Optimality gap: [-616, 5693438679] 100.000 % (4 backtracks, 8 nodes)\n"), None);
    }
}
