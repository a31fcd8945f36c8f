//! The words of the command line, and files that are not there.
mod common;
use common::{opb, printed, PLAN};

#[test]
fn help_says_all_of_it() {
    let (status, help, trouble) = opb(&["--help"], "");
    assert_eq!((status, trouble.as_str()), (0, ""));
    for word in ["check", "list", "normal", "rewrite", "evaluate", "solve", "--first", "--quiet", "standard input", "Exit status"] {
        assert!(help.contains(word), "{}", word);
    }
    assert_eq!(opb(&["help"], ""), printed(0, &help));
}

#[test]
fn help_of_a_command_says_more_than_its_short_help() {
    let words = [
        ("check", "goes on with the next line"),
        ("check", "--json"),
        ("list", "A refusal is one line"),
        ("normal", "opposite literal"),
        ("rewrite", "* objective offset for previous objective: N"),
        ("solve", "every row of the plan as it was read"),
        ("evaluate", "behind the last line of `o` and a number"),
    ];
    for (command, text) in words {
        let (status, help, _) = opb(&["help", command], "");
        // lines are broken where the terminal ends
        let joined = help.split_whitespace().collect::<Vec<_>>().join(" ");
        assert!(status == 0 && joined.contains(text), "{}: {}", command, help);
        assert_eq!(opb(&[command, "--help"], ""), printed(0, &help));
        assert!(opb(&[command, "-h"], "").1.len() < help.len());
    }
}

#[test]
fn the_version_is_the_crates() {
    assert_eq!(opb(&["--version"], ""), printed(0, concat!("opb ", env!("CARGO_PKG_VERSION"), "\n")));
    assert_eq!(env!("CARGO_PKG_VERSION"), "0.2.0");
}

#[test]
fn an_option_may_have_its_value_behind_an_equals_sign() {
    assert_eq!(opb(&["list", "-", "--first=0"], "1 x0 >= 1;"), printed(0, "opb\t1\t1\t0\nge\t1\t1\tx0\n"));
    assert_eq!(opb(&["--first", "0", "list", "-"], "1 x0 >= 1;").0, 0);
}

#[test]
fn completions_name_the_commands() {
    for shell in ["bash", "zsh", "fish"] {
        let (status, text, trouble) = opb(&["completions", shell], "");
        assert_eq!((status, trouble.as_str()), (0, ""));
        assert!(["check", "evaluate", "solve", "no-negated", "for-solvers"].iter().all(|word| text.contains(word)), "{}", shell);
    }
}

#[test]
fn wrong_usage_is_2() {
    let words: [&[&str]; 18] = [
        &[],
        &["lists", "-"],
        &["check"],
        &["list", "-", "-"],
        &["rewrite", "-"],
        &["check", "-", "--negated"],
        &["check", "-", "--first"],
        &["check", "-", "--first", "-1"],
        &["check", "-", "--last"],
        &["evaluate"],
        &["evaluate", "-"],
        &["evaluate", "-", "-"],
        &["evaluate", "-", "a", "b"],
        &["evaluate", "a", "-", "--negated"],
        &["rewrite", "-", "--negated", "--for-solvers"],
        &["check", "-", "-o", "a"],
        &["check", "-", "-"],
        &["completions", "cobol"],
    ];
    for words in words {
        let (status, out, trouble) = opb(words, PLAN);
        assert_eq!((status, out.as_str()), (2, ""), "{:?}", words);
        assert!(["error: ", "opb: ", "Plans as OPB files"].iter().any(|word| trouble.starts_with(word)), "{}", trouble);
    }
}

#[test]
fn a_file_that_cannot_be_read_is_2() {
    let (status, out, trouble) = opb(&["check", "no such file", "-"], "");
    assert_eq!((status, out.as_str()), (2, "standard input: accepted: rows 0 (comments 0, constraints 0, objectives 0), terms 0, variables 0\n"));
    assert!(trouble.starts_with("opb: no such file: ") && trouble.ends_with("standard input: warning: the plan has no constraint and no objective\n"), "{}", trouble);
    assert_eq!(opb(&["list", env!("CARGO_TARGET_TMPDIR")], "").0, 2);
    let (status, out, trouble) = opb(&["evaluate", "-", "no such output"], PLAN);
    assert_eq!((status, out.as_str()), (2, ""));
    assert!(trouble.starts_with("opb: no such output: "), "{}", trouble);
}
