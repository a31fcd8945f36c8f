//! Which solver is run, and by which words.
use super::said::Form;
use std::env;
use std::fs;
use std::os::unix::fs::PermissionsExt;
use std::path::Path;

const SAT4J: &str = "/usr/share/java/org.sat4j.pb.jar";

/// Those that are known by name, in the order in which they are looked for. Each is a Debian package of that name. toulbar2 keeps seven decimal places where it is not told that there are none, and
/// then says "no solution" where the best value is beyond 5,693,438,679.
const KNOWN: [(&str, &[&str]); 4] = [("clasp", &["clasp"]), ("minisat+", &["minisat+"]), ("sat4j", &["java", "-jar", SAT4J]), ("toulbar2", &["toulbar2", "-s=3", "-precision=0"])];

/// A command, whose last word will be the plan's file, and the form of its lines.
#[derive(Debug)]
pub struct Solver {
    pub name: String,
    pub words: Vec<String>,
    pub form: Form,
}

/// Why there is no solver to run.
pub enum NoSolver {
    Words(String),
    Missing(String),
}

/// What there is to do where one is missing.
fn to_install() -> String {
    let names: Vec<&str> = KNOWN.iter().map(|known| known.0).collect();
    format!("  what to do: install one of the Debian packages {} (as root: apt-get install {}), or name another solver with --solver COMMAND", names.join(", "), names[0])
}

fn is_program(file: &Path) -> bool {
    fs::metadata(file).map_or(false, |found| found.is_file() && found.permissions().mode() & 0o111 != 0)
}

/// Whether a program would be found under this name.
fn is_found(program: &str) -> bool {
    if program.contains('/') {
        return is_program(Path::new(program));
    }
    env::var_os("PATH").map_or(false, |path| env::split_paths(&path).any(|folder| is_program(&folder.join(program))))
}

fn is_installed(words: &[&str]) -> bool {
    is_found(words[0]) && words.iter().all(|word| *word != SAT4J || Path::new(word).exists())
}

fn known((name, words): (&str, &[&str])) -> Solver {
    Solver { name: name.to_string(), words: words.iter().map(|word| word.to_string()).collect(), form: form_of(words[0]) }
}

/// toulbar2's lines have a form of their own, by whatever words it is run.
fn form_of(program: &str) -> Form {
    match Path::new(program).file_name().and_then(|name| name.to_str()) {
        Some("toulbar2") => Form::Toulbar2,
        _ => Form::Usual,
    }
}

/// The solver that was named, else the first that is installed.
pub fn chosen(named: Option<&str>) -> Result<Solver, NoSolver> {
    match named {
        None => KNOWN.into_iter().find(|it| is_installed(it.1)).map(known).ok_or_else(|| NoSolver::Missing(format!("opb: no solver is installed\n{}", to_install()))),
        Some(name) => match KNOWN.into_iter().find(|it| it.0 == name) {
            Some(it) if is_installed(it.1) => Ok(known(it)),
            Some(_) => Err(NoSolver::Missing(format!("opb: the solver {} is not installed\n  what to do: install the Debian package {} (as root: apt-get install {})", name, name, name))),
            None => command(name),
        },
    }
}

fn command(text: &str) -> Result<Solver, NoSolver> {
    let words = shell_words::split(text).map_err(|error| NoSolver::Words(format!("opb: --solver {}: {}", text, error)))?;
    match words.first() {
        None => Err(NoSolver::Words("opb: --solver has no words".to_string())),
        Some(program) if !is_found(program) => Err(NoSolver::Missing(format!("opb: the solver {} is not there, or is no program\n{}", program, to_install()))),
        Some(program) => Ok(Solver { name: program.clone(), form: form_of(program), words }),
    }
}
