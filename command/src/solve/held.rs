//! What must not outlive the command: the solver's process and the folder of its file. Ctrl-C and the word to end (SIGINT, SIGTERM) end the solver and remove the folder before they end the command.
use nix::sys::signal::{kill, raise, SigSet, Signal};
use nix::unistd::Pid;
use std::fs;
use std::io;
use std::path::{Path, PathBuf};
use std::process::{self, Child, Command, ExitStatus};
use std::sync::{Arc, Mutex, MutexGuard, PoisonError};
use std::thread;
use tempfile::TempDir;

#[derive(Default)]
struct Both {
    solver: Option<Pid>,
    folder: Option<PathBuf>,
}

pub struct Held {
    both: Arc<Mutex<Both>>,
    folder: TempDir,
}

/// What the lock holds is a number and a path: they are whole, whoever had it before.
fn locked(both: &Mutex<Both>) -> MutexGuard<'_, Both> {
    both.lock().unwrap_or_else(PoisonError::into_inner)
}

/// Whether the command was started to ignore it, as a script's background jobs do with SIGINT.
fn is_ignored(signal: Signal) -> bool {
    let status = fs::read_to_string("/proc/self/status").unwrap_or_default();
    let mask = status.lines().find_map(|line| u64::from_str_radix(line.strip_prefix("SigIgn:")?.trim(), 16).ok());
    mask.map_or(false, |mask| mask >> (signal as u32 - 1) & 1 == 1)
}

fn signals() -> SigSet {
    let mut signals = SigSet::empty();
    [Signal::SIGINT, Signal::SIGTERM].into_iter().filter(|signal| !is_ignored(*signal)).for_each(|signal| signals.add(signal));
    signals
}

/// Waits for a signal, and ends everything. These signals are blocked in every thread, so that none but this one has them.
fn wait_for(signals: SigSet, both: &Mutex<Both>) {
    if let Ok(signal) = signals.wait() {
        let held = locked(both);
        if let Some(solver) = held.solver {
            let _ = kill(solver, Signal::SIGKILL);
        }
        if let Some(folder) = &held.folder {
            let _ = fs::remove_dir_all(folder);
        }
        // by the signal itself, so that who waits for the command sees it; the status is for where it is ignored
        let _ = signals.thread_unblock().and_then(|()| raise(signal));
        process::exit(128 + signal as i32);
    }
}

impl Held {
    /// A folder; from here on signals are waited for. Threads that run already would still end by them, so none may.
    pub fn new() -> io::Result<Held> {
        let both = Arc::new(Mutex::new(Both::default()));
        let signals = signals();
        signals.thread_block()?;
        let waited = Arc::clone(&both);
        thread::spawn(move || wait_for(signals, &waited));
        let folder = tempfile::Builder::new().prefix("opb-solve-").tempdir()?;
        locked(&both).folder = Some(folder.path().to_path_buf());
        Ok(Held { both, folder })
    }

    pub fn folder(&self) -> &Path {
        self.folder.path()
    }

    /// Starts the solver. What is blocked here would stay blocked in it, and it could not be asked to end: for this moment it is not.
    pub fn start(&self, command: &mut Command) -> io::Result<Child> {
        let mut both = locked(&self.both);
        let signals = signals();
        signals.thread_unblock()?;
        let started = command.spawn();
        signals.thread_block()?;
        let child = started?;
        both.solver = Some(Pid::from_raw(child.id() as i32));
        Ok(child)
    }

    /// Whether the solver has ended. Its number is free for another process then, so it is forgotten in the same step.
    pub fn ended(&self, child: &mut Child) -> io::Result<Option<ExitStatus>> {
        let mut both = locked(&self.both);
        let status = child.try_wait()?;
        if status.is_some() {
            both.solver = None;
        }
        Ok(status)
    }
}
