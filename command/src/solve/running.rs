//! A solver's process: its output read as it comes, its time, its end.
use super::held::Held;
use super::said::Said;
use super::solver::Solver;
use indicatif::{ProgressBar, ProgressStyle};
use nix::sys::signal::{kill, Signal};
use nix::unistd::Pid;
use std::io::{self, Read};
use std::os::unix::process::ExitStatusExt;
use std::path::Path;
use std::process::{Child, Command, ExitStatus, Stdio};
use std::sync::mpsc::{sync_channel, Receiver, RecvTimeoutError};
use std::sync::{Arc, Mutex, PoisonError};
use std::thread::{self, JoinHandle};
use std::time::{Duration, Instant};

/// How many bytes are read at once, and how many such pieces may wait.
const PIECE: usize = 1 << 16;
const PIECES: usize = 16;

/// How long is waited between two looks at the clock.
const TICK: Duration = Duration::from_millis(20);

/// A solver that is asked to end has so long to print what it has.
const GRACE: Duration = Duration::from_secs(5);

/// A solver that has ended has left its last bytes in the pipe; another process that holds the pipe is not waited for any longer.
const REST: Duration = Duration::from_secs(1);

/// How many bytes of standard error are kept, from its end.
const LAST: usize = 2000;

/// What came of it.
pub struct Run {
    /// What cannot be read, in words.
    pub unreadable: Option<String>,
    /// Its last line is not whole, in words.
    pub half: Option<String>,
    pub end: ExitStatus,
    /// The time was up before its end.
    pub stopped: bool,
    pub seconds: f64,
    /// The last lines of its standard error.
    pub last_words: String,
}

impl Run {
    /// The name of the signal that ended it, where we sent none.
    pub fn died_by(&self) -> Option<String> {
        let signal = self.end.signal().filter(|_| !self.stopped)?;
        Some(Signal::try_from(signal).map_or_else(|_| format!("signal {}", signal), |signal| signal.as_str().to_string()))
    }
}

/// When it is asked to end, and when it is ended.
struct Clock {
    begun: Instant,
    limit: Option<Duration>,
    asked: bool,
}

impl Clock {
    fn is_past(&self, more: Duration) -> bool {
        self.limit.map_or(false, |limit| self.begun.elapsed() >= limit + more)
    }

    /// What is due now. To a process that has ended nothing is sent: its number may be another's.
    fn look(&mut self, child: &mut Child, held: &Held) {
        if !self.is_past(Duration::ZERO) || matches!(held.ended(child), Ok(Some(_))) {
            return;
        }
        if !self.asked {
            self.asked = true;
            let _ = kill(Pid::from_raw(child.id() as i32), Signal::SIGTERM);
        }
        if self.is_past(GRACE) {
            let _ = child.kill();
        }
    }
}

/// Elapsed time and the best value so far, where standard error is a terminal.
fn spinner(name: &str, quiet: bool) -> ProgressBar {
    let bar = if quiet { ProgressBar::hidden() } else { ProgressBar::new_spinner() };
    if let Ok(style) = ProgressStyle::with_template("{spinner} {prefix}: {elapsed} {msg}") {
        bar.set_style(style);
    }
    bar.set_prefix(name.to_string());
    bar.enable_steady_tick(Duration::from_millis(100));
    bar
}

/// The bytes of standard output in pieces, until it is closed or nobody takes them any more.
fn pieces_of(mut output: impl Read + Send + 'static) -> Receiver<Vec<u8>> {
    let (give, taken) = sync_channel(PIECES);
    thread::spawn(move || loop {
        let mut piece = vec![0; PIECE];
        match output.read(&mut piece) {
            Err(error) if error.kind() == io::ErrorKind::Interrupted => {}
            Ok(length) if length > 0 => {
                piece.truncate(length);
                if give.send(piece).is_err() {
                    return;
                }
            }
            _ => return,
        }
    });
    taken
}

/// The last bytes of standard error, so far, and the thread that reads them.
struct Tail {
    bytes: Arc<Mutex<Vec<u8>>>,
    reading: JoinHandle<()>,
}

impl Tail {
    fn of(mut errors: impl Read + Send + 'static) -> Tail {
        let bytes = Arc::new(Mutex::new(Vec::new()));
        let filled = Arc::clone(&bytes);
        let reading = thread::spawn(move || {
            let mut piece = [0; 4096];
            while let Ok(length @ 1..) = errors.read(&mut piece) {
                let mut tail = filled.lock().unwrap_or_else(PoisonError::into_inner);
                tail.extend_from_slice(&piece[..length]);
                let extra = tail.len().saturating_sub(LAST);
                tail.drain(..extra);
            }
        });
        Tail { bytes, reading }
    }

    /// The lines of it, when the solver has ended: what it printed last may be on its way for a moment.
    fn lines(&self) -> String {
        let since = Instant::now();
        while !self.reading.is_finished() && since.elapsed() < 10 * TICK {
            thread::sleep(Duration::from_millis(1));
        }
        String::from_utf8_lossy(&self.bytes.lock().unwrap_or_else(PoisonError::into_inner)).trim().to_string()
    }
}

/// Runs the solver on a file. `offset` is what is added to the values that it tells. An error is that of starting it, or of waiting for it.
pub fn run(solver: &Solver, file: &Path, limit: Option<Duration>, said: &mut Said, offset: i64, held: &Held, quiet: bool) -> io::Result<Run> {
    let mut clock = Clock { begun: Instant::now(), limit, asked: false };
    let mut command = Command::new(&solver.words[0]);
    command.args(&solver.words[1..]).arg(file).stdin(Stdio::null()).stdout(Stdio::piped()).stderr(Stdio::piped());
    let mut child = held.start(&mut command)?;
    let pieces = child.stdout.take().map(pieces_of);
    let tail = child.stderr.take().map(Tail::of);
    let bar = spinner(&solver.name, quiet);
    let read = pieces.map_or(Ok(()), |pieces| listen(&pieces, &mut child, &mut clock, held, |piece| hear(said, piece, offset, &bar)));
    if read.is_err() {
        let _ = child.kill();
    }
    let end = end_of(&mut child, &mut clock, held)?;
    bar.finish_and_clear();
    let seconds = clock.begun.elapsed().as_secs_f64();
    let last_words = tail.map_or(String::new(), |tail| tail.lines());
    Ok(Run { unreadable: read.err(), half: said.end().err(), end, stopped: clock.asked, seconds, last_words })
}

fn hear(said: &mut Said, piece: &[u8], offset: i64, bar: &ProgressBar) -> Result<(), String> {
    let before = said.worth;
    said.take(piece)?;
    match said.worth {
        Some(worth) if said.worth != before => bar.set_message(format!("best so far {}", i128::from(worth) + i128::from(offset))),
        _ => {}
    }
    Ok(())
}

/// Takes pieces until there are no more, or one of them cannot be read.
fn listen(pieces: &Receiver<Vec<u8>>, child: &mut Child, clock: &mut Clock, held: &Held, mut hear: impl FnMut(&[u8]) -> Result<(), String>) -> Result<(), String> {
    let mut ended = None;
    loop {
        clock.look(child, held);
        match pieces.recv_timeout(TICK) {
            Ok(piece) => hear(&piece)?,
            Err(RecvTimeoutError::Disconnected) => return Ok(()),
            Err(RecvTimeoutError::Timeout) => {
                if ended.is_none() && matches!(held.ended(child), Ok(Some(_))) {
                    ended = Some(Instant::now());
                }
            }
        }
        if ended.map_or(false, |since| since.elapsed() > REST) {
            return Ok(());
        }
    }
}

/// Waits for the end; the clock goes on.
fn end_of(child: &mut Child, clock: &mut Clock, held: &Held) -> io::Result<ExitStatus> {
    loop {
        if let Some(end) = held.ended(child)? {
            return Ok(end);
        }
        clock.look(child, held);
        thread::sleep(Duration::from_millis(1));
    }
}
