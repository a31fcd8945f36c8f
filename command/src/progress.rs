//! One line on a terminal's standard error while large files are worked on; nothing is left of it.
use crate::options::Common;
use indicatif::{ProgressBar, ProgressDrawTarget, ProgressStyle};
use std::time::Duration;

/// Files below this many bytes are done before a person would look.
const LARGE: u64 = 1 << 24;

/// Of work whose end is known, and of work whose end is not.
const PERCENT: &str = "{msg} {bar:30} {percent:>3}% {elapsed}";
const TIME: &str = "{spinner} {msg} {elapsed}";
const BYTES: &str = "{spinner} {msg} {bytes} {elapsed}";

fn style(template: &str) -> ProgressStyle {
    ProgressStyle::with_template(template).unwrap_or_else(|_| ProgressStyle::default_bar())
}

pub struct Progress {
    name: String,
    wanted: bool,
}

/// A line that goes away with this.
pub struct Bar {
    bar: ProgressBar,
    wanted: bool,
}

impl Progress {
    pub fn of(name: &str, common: &Common) -> Progress {
        Progress { name: name.to_string(), wanted: !common.quiet }
    }

    /// Of so many steps, hidden. Where standard error is no terminal, it stays so.
    fn hidden(&self, what: &str, steps: u64, template: &str) -> Bar {
        let bar = ProgressBar::with_draw_target(Some(steps), ProgressDrawTarget::hidden());
        bar.set_style(style(template));
        bar.set_message(format!("{}: {}", self.name, what));
        Bar { bar, wanted: self.wanted }
    }

    /// Percent of so many steps, of work on a file of so many bytes.
    pub fn percent(&self, what: &str, bytes: usize, steps: usize) -> Bar {
        let bar = self.hidden(what, steps as u64, PERCENT);
        bar.show_if(bytes as u64);
        bar
    }

    /// Of reading a file of so many bytes; 0: of a length that is not known.
    pub fn reading(&self, expected: u64) -> Bar {
        let bar = self.hidden("reading", expected, if expected > 0 { PERCENT } else { BYTES });
        bar.show_if(expected);
        bar
    }

    /// Does the work on so many bytes, and shows for how long.
    pub fn during<T>(&self, what: &str, bytes: usize, work: impl FnOnce() -> T) -> T {
        let bar = self.hidden(&format!("{} {} MB", what, bytes / 1_000_000), 0, TIME);
        if bar.show_if(bytes as u64) {
            bar.bar.enable_steady_tick(Duration::from_millis(200));
        }
        work()
    }
}

impl Bar {
    /// Shows it, where so many bytes are large.
    fn show_if(&self, bytes: u64) -> bool {
        let large = self.wanted && bytes >= LARGE;
        if large && self.bar.is_hidden() {
            self.bar.set_draw_target(ProgressDrawTarget::stderr());
        }
        large
    }

    /// So many steps are done.
    pub fn at(&self, steps: usize) {
        self.bar.set_position(steps as u64);
    }

    /// So many bytes are read, which may be more than a person waits for.
    pub fn read(&self, bytes: usize) {
        self.show_if(bytes as u64);
        self.at(bytes);
    }
}

impl Drop for Bar {
    fn drop(&mut self) {
        self.bar.finish_and_clear();
    }
}
