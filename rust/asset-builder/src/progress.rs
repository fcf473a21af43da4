//! Progress of long work, on a terminal.

use indicatif::{ProgressBar, ProgressStyle};
use std::sync::mpsc::{channel, Receiver, RecvTimeoutError};
use std::thread;
use std::time::{Duration, Instant};

/// Work that takes less shows no progress, unless the environment names another time in milliseconds.
const LONG: Duration = Duration::from_millis(500);
const OTHER_LONG: &str = "ASSET_BUILDER_PROGRESS_AFTER";
const OF_FILES: &str = "{bar:40} {pos} of {len}, {eta} left";
/// How often the time of a step without parts is shown anew.
const TICK: Duration = Duration::from_millis(100);
const OF_STEP: &str = "{msg} for {elapsed}";
const OF_BYTES: &str = "{bar:40} {bytes} of {total_bytes}, {eta} left";

/// How far the work is; it is shown on standard error once the work has taken long.
pub struct Progress {
    shown: bool,
    /// Work that takes less shows none.
    long: Duration,
    started: Instant,
    bar: Option<ProgressBar>,
    /// How a bar looks.
    template: &'static str,
    done: u64,
    total: u64,
}

impl Progress {
    /// Progress that is shown only if somebody looks.
    pub fn new(shown: bool) -> Progress {
        Progress {
            shown,
            long: long(),
            started: Instant::now(),
            bar: None,
            template: OF_FILES,
            done: 0,
            total: 0,
        }
    }

    /// There will be so many files.
    pub fn expect(&mut self, files: usize) {
        self.begin(files as u64, OF_FILES);
    }

    /// There will be so many bytes.
    pub fn expect_bytes(&mut self, bytes: u64) {
        self.begin(bytes, OF_BYTES);
    }

    fn begin(&mut self, total: u64, template: &'static str) {
        self.clear();
        self.template = template;
        self.done = 0;
        self.total = total;
    }

    /// One file is done.
    pub fn step(&mut self) {
        self.advance(1);
    }

    /// So much is done.
    pub fn advance(&mut self, done: u64) {
        self.done += done;
        // One step has no progress.
        if !self.shown || self.total < 2 || self.started.elapsed() < self.long {
            return;
        }
        let (total, template) = (self.total, self.template);
        let bar = self.bar.get_or_insert_with(|| new_bar(total, template));
        bar.set_position(self.done);
    }

    /// Does a step that has no parts; once it has taken long, its name and its time are shown,
    /// unless it is a part of work whose progress is shown.
    pub fn during<T>(&self, name: &'static str, step: impl FnOnce() -> T) -> T {
        if !self.shown || self.bar.is_some() {
            return step();
        }
        // The thread sees that the step has ended when its end of the channel is gone.
        let (running, ended) = channel();
        let long = self.long;
        thread::scope(|scope| {
            scope.spawn(move || show_until(&ended, name, long));
            let done = step();
            drop(running);
            done
        })
    }

    /// Does something with the progress out of the way.
    pub fn aside<T>(&self, action: impl FnOnce() -> T) -> T {
        match &self.bar {
            Some(bar) => bar.suspend(action),
            None => action(),
        }
    }

    /// Takes the progress away.
    pub fn clear(&mut self) {
        if let Some(bar) = self.bar.take() {
            bar.finish_and_clear();
        }
    }
}

/// How long work takes before its progress is shown.
fn long() -> Duration {
    let asked = std::env::var(OTHER_LONG).ok();
    let asked = asked.and_then(|it| it.parse().ok());
    asked.map_or(LONG, Duration::from_millis)
}

/// Shows a step from when it has taken long until it has ended.
fn show_until(ended: &Receiver<()>, name: &'static str, long: Duration) {
    let goes_on = |time| ended.recv_timeout(time) == Err(RecvTimeoutError::Timeout);
    if !goes_on(long) {
        return;
    }
    let style = ProgressStyle::with_template(OF_STEP).expect("a template of ours");
    let spinner = ProgressBar::new_spinner().with_style(style);
    spinner.set_message(name);
    while goes_on(TICK) {
        spinner.tick();
    }
    spinner.finish_and_clear();
}

fn new_bar(total: u64, template: &str) -> ProgressBar {
    let style = ProgressStyle::with_template(template);
    ProgressBar::new(total).with_style(style.expect("a template of ours"))
}
