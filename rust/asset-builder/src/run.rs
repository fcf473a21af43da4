//! One run of the command: what it prints, and the status that it ends with.

use crate::output::cut;
use crate::progress::Progress;
use crate::terminal::{Paint, Stream, When};
use std::fmt::Display;
use std::io::{self, ErrorKind, Write};
use std::process::ExitCode;

/// The exit status.
#[derive(Clone, Copy, Debug, PartialEq, Eq, PartialOrd, Ord)]
pub enum Status {
    /// Everything was taken.
    Taken = 0,
    /// Something was refused.
    Refused = 1,
    /// The command is wrong, or something could not be read or written.
    Failed = 2,
}

/// Why a run ends early.
pub enum Stop {
    /// Nobody reads standard output any more.
    ClosedPipe,
    /// What went wrong.
    Failed(String),
}

pub type End = Result<(), Stop>;

/// How much a run prints, and how.
#[derive(clap::Args, Clone, Copy, Default)]
pub struct Manner {
    /// Print refusals, failures and what is asked for, and nothing else
    #[arg(short, long, global = true, conflicts_with = "verbose")]
    quiet: bool,

    /// Say on standard error what is read and written
    #[arg(short, long, global = true)]
    verbose: bool,

    /// When to use colours; auto is on a terminal, unless NO_COLOR is set
    #[arg(
        long,
        global = true,
        value_name = "WHEN",
        value_enum,
        default_value = "auto"
    )]
    color: When,

    /// Show no progress
    #[arg(long, global = true)]
    no_progress: bool,
}

pub struct Run {
    out: Stream<io::Stdout>,
    err: Stream<io::Stderr>,
    progress: Progress,
    status: Status,
    failure: String,
    manner: Manner,
}

impl Run {
    pub fn new(manner: Manner) -> Run {
        let err = Stream::new(io::stderr(), manner.color);
        Run {
            progress: Progress::new(err.is_terminal() && !manner.no_progress),
            out: Stream::new(io::stdout(), manner.color),
            err,
            status: Status::Taken,
            failure: String::new(),
            manner,
        }
    }

    /// Whether only refusals, failures and what is asked for are printed.
    pub fn is_quiet(&self) -> bool {
        self.manner.quiet
    }

    /// Prints what was done, unless that is not wanted.
    pub fn print_done(&mut self, text: &str) -> End {
        match self.manner.quiet {
            true => Ok(()),
            false => self.print(text),
        }
    }

    /// Prints to standard error what is worth to know, unless that is not wanted.
    pub fn remark(&mut self, text: &str) {
        if !self.manner.quiet {
            self.note(text);
        }
    }

    /// Prints to standard error what is done, if that is wanted.
    pub fn say(&mut self, text: &str) {
        if self.manner.verbose {
            self.note(text);
        }
    }

    /// Prints to standard output.
    pub fn print(&mut self, text: &str) -> End {
        self.print_bytes(text.as_bytes())
    }

    pub fn print_bytes(&mut self, bytes: &[u8]) -> End {
        let out = &mut self.out;
        self.progress.aside(|| out.write(bytes)).map_err(stop)
    }

    /// Prints what an action writes, in pieces.
    pub fn print_by(&mut self, action: impl FnOnce(&mut dyn Write) -> io::Result<()>) -> End {
        let out = &mut self.out;
        self.progress.aside(|| out.write_by(action)).map_err(stop)
    }

    /// Lets standard output have all that was printed.
    pub fn flush(&mut self) -> End {
        self.out.flush().map_err(stop)
    }

    /// Whether standard output is a terminal.
    pub fn prints_to_terminal(&self) -> bool {
        self.out.is_any_terminal()
    }

    /// Prints to standard error.
    pub fn note(&mut self, text: &str) {
        let (out, err) = (&mut self.out, &mut self.err);
        // What cannot be written here is left to the status and to the end of the run.
        let _ = self.progress.aside(|| {
            let _ = out.flush();
            err.write(text.as_bytes())?;
            err.flush()
        });
    }

    /// Says on standard error that something failed.
    pub fn fail(&mut self, what: impl Display, why: impl Display) {
        self.failure = why.to_string();
        self.note(&format!("{what}: {why}\n"));
        self.mark(Status::Failed);
    }

    /// Why the last thing that failed did.
    pub fn failure(&self) -> &str {
        &self.failure
    }

    /// Notes a status; the worst is the run's.
    pub fn mark(&mut self, status: Status) {
        self.status = self.status.max(status);
    }

    /// How standard output is painted.
    pub fn paint(&self) -> Paint {
        self.out.paint()
    }

    /// How standard error is painted.
    pub fn note_paint(&self) -> Paint {
        self.err.paint()
    }

    pub fn progress(&mut self) -> &mut Progress {
        &mut self.progress
    }

    /// Writes what is left, and gives the exit status.
    pub fn finish(mut self, end: End) -> ExitCode {
        self.progress.clear();
        let flushed = self.out.flush().map_err(stop);
        match end.and(flushed) {
            Ok(()) | Err(Stop::ClosedPipe) => {}
            Err(Stop::Failed(message)) => {
                self.note(&format!("{message}\n"));
                self.mark(Status::Failed);
            }
        }
        ExitCode::from(self.status as u8)
    }
}

/// Why standard output takes no more.
fn stop(error: io::Error) -> Stop {
    let error = cut(error);
    match error.kind() {
        ErrorKind::BrokenPipe => Stop::ClosedPipe,
        _ => Stop::Failed(format!("standard output: {error}")),
    }
}
