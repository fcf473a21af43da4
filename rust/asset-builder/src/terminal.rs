//! Standard output and standard error, and their colours.

use std::io::{self, BufWriter, IsTerminal, Write};

/// When there are colours.
#[derive(clap::ValueEnum, Clone, Copy, Debug, Default, PartialEq, Eq)]
pub enum When {
    // On a terminal, unless NO_COLOR is set.
    #[default]
    Auto,
    Always,
    Never,
}

/// A stream that is written in large pieces, or at once if it is a terminal.
pub struct Stream<W: Write> {
    out: BufWriter<W>,
    terminal: bool,
    colours: When,
}

impl<W: Write + IsTerminal> Stream<W> {
    pub fn new(out: W, colours: When) -> Stream<W> {
        let terminal = out.is_terminal();
        Stream {
            out: BufWriter::new(out),
            terminal,
            colours,
        }
    }

    /// Whether it is a terminal of any kind.
    pub fn is_any_terminal(&self) -> bool {
        self.terminal
    }

    /// Whether a person looks at it, on a terminal that can do more than print.
    pub fn is_terminal(&self) -> bool {
        self.terminal && std::env::var_os("TERM").is_some_and(|term| term != "dumb")
    }

    /// Colours as asked for; else on such a terminal only, and none where `NO_COLOR` asks for none.
    pub fn paint(&self) -> Paint {
        let asked_not = std::env::var_os("NO_COLOR").is_some_and(|value| !value.is_empty());
        Paint(match self.colours {
            When::Auto => self.is_terminal() && !asked_not,
            When::Always => true,
            When::Never => false,
        })
    }

    pub fn write(&mut self, bytes: &[u8]) -> io::Result<()> {
        self.write_by(|out| out.write_all(bytes))
    }

    /// Writes what an action writes.
    pub fn write_by(
        &mut self,
        action: impl FnOnce(&mut dyn Write) -> io::Result<()>,
    ) -> io::Result<()> {
        action(&mut self.out)?;
        if self.terminal {
            self.out.flush()?;
        }
        Ok(())
    }

    pub fn flush(&mut self) -> io::Result<()> {
        self.out.flush()
    }
}

/// Whether there are colours.
#[derive(Clone, Copy)]
pub struct Paint(bool);

impl Paint {
    /// No colours.
    pub fn none() -> Paint {
        Paint(false)
    }

    pub fn bad(self, text: &str) -> String {
        self.painted("1;31", text)
    }

    pub fn name(self, text: &str) -> String {
        self.painted("1", text)
    }

    fn painted(self, code: &str, text: &str) -> String {
        if self.0 {
            format!("\x1B[{code}m{text}\x1B[0m")
        } else {
            text.to_string()
        }
    }
}
