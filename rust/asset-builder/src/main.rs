//! Checks, shows and rewrites XNB files, takes texts to XML and back, and reads, converts, salvages and counts packs of files, through the proved library.
//!
//! Each command is a module of `commands` over the parts that all share: inputs, outputs, printing
//! and the rendering of refusals.

#![deny(unsafe_code)]

mod commands;
mod enums;
mod fields;
mod input;
mod json;
mod names;
mod output;
mod picture;
mod preview;
mod progress;
mod refusal;
mod room;
mod run;
mod system;
mod terminal;
mod values;

use clap::Parser;
use commands::Cli;
use run::{End, Manner, Run, Status};
use std::process::ExitCode;

fn main() -> ExitCode {
    let parsed = Cli::try_parse();
    let mut run = Run::new(parsed.as_ref().map_or(Manner::default(), |cli| cli.manner));
    if let Err(error) = output::watch() {
        run.fail("signals", error);
    }
    let end = match parsed {
        Ok(cli) => cli.command.run(&mut run),
        Err(error) => tell(&mut run, &error),
    };
    run.finish(end)
}

/// Prints what the argument parser says: help and versions, or what is wrong with the command.
fn tell(run: &mut Run, error: &clap::Error) -> End {
    let text = names::plain_lines(&error.render().to_string());
    if !error.use_stderr() {
        return run.print(&text);
    }
    run.note(&text);
    run.mark(Status::Failed);
    Ok(())
}
