//! `man`: the manual page, made from what `--help` prints from.

use super::{Cli, STATUSES};
use crate::run::{End, Run};
use clap::{Arg, ArgAction, Command, CommandFactory};

/// Print the manual page
#[derive(clap::Args)]
pub struct Man {}

impl Man {
    pub fn run(&self, run: &mut Run) -> End {
        let mut command = Cli::command();
        command.build();
        run.print(&page(&command))
    }
}

/// The page in the language of man(7).
fn page(command: &Command) -> String {
    let name = command.get_name();
    let version = command.get_version().unwrap_or_default();
    let about = command.get_about().map(|it| it.to_string());
    let mut page = format!(".TH {} 1 \"\" \"{name} {version}\"\n", name.to_uppercase());
    page += &format!(
        ".SH NAME\n{} \\- {}\n",
        plain(name),
        plain(&about.unwrap_or_default())
    );
    page += &format!(".SH SYNOPSIS\n.B {}\nCOMMAND\n", plain(name));
    page += ".SH OPTIONS\n";
    page += &argument_lines(command.get_arguments());
    page += ".SH COMMANDS\n";
    page += &commands_lines(command);
    page + &format!(".SH \"EXIT STATUS\"\n{}\n", plain(STATUSES))
}

/// The commands below a command, and those below them.
fn commands_lines(command: &Command) -> String {
    let commands = command.get_subcommands();
    let shown = commands.filter(|it| it.get_name() != "help");
    shown
        .map(|it| command_lines(it) + &commands_lines(it))
        .collect()
}

/// A command: how it is called, what it does and what it takes.
fn command_lines(command: &Command) -> String {
    // The whole name without its first word, the program's.
    let name = command.get_bin_name().unwrap_or_default();
    let name = name.split_once(' ').map_or(name, |(_, name)| name);
    let mut lines = format!(".SS {}\n", plain(name));
    let usage = command.clone().render_usage().to_string();
    let usage = usage.trim_start_matches("Usage:").trim();
    lines += &format!(".B {}\n", plain(usage));
    let about = command.get_long_about().or(command.get_about());
    let about = about.map(|it| it.to_string()).unwrap_or_default();
    for paragraph in about.split("\n\n") {
        lines += &format!(".PP\n{}\n", plain(paragraph));
    }
    // Help and version are described once, for the whole.
    let shown_once = |it: &&Arg| ["help", "version"].contains(&it.get_id().as_str());
    lines + &argument_lines(command.get_arguments().filter(|it| !shown_once(it)))
}

/// Each argument and what it is for.
fn argument_lines<'a>(arguments: impl Iterator<Item = &'a Arg>) -> String {
    let mut lines = String::new();
    for argument in arguments {
        let help = argument.get_long_help().or(argument.get_help());
        let help = help.map(|it| it.to_string()).unwrap_or_default();
        lines += &format!(".TP\n{}\n{}\n", tag(argument), plain(&help));
        lines += &values_line(argument);
    }
    lines
}

/// An argument as it is written: `-o, --output OUT`.
fn tag(argument: &Arg) -> String {
    let short = argument.get_short().map(|it| format!("\\fB\\-{it}\\fR"));
    let long = argument
        .get_long()
        .map(|it| format!("\\fB\\-\\-{}\\fR", plain(it)));
    let flags: Vec<String> = short.into_iter().chain(long).collect();
    let takes = matches!(argument.get_action(), ArgAction::Set | ArgAction::Append);
    let names = argument.get_value_names().unwrap_or_default();
    let names: Vec<String> = names
        .iter()
        .map(|it| format!("\\fI{}\\fR", plain(it)))
        .collect();
    match (flags.is_empty(), takes) {
        (true, _) => names.join(" "),
        (false, true) => format!("{} {}", flags.join(", "), names.join(" ")),
        (false, false) => flags.join(", "),
    }
}

/// What an argument may be, and what it is if it is not given.
fn values_line(argument: &Arg) -> String {
    let takes = matches!(argument.get_action(), ArgAction::Set | ArgAction::Append);
    let possible = argument.get_possible_values();
    let possible: Vec<&str> = possible.iter().map(|it| it.get_name()).collect();
    let default: Vec<_> = argument.get_default_values().iter().collect();
    let mut line = String::new();
    if takes && !possible.is_empty() {
        line += &format!(".br\nOne of {}.\n", plain(&possible.join(", ")));
    }
    if takes && !default.is_empty() {
        let default: Vec<_> = default.iter().map(|it| it.to_string_lossy()).collect();
        line += &format!(".br\nDefault: {}.\n", plain(&default.join(" ")));
    }
    line
}

/// Text that troff prints as it is.
fn plain(text: &str) -> String {
    let text = text.replace('\\', "\\e").replace('-', "\\-");
    let lines = text.lines().map(|line| match line.chars().next() {
        Some('.' | '\'') => format!("\\&{line}"),
        _ => line.to_string(),
    });
    let lines: Vec<String> = lines.collect();
    lines.join("\n")
}
