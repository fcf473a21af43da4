//! `completions`: what a shell needs to complete the command's words.

use super::Cli;
use crate::run::{End, Run};
use clap::CommandFactory;
use clap_complete::Shell;

/// Print the completion script of a shell
#[derive(clap::Args)]
pub struct Completions {
    /// The shell
    shell: Shell,
}

impl Completions {
    pub fn run(&self, run: &mut Run) -> End {
        let mut script = Vec::new();
        let mut command = Cli::command();
        let name = command.get_name().to_string();
        clap_complete::generate(self.shell, &mut command, name, &mut script);
        match self.shell {
            Shell::Bash => run.print(&with_files(&String::from_utf8_lossy(&script))),
            _ => run.print_bytes(&script),
        }
    }
}

/// The script of bash, in which a command that takes files offers `<FILE>`, as one that leaves names of files to bash.
fn with_files(script: &str) -> String {
    const ALL: &str = "COMPREPLY=( $(compgen -W \"${opts}\" -- \"${cur}\") )";
    let mut takes_files = false;
    // Whether the words that the line sets are those behind a `-`.
    let mut of_flags = false;
    let mut lines = String::new();
    for line in script.lines() {
        let text = line.trim_start();
        let indent = &line[..line.len() - text.len()];
        let line = if let Some(words) = text.strip_prefix("opts=\"") {
            let words = words.trim_end_matches('"').split(' ');
            let (places, words): (Vec<_>, Vec<_>) = words.partition(|it| it.contains('<'));
            takes_files = !places.is_empty();
            format!("{indent}opts=\"{}\"", words.join(" "))
        } else if text.starts_with("if [[ ${cur} == -* ") && takes_files {
            of_flags = true;
            format!("{indent}if [[ ${{cur}} == -* ]] ; then")
        } else if text == ALL && takes_files && !std::mem::take(&mut of_flags) {
            // Where a function offers nothing, bash offers files.
            format!("{indent}COMPREPLY=()")
        } else {
            line.to_string()
        };
        lines += &line;
        lines += "\n";
    }
    lines
}
