//! Runs the command, and keeps files for it.
#![allow(dead_code)]

use corpus::folder::folder;
use std::ffi::OsStr;
use std::fs;
use std::path::{Path, PathBuf};
use std::process::{Command, Output, Stdio};

pub const COMMAND: &str = env!("CARGO_BIN_EXE_asset-builder");

/// Environments in which progress is shown from the start, and never.
pub const AT_ONCE: [(&str, &str); 1] = [("ASSET_BUILDER_PROGRESS_AFTER", "0")];
pub const NEVER: [(&str, &str); 1] = [("ASSET_BUILDER_PROGRESS_AFTER", "100000000")];

/// Standard output, standard error and the exit status.
#[derive(Debug)]
pub struct Ran {
    pub out: String,
    pub err: String,
    pub status: Option<i32>,
}

impl Ran {
    pub fn of(output: Output) -> Ran {
        Ran {
            out: String::from_utf8(output.stdout).expect("it prints text"),
            err: String::from_utf8(output.stderr).expect("it prints text"),
            status: output.status.code(),
        }
    }
}

/// Runs the command in the corpus folder.
pub fn run(words: &[impl AsRef<OsStr>]) -> Ran {
    run_in(&folder(), words, &[])
}

/// Runs the command in a folder with this standard input.
pub fn run_in(folder: &Path, words: &[impl AsRef<OsStr>], input: &[u8]) -> Ran {
    let file = scratch_name();
    fs::write(&file, input).expect("a file for the input");
    let output = Command::new(COMMAND)
        .args(words)
        .current_dir(folder)
        .stdin(fs::File::open(&file).expect("the input"))
        .output()
        .expect("the command starts");
    fs::remove_file(&file).expect("the input is there");
    Ran::of(output)
}

/// Runs a shell's line in a folder, with the command among the programs.
pub fn shell(folder: &Path, line: &str) -> Ran {
    shell_with(folder, line, &[])
}

/// As `shell`, with more in the environment.
pub fn shell_with(folder: &Path, line: &str, environment: &[(&str, &str)]) -> Ran {
    let programs = Path::new(COMMAND).parent().expect("a folder of programs");
    let path = std::env::var("PATH").expect("a path of programs");
    let output = Command::new("bash")
        .args(["-c", line])
        .env("PATH", format!("{}:{path}", programs.display()))
        .env_remove("NO_COLOR")
        .env("TERM", "xterm")
        .envs(environment.iter().copied())
        .current_dir(folder)
        .stdin(Stdio::null())
        .output()
        .expect("a shell starts");
    Ran::of(output)
}

/// What a shell's line prints on a terminal.
pub fn on_terminal(folder: &Path, line: &str, environment: &[(&str, &str)]) -> String {
    let quoted = line.replace('\'', "'\\''");
    let line = format!("script --quiet --return --command '{quoted}' /dev/null");
    shell_with(folder, &line, environment).out
}

/// An empty folder of this name for files of a test.
pub fn scratch(name: &str) -> PathBuf {
    let folder = Path::new(env!("CARGO_TARGET_TMPDIR")).join(name);
    if folder.exists() {
        fs::remove_dir_all(&folder).expect("an old folder goes");
    }
    fs::create_dir_all(&folder).expect("a folder");
    folder
}

/// A path that no other call gets.
fn scratch_name() -> PathBuf {
    use std::sync::atomic::{AtomicU32, Ordering};
    static CALLS: AtomicU32 = AtomicU32::new(0);
    let (process, call) = (std::process::id(), CALLS.fetch_add(1, Ordering::Relaxed));
    Path::new(env!("CARGO_TARGET_TMPDIR")).join(format!("input-{process}-{call}"))
}

/// The bytes of a sample.
pub fn sample(name: &str) -> Vec<u8> {
    fs::read(folder().join(name)).expect("a sample")
}

/// The names of the files in a folder, in order.
pub fn names(folder: &Path) -> Vec<String> {
    let entries = fs::read_dir(folder).expect("a folder");
    let mut names: Vec<String> = entries
        .map(|entry| {
            entry
                .expect("an entry")
                .file_name()
                .to_string_lossy()
                .into()
        })
        .collect();
    names.sort();
    names
}

/// Whether a terminal would do something else than print.
pub fn has_control(text: &str) -> bool {
    text.chars().any(|it| it.is_control() && it != '\n')
}
