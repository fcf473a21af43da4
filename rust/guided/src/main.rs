//! `guided TARGET FILE..` compares both programs over each file; `guided seeds TARGET FOLDER` writes the first inputs.
//!
//! Built with `--cfg afl` (`guided/run` does that), `guided TARGET` takes its inputs from afl-fuzz.
// cargo knows no `afl`, and a table of lints is not known to older ones.
#![allow(unexpected_cfgs)]

use std::path::Path;
use std::process::ExitCode;
use std::{env, fs, io};

fn main() -> ExitCode {
    let words: Vec<String> = env::args().skip(1).collect();
    let words: Vec<&str> = words.iter().map(String::as_str).collect();
    let done = match &words[..] {
        ["seeds", target, folder] => write_seeds(target, Path::new(folder)),
        [target, files @ ..] => compare(target, files),
        [] => Err("a target is needed: load, rewrite, packs, salvage or xml".to_string()),
    };
    match done {
        Ok(()) => ExitCode::SUCCESS,
        Err(why) => {
            eprintln!("{why}");
            ExitCode::from(2)
        }
    }
}

fn write_seeds(target: &str, folder: &Path) -> Result<(), String> {
    let write = || -> io::Result<()> {
        fs::create_dir_all(folder)?;
        for (number, seed) in guided::seeds(target).iter().enumerate() {
            fs::write(folder.join(format!("seed-{number:04}")), seed)?;
        }
        Ok(())
    };
    write().map_err(|error| format!("{}: {error}", folder.display()))
}

fn compare(target: &str, files: &[&str]) -> Result<(), String> {
    let known = guided::target(target).ok_or_else(|| format!("{target} is no target"))?;
    if files.is_empty() {
        return take_from_afl(known);
    }
    for path in files {
        let input = fs::read(path).map_err(|error| format!("{path}: {error}"))?;
        println!("{path}");
        known(&input);
    }
    Ok(())
}

#[cfg(not(afl))]
fn take_from_afl(_: guided::Target) -> Result<(), String> {
    Err("a file is needed; guided/run builds it for afl-fuzz".to_string())
}

#[cfg(afl)]
fn take_from_afl(target: guided::Target) -> Result<(), String> {
    afl::inputs(target).map_err(|error| error.to_string())
}

/// The runtime of afl++, which `guided/run` links.
#[cfg(afl)]
mod afl {
    use std::ffi::{c_int, c_uint};
    use std::io::{self, Read};

    extern "C" {
        fn __afl_manual_init();
        fn __afl_persistent_loop(count: c_uint) -> c_int;
    }

    /// afl-fuzz looks for these words in the program.
    #[used]
    static PERSISTENT: [u8; 23] = *b"##SIG_AFL_PERSISTENT##\0";
    #[used]
    static DEFERRED: [u8; 26] = *b"##SIG_AFL_DEFER_FORKSRV##\0";

    /// So many inputs are taken by one process.
    const INPUTS: c_uint = 20_000;

    pub fn inputs(target: guided::Target) -> io::Result<()> {
        std::panic::set_hook(Box::new(|info| {
            eprintln!("{info}");
            std::process::abort();
        }));
        // SAFETY: the runtime's function takes nothing; it starts the server of processes, and no thread runs yet.
        unsafe { __afl_manual_init() };
        let mut input = Vec::new();
        // SAFETY: the runtime's function takes a number; it waits for the next input on standard input.
        while unsafe { __afl_persistent_loop(INPUTS) } != 0 {
            input.clear();
            io::stdin().read_to_end(&mut input)?;
            target(&input);
        }
        Ok(())
    }
}
