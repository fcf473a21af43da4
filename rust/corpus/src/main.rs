//! Writes the files that the repository keeps into the folder that is named, a folder for each topic.
//!
//! With `all` behind the folder it writes every file of every sample.
//! With `names` it writes the names of the table instead, as `reader_names` has them: data/FILE and stdout.

use corpus::folder::{all_files, kept};
use std::path::Path;
use std::process::ExitCode;

fn main() -> ExitCode {
    let Some(folder) = std::env::args().nth(1) else {
        eprintln!("usage: corpus FOLDER [all | names]");
        return ExitCode::from(2);
    };
    let what = std::env::args().nth(2);
    let written = match what.as_deref() {
        Some("names") => write_names(Path::new(&folder)),
        what => write_samples(Path::new(&folder), what == Some("all")),
    };
    match written {
        Ok(count) => {
            println!("{count} written");
            ExitCode::SUCCESS
        }
        Err(error) => {
            eprintln!("{error}");
            ExitCode::FAILURE
        }
    }
}

fn write_samples(folder: &Path, all: bool) -> std::io::Result<usize> {
    let files = if all { all_files(true) } else { kept() };
    for file in &files {
        let topic = folder.join(file.topic);
        std::fs::create_dir_all(&topic)?;
        std::fs::write(topic.join(&file.name), &file.bytes)?;
    }
    Ok(files.len())
}

fn write_names(folder: &Path) -> std::io::Result<usize> {
    let mut count = 0;
    for (file, names) in corpus::names::files() {
        count += names.len();
        let path = folder.join("data").join(file);
        std::fs::write(path, corpus::names::lines(&names))?;
    }
    std::fs::write(folder.join("stdout"), corpus::names::printed())?;
    Ok(count)
}
