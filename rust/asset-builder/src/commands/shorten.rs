//! `shorten`: files with their seven-bit numbers in their shortest forms.

use super::{for_each, unread, Writing, MOST_ROWS};
use crate::enums::Enums;
use crate::input::{Input, Inputs};
use crate::names::shown;
use crate::output::{Existing, Force, Form, Output};
use crate::refusal::Told;
use crate::run::{End, Run, Stop};
use clap::ArgGroup;
use std::collections::HashSet;
use std::fs;
use std::path::{Path, PathBuf};
use xnb::{FileError, Loader};

/// Write each file in its shortest form
///
/// Each output takes its place when it is whole. A file that is there is overwritten
/// only with -f or --in-place, and one that is read-only only with -f.
/// A refused file leaves its output as it is; the refusal goes to standard error.
#[derive(clap::Args)]
#[command(verbatim_doc_comment)]
#[command(group = ArgGroup::new("where").required(true).args(["output", "in_place"]))]
pub struct Shorten {
    #[command(flatten)]
    inputs: Inputs,

    /// A file, - for standard output, or a folder that takes each file by its name
    #[arg(short, long, value_name = "OUT", value_hint = clap::ValueHint::AnyPath)]
    output: Option<PathBuf>,

    /// Write each file in its own place
    #[arg(short, long)]
    in_place: bool,

    #[command(flatten)]
    force: Force,

    #[command(flatten)]
    enums: Enums,

    /// Print JSON: an object a file on a line of its own
    #[arg(long)]
    json: bool,
}

impl Shorten {
    pub fn run(&self, run: &mut Run) -> End {
        let several = !self.inputs.is_one_file();
        if let Some(output) = self.output.as_ref().filter(|it| several && !it.is_dir()) {
            let why = "not a folder, as several files need";
            return Err(Stop::Failed(format!("{}: {why}", shown(output))));
        }
        let Some(enums) = self.enums.read(&self.inputs, run) else {
            return Ok(());
        };
        let loader = Loader::new().with_enums(&enums);
        let mut taken = HashSet::new();
        for_each(&self.inputs, run, |run, input, file| {
            let file = match file {
                Ok(file) => file,
                Err(why) => return unread(run, input, &why, self.json),
            };
            match loader.shorten(file) {
                Ok(shortest) => self.write(run, input, file, &shortest, &mut taken),
                Err(FileError::Refused(refused)) => {
                    let refused = Told::of_file(loader, file, refused, MOST_ROWS as usize);
                    let output = self.named_output();
                    self.writing(input, &output).refused(run, refused)
                }
                Err(FileError::OutOfMemory(error)) => {
                    self.unwritten(run, input, file, &error.to_string())
                }
            }
        })
    }

    /// Writes the shortest form of a file to its output, which no other file may have taken.
    fn write(
        &self,
        run: &mut Run,
        input: &Input,
        file: &[u8],
        shortest: &[u8],
        taken: &mut HashSet<PathBuf>,
    ) -> End {
        let output = match self.output_of(input) {
            Ok(output) => output,
            Err(why) => return self.unwritten(run, input, file, &why),
        };
        if let Output::File(path) = &output {
            if !taken.insert(path.clone()) {
                let why = format!("another file was written to {}", shown(path));
                return self.unwritten(run, input, file, &why);
            }
        }
        let writing = self.writing(input, &output);
        let in_place_already = self.in_place && shortest == file;
        if !in_place_already && !output.write(run, shortest, Form::Raw, self.existing())? {
            return writing.unwritten(run, Some(file.len()));
        }
        writing.written(run, file.len(), shortest.len())
    }

    fn unwritten(&self, run: &mut Run, input: &Input, file: &[u8], why: &str) -> End {
        run.fail(input.shown(), why);
        let output = self.named_output();
        let writing = self.writing(input, &output);
        writing.unwritten(run, Some(file.len()))
    }

    fn writing<'a>(&self, input: &'a Input, output: &'a Output) -> Writing<'a> {
        Writing {
            input,
            output,
            json: self.json,
        }
    }

    /// The output that was named, or any file.
    fn named_output(&self) -> Output {
        Output::of(self.output.as_deref().unwrap_or(Path::new("")))
    }

    fn existing(&self) -> Existing {
        match self.force.existing() {
            Existing::Keep if self.in_place => Existing::Replace,
            asked => asked,
        }
    }

    /// Where the shortest form of a file goes, its folder below the output's being made.
    fn output_of(&self, input: &Input) -> Result<Output, String> {
        let Some(output) = &self.output else {
            return match input.is_stdin() {
                true => Err("standard input has no place".to_string()),
                false => Ok(Output::File(input.path().to_path_buf())),
            };
        };
        if !output.is_dir() {
            return Ok(Output::of(output));
        }
        let Some(name) = input.relative() else {
            return Err("standard input has no name in a folder".to_string());
        };
        let path = output.join(name);
        if let Some(folder) = path.parent() {
            fs::create_dir_all(folder).map_err(|error| format!("{}: {error}", shown(folder)))?;
        }
        Ok(Output::File(path))
    }
}
