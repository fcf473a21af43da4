//! `image`: the levels of textures as PNG.

use super::{at_most_all_rows, counted, load, print_beside, unread, Writing, MOST_ROWS};
use crate::enums::Enums;
use crate::input::Input;
use crate::json::{Outcome, Report};
use crate::names::shown;
use crate::output::{Force, Form, Output};
use crate::picture::write_png;
use crate::refusal::Told;
use crate::run::{End, Run, Status, Stop};
use serde::Serialize;
use std::fs;
use std::io::ErrorKind;
use std::os::unix::ffi::OsStrExt;
use std::path::{Path, PathBuf};
use xnb::{Kind, Level, Loader, Picture, Refused, SurfaceFormat, Table};

/// Write the levels of a file's textures as PNG
///
/// Each level of each texture is a picture, the textures of fonts too; --row and
/// --level choose among them. OUT is a file for one picture if its name ends in .png,
/// and else a folder, which is made if it is not there, for row-N-level-M.png of each.
/// What was done to pixels that are not just red, green, blue and alpha is reported.
/// Each output takes its place when it is whole; a file that is there is overwritten
/// only with -f. A file without textures, and a texture without the level that is
/// asked for, are reported, and the status is 1.
#[derive(clap::Args)]
#[command(verbatim_doc_comment)]
pub struct Image {
    /// A file, or - for standard input
    #[arg(value_name = "FILE", value_hint = clap::ValueHint::FilePath)]
    input: PathBuf,

    /// A file for one picture, a folder, or - for standard output
    #[arg(short, long, value_name = "OUT.png|FOLDER", value_hint = clap::ValueHint::AnyPath)]
    output: PathBuf,

    /// The row number of one texture
    #[arg(long, value_name = "N")]
    row: Option<u32>,

    /// One level of each texture; 0 is the largest
    #[arg(long, value_name = "N")]
    level: Option<usize>,

    /// Give room for N rows instead
    #[arg(long, value_name = "N", default_value_t = MOST_ROWS,
        value_parser = at_most_all_rows())]
    rows: u32,

    #[command(flatten)]
    force: Force,

    #[command(flatten)]
    enums: Enums,

    /// Print JSON: an object on a line of its own
    #[arg(long)]
    json: bool,
}

/// A level that is asked for.
struct Asked<'f> {
    /// The row of its texture.
    row: u32,
    number: usize,
    /// The level, or why there is none.
    level: Result<Level<'f>, String>,
}

/// What is reported of a file.
#[derive(Serialize)]
struct Shown {
    /// The file's length.
    bytes: usize,
    pictures: Vec<Written>,
}

/// What came of a picture.
#[derive(Serialize)]
struct Written {
    row: u32,
    level: usize,
    #[serde(flatten)]
    look: Option<Look>,
    #[serde(flatten)]
    outcome: Outcome,
}

/// What a picture looks like.
#[derive(Serialize)]
struct Look {
    width: u32,
    height: u32,
    #[serde(serialize_with = "as_code")]
    format: SurfaceFormat,
    /// The format's name.
    name: &'static str,
    /// What was done to its pixels.
    #[serde(skip_serializing_if = "Option::is_none")]
    made: Option<&'static str>,
}

impl Image {
    pub fn run(&self, run: &mut Run) -> End {
        let (input, output) = (Input::of(&self.input), Output::of(&self.output));
        let writing = Writing {
            input: &input,
            output: &output,
            json: self.json,
        };
        let Some(enums) = self.enums.read_beside(input.is_stdin(), run) else {
            return Ok(());
        };
        let loader = Loader::new().with_enums(&enums);
        let file = match input.read_file_or_report(run) {
            Ok(file) => file,
            Err(why) => return unread(run, &input, &why, self.json),
        };
        let table = match load(loader, &file, self.rows) {
            Ok(table) => table,
            Err(refused) => {
                let told = Told::of_file(loader, &file, refused, self.rows as usize);
                return writing.refused(run, told);
            }
        };
        let asked = match self.asked(&table) {
            Ok(asked) => asked,
            Err(refused) => {
                let found = what_is_there(&table, refused.place);
                return writing.refused(run, Told::of_row(refused, found));
            }
        };
        if asked.is_empty() {
            let why = "no texture is in it";
            run.note(&format!("{}: {why}\n", input.shown()));
            run.mark(Status::Refused);
            return writing.unwritten_since(run, Some(file.len()), why);
        }
        if let Err(why) = self.make_place(&output, &asked) {
            run.fail(shown(&self.output), why);
            return writing.unwritten(run, Some(file.len()));
        }
        let pictures = self.write(run, &input, &asked)?;
        if !self.json {
            return Ok(());
        }
        let bytes = file.len();
        let line = Report::line(&input, Shown { bytes, pictures });
        print_beside(run, &output, &line)
    }

    /// The levels that are asked for.
    fn asked<'f>(&self, table: &Table<'f>) -> Result<Vec<Asked<'f>>, Refused> {
        let rows: Vec<u32> = match self.row {
            Some(row) => vec![row],
            None => {
                let textures = table.rows().filter(|row| row.kind == Kind::Texture2D);
                textures.map(|row| row.number).collect()
            }
        };
        let mut asked = Vec::new();
        for row in rows {
            asked.extend(self.levels(row, &table.picture(row)?));
        }
        Ok(asked)
    }

    /// The levels of a texture that are asked for.
    fn levels<'f>(&self, row: u32, picture: &Picture<'_, 'f>) -> Vec<Asked<'f>> {
        let asked = |number, level| Asked { row, number, level };
        let Some(number) = self.level else {
            let levels = picture.levels().enumerate();
            return levels.map(|(number, it)| asked(number, Ok(it))).collect();
        };
        let level = picture.level(number).ok_or_else(|| {
            let levels = counted(picture.texture().levels, "level", "levels");
            format!("the texture has {levels}, counted from 0")
        });
        vec![asked(number, level)]
    }

    /// Whether pictures go to a folder: what is there is what it is, else a name that ends in .png is a file's.
    fn is_to_folder(&self) -> bool {
        if Output::of(&self.output) == Output::Standard {
            return false;
        }
        match fs::metadata(&self.output) {
            Ok(there) => there.is_dir(),
            Err(_) => !is_file_name(&self.output),
        }
    }

    /// Makes the folder of the pictures; or says why there is no place for so many.
    fn make_place(&self, output: &Output, asked: &[Asked]) -> Result<(), String> {
        if asked.iter().all(|it| it.level.is_err()) {
            return Ok(());
        }
        if self.is_to_folder() {
            return make_folder(&self.output);
        }
        if asked.len() == 1 {
            return Ok(());
        }
        let place = match output {
            Output::Standard => "standard output",
            Output::File(_) => "a file",
        };
        let pictures = asked.len();
        Err(format!(
            "{pictures} pictures do not go to {place}; a folder takes them, --row and --level choose one"
        ))
    }

    /// Writes each picture and answers what came of it; one that is not written is reported.
    fn write(&self, run: &mut Run, input: &Input, asked: &[Asked]) -> Result<Vec<Written>, Stop> {
        let to_folder = self.is_to_folder();
        let mut written = Vec::new();
        run.progress().expect(asked.len());
        for asked in asked {
            let Asked { row, number, level } = asked;
            let name = format!("{}: row {row} level {number}", input.shown());
            let outcome = match level {
                Ok(level) => {
                    let path = match to_folder {
                        true => self.output.join(format!("row-{row}-level-{number}.png")),
                        false => self.output.clone(),
                    };
                    self.write_one(run, &name, level, &path)?
                }
                Err(why) => {
                    run.note(&format!("{name}: {why}\n"));
                    run.mark(Status::Refused);
                    Outcome::unwritten(why)
                }
            };
            written.push(Written {
                row: *row,
                level: *number,
                look: level.as_ref().ok().map(Look::of),
                outcome,
            });
            run.progress().step();
        }
        Ok(written)
    }

    /// Writes a picture and reports it.
    fn write_one(
        &self,
        run: &mut Run,
        name: &str,
        level: &Level,
        path: &Path,
    ) -> Result<Outcome, Stop> {
        let output = Output::of(path);
        let mut bytes = 0;
        let is_written = output.write_by(run, Form::Raw, self.force.existing(), |out| {
            bytes = write_png(level, out)?;
            Ok(())
        })?;
        if !is_written {
            return Ok(Outcome::unwritten(run.failure()));
        }
        let look = Look::of(level).words();
        match output {
            _ if self.json => {}
            Output::Standard => run.remark(&format!("{name}: {look}\n")),
            Output::File(_) => {
                run.print_done(&format!("{name}: {look}, written to {}\n", shown(path)))?;
            }
        }
        Ok(Outcome::written(path, bytes))
    }
}

impl Look {
    fn of(level: &Level) -> Look {
        Look {
            width: level.width,
            height: level.height,
            format: level.format,
            name: level.format.name(),
            made: level.format.made(),
        }
    }

    /// As it is shown to people.
    fn words(&self) -> String {
        let (width, height, name) = (self.width, self.height, self.name);
        let made = self.made.map(|made| format!(" ({made})"));
        format!("{width} by {height}, {name}{}", made.unwrap_or_default())
    }
}

/// Makes a folder with all above it, or says why it cannot be.
fn make_folder(path: &Path) -> Result<(), String> {
    fs::create_dir_all(path).map_err(|error| match error.kind() {
        ErrorKind::AlreadyExists => "it is there already, and it is no folder".to_string(),
        _ => error.to_string(),
    })
}

/// Whether a path is the name of a picture's file.
fn is_file_name(path: &Path) -> bool {
    let extension = path.extension();
    let is_folder = path.as_os_str().as_bytes().ends_with(b"/");
    extension.is_some_and(|it| it.eq_ignore_ascii_case("png")) && !is_folder
}

/// What the file has in place of a texture in the row.
fn what_is_there(table: &Table, row: u32) -> String {
    match table.row(row) {
        Some(there) => format!("row {row} is of kind {}, not Texture2D", there.kind),
        None => format!(
            "the file has {}",
            counted(table.loaded().rows, "row", "rows")
        ),
    }
}

fn as_code<S: serde::Serializer>(format: &SurfaceFormat, out: S) -> Result<S::Ok, S::Error> {
    out.serialize_u32(format.code())
}
