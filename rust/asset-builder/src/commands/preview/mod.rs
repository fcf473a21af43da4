//! `preview`: a page that shows what files hold.

mod serve;

use super::{at_most_all_rows, MOST_ROWS};
use crate::enums::Enums;
use crate::input::{Bytes, FilesAndPacks, Input};
use crate::names::shown;
use crate::output::{Force, Form, Output};
use crate::preview::{Content, Counts, Maker, Page, Source};
use crate::run::{End, Run, Status};
use std::io;
use std::path::{Path, PathBuf};
use xnb::Loader;

/// Write a page that shows in a browser what files hold
///
/// The page is one file that loads nothing from outside: for each file its values as a
/// tree that unfolds and is searched, its bytes beside it, its textures, fonts, pages
/// with their links, and models as pictures; for a file that is refused why, and the
/// bytes around the place. A pack's page has an index. Every value is a row of the
/// loader. A folder means the .xnb and .pak files below it; what has another name
/// is a pack if it reads as one. Where something is too long it is cut, and the page
/// says so. An output that is there is overwritten only with -f. The status is 1 if a
/// file is refused, and the page is written all the same.
/// With --serve the page is served on the loopback address, to this machine only, and
/// made anew when a file changes; the browser then loads it again. Ctrl-C ends that.
#[derive(clap::Args)]
#[command(verbatim_doc_comment)]
pub struct Preview {
    #[command(flatten)]
    inputs: FilesAndPacks,

    /// The page to write, or - for standard output
    #[arg(short, long, value_name = "PAGE.html", value_hint = clap::ValueHint::FilePath,
        required_unless_present = "serve", conflicts_with = "serve")]
    output: Option<PathBuf>,

    /// Serve the page at 127.0.0.1 and this port, or one that is free; name the files before it
    #[arg(long, value_name = "PORT", num_args = 0..=1, default_missing_value = "0", value_parser = port)]
    serve: Option<u16>,

    /// Say what the driver's profile says of each file (refusals 41 to 47)
    #[arg(long)]
    driver: bool,

    /// Give room for N rows instead
    #[arg(long, value_name = "N", default_value_t = MOST_ROWS,
        value_parser = at_most_all_rows())]
    rows: u32,

    #[command(flatten)]
    force: Force,

    #[command(flatten)]
    enums: Enums,
}

/// A port alone: there is no address to choose.
fn port(text: &str) -> Result<u16, String> {
    text.parse().map_err(|_| {
        "a port is due, 0 to 65535, and no address: the page is served on the loopback address only; \
        files are named before --serve"
            .to_string()
    })
}

impl Preview {
    pub fn run(&self, run: &mut Run) -> End {
        let stdin = self.inputs.have_stdin();
        let Some(enums) = self.enums.read_beside(stdin, run) else {
            return Ok(());
        };
        let maker = Maker {
            loader: Loader::new().with_enums(&enums),
            room: self.rows,
            driver: self.driver,
        };
        match (self.serve, &self.output) {
            (Some(_), _) if stdin => {
                run.fail("-", "standard input does not change, so it is not served");
                Ok(())
            }
            (Some(port), _) => serve::serve(run, maker, &self.inputs, port),
            (None, Some(output)) => self.write(run, maker, &Output::of(output)),
            (None, None) => unreachable!("the parser asks for an output"),
        }
    }

    fn write(&self, run: &mut Run, maker: Maker, output: &Output) -> End {
        let existing = self.force.existing();
        if !output.is_free(run, Form::Text, existing) {
            return Ok(());
        }
        let inputs = self.inputs.list();
        // Standard input is read once, and so it is kept.
        let mut kept: Option<Bytes> = None;
        let mut sources = Vec::new();
        run.progress().expect(inputs.len());
        for input in &inputs {
            let content = match input.read_as_part(run) {
                Ok(bytes) => {
                    let content = maker.survey(input.path(), &bytes);
                    if input.is_stdin() {
                        kept = Some(bytes);
                    }
                    content
                }
                Err(why) => Content::Unread(why),
            };
            sources.push(source(input, content));
            run.progress().step();
        }
        let counts = Counts::of(sources.iter().map(|source| &source.content));
        if counts.has_refusals() {
            run.mark(Status::Refused);
        }
        let page = Page {
            maker,
            sources: &sources,
            version: None,
        };
        let is_written = output.write_by(run, Form::Text, existing, |out| {
            page.write(out, |path, show| {
                let mapped = match &kept {
                    Some(bytes) if path == Path::new("-") => return show(bytes),
                    _ => Input::of(path).mapped()?,
                };
                show(&mapped)?;
                mapped.check_unchanged()
            })
        })?;
        if !is_written {
            return Ok(());
        }
        match output {
            Output::Standard => Ok(()),
            Output::File(path) => run.print_done(&format!("{}: {counts}\n", shown(path))),
        }
    }
}

fn source(input: &Input, content: Content) -> Source {
    Source {
        path: input.path().to_path_buf(),
        name: input.shown(),
        content,
    }
}

/// A page of the files as they are now, in memory, and what came of each.
fn page_now(maker: Maker, inputs: &FilesAndPacks, version: u64) -> io::Result<Vec<u8>> {
    let mut sources = Vec::new();
    for input in inputs.list() {
        let content = match input.copied() {
            Ok(bytes) => maker.survey(input.path(), &bytes),
            Err(error) => Content::Unread(error.to_string()),
        };
        sources.push(source(&input, content));
    }
    let page = Page {
        maker,
        sources: &sources,
        version: Some(version),
    };
    let mut out = Vec::new();
    page.write(&mut out, |path, show| show(&Input::of(path).copied()?))?;
    Ok(out)
}
