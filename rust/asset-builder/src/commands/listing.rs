//! What `rows` and `tree` have in common: files that are loaded, and how they are listed.

use super::{at_most_all_rows, for_each, load, unread, MOST_ROWS};
use crate::enums::Enums;
use crate::input::{Input, Inputs};
use crate::refusal::Told;
use crate::run::{End, Run};
use xnb::{Loader, Refused, Table};

#[derive(clap::Args)]
pub struct Listing {
    #[command(flatten)]
    inputs: Inputs,

    /// Give room for N rows instead
    #[arg(long, value_name = "N", default_value_t = MOST_ROWS,
        value_parser = at_most_all_rows())]
    rows: u32,

    #[command(flatten)]
    enums: Enums,

    /// Print JSON: an object a file on a line of its own
    #[arg(long)]
    pub json: bool,
}

/// A file that was read, and what it is loaded with.
pub struct Taken<'a> {
    pub input: &'a Input,
    pub bytes: &'a [u8],
    loader: Loader<'a>,
    room: u32,
}

impl Taken<'_> {
    /// What is reported of a refusal.
    pub fn told(&self, refused: Refused) -> Told<'_> {
        Told::of_file(self.loader, self.bytes, refused, self.room as usize)
    }
}

impl Listing {
    /// The line before what is listed of a file: of one file alone, nothing.
    pub fn heading(&self, input: &Input) -> String {
        match self.inputs.is_one_file() {
            true => String::new(),
            false => format!("==> {} <==\n", input.shown()),
        }
    }

    /// Loads each file and hands it on with what came of it; one that cannot be read is reported.
    pub fn for_each(
        &self,
        run: &mut Run,
        mut action: impl FnMut(&mut Run, &Taken, Result<Table, Refused>) -> End,
    ) -> End {
        let Some(enums) = self.enums.read(&self.inputs, run) else {
            return Ok(());
        };
        let loader = Loader::new().with_enums(&enums);
        for_each(&self.inputs, run, |run, input, file| {
            let bytes = match file {
                Ok(bytes) => bytes,
                Err(why) => return unread(run, input, &why, self.json),
            };
            let taken = Taken {
                input,
                bytes,
                loader,
                room: self.rows,
            };
            action(run, &taken, load(loader, bytes, self.rows))
        })
    }
}
