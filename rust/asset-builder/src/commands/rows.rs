//! `rows`: the lines that the program `rows` prints.

use super::listing::{Listing, Taken};
use crate::json::{self, Report};
use crate::run::{End, Run, Status};
use serde::Serialize;
use xnb::{Refused, Table, WORDS_PER_ROW};

/// Print the row table of each file
///
/// The lines are those of the program `rows`: the number of rows, readers and
/// shared objects, then for each row its number and its seven words; or a
/// refusal, as `refused 7 at 6`. The words are kind, first byte, number of bytes,
/// number of children, the parent's row number plus 1 or 0, type id or resource
/// id, and the number of rows with all below it, itself included. Of several
/// files, each begins with `==> NAME <==`.
///
/// The program `rows` differs: it reads standard input alone, refuses more than
/// 32768 bytes (9 at 0), has room for 1024 rows and no enum types. This
/// command takes what the loader takes: 16777216 bytes and 65536 rows.
#[derive(clap::Args)]
#[command(verbatim_doc_comment)]
pub struct Rows {
    #[command(flatten)]
    listing: Listing,
}

/// What is reported of a file.
#[derive(Serialize)]
struct Listed<'f> {
    /// The file's length.
    bytes: usize,
    readers: usize,
    shared: usize,
    rows: Vec<&'f [u32]>,
}

impl Rows {
    pub fn run(&self, run: &mut Run) -> End {
        self.listing.for_each(run, |run, taken, loaded| {
            if loaded.is_err() {
                run.mark(Status::Refused);
            }
            if self.listing.json {
                return run.print(&report(taken, &loaded));
            }
            let listed = match loaded {
                Ok(table) => lines(&table),
                Err(refused) => {
                    let number = refused.refusal.number();
                    format!("refused {number} at {}\n", refused.place)
                }
            };
            run.print(&(self.listing.heading(taken.input) + &listed))
        })
    }
}

fn report(taken: &Taken, loaded: &Result<Table, Refused>) -> String {
    match loaded {
        Ok(table) => {
            let listed = Listed {
                bytes: taken.bytes.len(),
                readers: table.loaded().readers,
                shared: table.loaded().shared,
                rows: table.words().chunks_exact(WORDS_PER_ROW).collect(),
            };
            Report::line(taken.input, listed)
        }
        Err(refused) => {
            let refused = taken.told(*refused);
            Report::line(taken.input, json::Refused { refused })
        }
    }
}

fn lines(table: &Table) -> String {
    let loaded = table.loaded();
    let (rows, readers, shared) = (loaded.rows, loaded.readers, loaded.shared);
    let mut lines = format!("rows {rows} readers {readers} shared {shared}\n");
    for (number, row) in table.words().chunks_exact(WORDS_PER_ROW).enumerate() {
        lines += &number.to_string();
        for word in row {
            lines += &format!(" {word}");
        }
        lines += "\n";
    }
    lines
}
