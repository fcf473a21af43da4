//! The list of enum types that a command gives to the library, from a text.

use crate::input::{Input, Inputs, ONCE};
use crate::names::escaped;
use crate::run::Run;
use std::path::PathBuf;
use xnb::{EnumFault, EnumList, EnumsRefused};

#[derive(clap::Args)]
pub struct Enums {
    /// Use the enum types that FILE lists, each with its size
    ///
    /// A line of FILE has the name of an enum type and its size in bytes, 1, 2, 4 or 8, as in `Coach.Door 1`.
    /// Empty lines and what is behind a # are ignored. FILE may be - for standard input.
    #[arg(long = "enums", value_name = "FILE", value_hint = clap::ValueHint::FilePath)]
    file: Option<PathBuf>,
}

/// What is wrong with a line.
#[derive(Debug, PartialEq, Eq)]
struct Wrong {
    /// The line's number, counted from 1.
    line: usize,
    why: String,
}

/// A type of the list.
struct Entry<'t> {
    line: usize,
    name: &'t [u8],
    size: u8,
}

impl Enums {
    /// The list, which is empty if none is named; what cannot be read, and each wrong line, is reported.
    pub fn read(&self, inputs: &Inputs, run: &mut Run) -> Option<EnumList> {
        self.read_beside(inputs.have_stdin(), run)
    }

    /// The same, where standard input is perhaps read for something else.
    pub fn read_beside(&self, stdin_is_taken: bool, run: &mut Run) -> Option<EnumList> {
        let Some(path) = &self.file else {
            return Some(EnumList::default());
        };
        let input = Input::of(path);
        if input.is_stdin() && stdin_is_taken {
            run.fail(input.shown(), ONCE);
            return None;
        }
        let text = input.read_or_report(run).ok()?;
        match list(&text) {
            Ok(list) => Some(list),
            Err(wrong) => {
                for Wrong { line, why } in wrong {
                    run.fail(format!("{}, line {line}", input.shown()), why);
                }
                None
            }
        }
    }
}

/// The list that a text has.
fn list(text: &[u8]) -> Result<EnumList, Vec<Wrong>> {
    // Some editors begin a text with a byte order mark.
    let text = text.strip_prefix(b"\xEF\xBB\xBF").unwrap_or(text);
    let lines = (1..).zip(text.split(|byte| *byte == b'\n'));
    let (mut entries, mut wrong) = (Vec::new(), Vec::new());
    for (line, text) in lines {
        match entry(line, text) {
            Ok(entry) => entries.extend(entry),
            Err(why) => wrong.push(Wrong { line, why }),
        }
    }
    if !wrong.is_empty() {
        return Err(wrong);
    }
    let types = entries.iter().map(|entry| (entry.name, entry.size));
    EnumList::new(types).map_err(|refused| vec![wrong_entry(&entries, &refused)])
}

/// The type on a line, if it has one.
fn entry(line: usize, text: &[u8]) -> Result<Option<Entry<'_>>, String> {
    let comment = text.iter().position(|byte| *byte == b'#');
    let text = text[..comment.unwrap_or(text.len())].trim_ascii();
    let words = text
        .split(u8::is_ascii_whitespace)
        .filter(|it| !it.is_empty());
    let words: Vec<&[u8]> = words.collect();
    let (name, size) = match words[..] {
        [] => return Ok(None),
        [name, size] => (name, size),
        _ => {
            let found = escaped(text);
            return Err(format!(
                "a name and a size are due, as in Coach.Door 1, found {found}"
            ));
        }
    };
    let size = match size {
        b"1" => 1,
        b"2" => 2,
        b"4" => 4,
        b"8" => 8,
        _ => {
            let (name, size) = (escaped(name), escaped(size));
            return Err(format!(
                "{name}: the size is {size}; only 1, 2, 4 and 8 are taken"
            ));
        }
    };
    Ok(Some(Entry { line, name, size }))
}

/// Why the library refuses an entry, reported of its line.
fn wrong_entry(entries: &[Entry], refused: &EnumsRefused) -> Wrong {
    let Entry { line, name, .. } = entries[refused.entry];
    let name = escaped(name);
    let why = match refused.fault {
        Some(EnumFault::Listed(before)) => {
            let before = entries[before].line;
            format!("{name}: the name is listed before, on line {before}")
        }
        Some(fault) => format!("{name}: {fault}"),
        None => format!("{name}: it is refused"),
    };
    Wrong { line, why }
}

#[cfg(test)]
mod tests {
    use super::*;

    #[test]
    fn names_and_sizes_are_read() {
        let text =
            b"\xEF\xBB\xBF# doors\r\n\r\n Coach.Door\t1 # a byte\r\n\nCoach.Screen+Mode 2\nE_9 8";
        let list = list(text).expect("a list");
        let types: Vec<(&str, u8)> = list.types().collect();
        assert_eq!(
            types,
            [("Coach.Door", 1), ("Coach.Screen+Mode", 2), ("E_9", 8)]
        );
        for text in [&b""[..], b"\n\n", b"# none", b"  \t\r\n#\n"] {
            assert_eq!(super::list(text), Ok(EnumList::default()));
        }
    }
}
