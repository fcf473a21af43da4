//! The programs `rows` and `shorten` over the second loader.

use second::{printed_rows, shortened, LONGEST_INPUT};
use std::io::{self, Read, Write};
use std::process::ExitCode;

fn main() -> ExitCode {
    let output = match std::env::args().nth(1).as_deref() {
        Some("rows") => read_input().map(|input| printed_rows(&input).into_bytes()),
        Some("shorten") => read_input().map(|input| shortened(&input)),
        _ => {
            eprintln!("usage: second rows | second shorten, with the file on standard input");
            return ExitCode::from(2);
        }
    };
    match output.and_then(|bytes| io::stdout().write_all(&bytes)) {
        Ok(()) => ExitCode::SUCCESS,
        Err(error) => {
            eprintln!("{error}");
            ExitCode::FAILURE
        }
    }
}

/// Reads standard input up to one byte more than is taken.
fn read_input() -> io::Result<Vec<u8>> {
    let mut input = Vec::new();
    let limit = LONGEST_INPUT as u64 + 1;
    io::stdin().take(limit).read_to_end(&mut input)?;
    Ok(input)
}
