//! Instructions of the library, the tuned loader and the second program, held to stored ratios.
//!
//! A ratio is the other's instructions divided by the library's, as with times.

mod callgrind;
mod growth;
mod ratios;

use crate::inputs::Input;
use crate::tables::{Table, TABLES};
use callgrind::{call, Callgrind};
use ratios::Ratios;
use std::process::ExitCode;

const USAGE: &str = "usage: instructions [--write] [TABLE ...] | instructions growth";

/// Counts the tables that are named, or all, or the growth.
pub fn run(asked: &[String]) -> ExitCode {
    let words: Vec<&str> = asked.iter().map(|word| word.as_str()).collect();
    let answer = match words[..] {
        // One call of one program, which callgrind looks at.
        ["call", table, program, rows, file, enums] => call(table, program, rows, file, enums),
        ["growth"] => growth::run(),
        ["--write", ref tables @ ..] => count(tables, true),
        ref tables => count(tables, false),
    };
    match answer {
        Ok(()) => ExitCode::SUCCESS,
        Err(message) => {
            eprintln!("{message}");
            ExitCode::FAILURE
        }
    }
}

/// Tables in which another program stands beside the library.
fn counted() -> impl Iterator<Item = &'static Table> {
    TABLES.iter().filter(|table| !table.others.is_empty())
}

/// Salvages of 100 MB take ten times as long as those of 10 MB, and minutes here.
fn is_counted(input: &Input) -> bool {
    !input.name.starts_with("100 MB")
}

/// Prints the tables, and holds their ratios to the stored ones or stores them.
fn count(names: &[&str], is_written: bool) -> Result<(), String> {
    let is_unknown = |name: &&&str| counted().all(|table| table.name != **name);
    if let Some(name) = names.iter().find(is_unknown) {
        return Err(format!("no table {name}\n{USAGE}"));
    }
    let callgrind = Callgrind::new()?;
    let mut ratios = Ratios::read()?;
    let is_asked = |table: &&Table| names.is_empty() || names.contains(&table.name);
    for table in counted().filter(is_asked) {
        let programs: Vec<&str> = table.calls().map(|call| call.program).collect();
        println!("\n{}, instructions\n", table.title);
        println!("| input | rows | {} |", programs.join(" | "));
        println!("|---|---|{}", "---|".repeat(programs.len()));
        let inputs = (table.inputs)();
        for input in inputs.iter().filter(|input| is_counted(input)) {
            let counts = counts(&callgrind, table, input)?;
            print!("| {} | {} |", input.name, input.rows);
            let library = counts[0];
            for (program, count) in programs.iter().zip(&counts) {
                let ratio = *count as f64 / library as f64;
                match *program {
                    "library" => print!(" {} |", grouped(*count)),
                    _ => print!(" {} ({}) |", grouped(*count), ratios::told(ratio)),
                }
                if *program != "library" {
                    ratios.now(table.name, &input.name, program, ratio);
                }
            }
            println!();
        }
    }
    if is_written {
        return ratios.write();
    }
    ratios.check()
}

/// The instructions of each program of a table.
fn counts(callgrind: &Callgrind, table: &Table, input: &Input) -> Result<Vec<u64>, String> {
    let lent = callgrind.lend(input)?;
    let count = |call| callgrind.count(table.name, call, &lent);
    table.calls().map(count).collect()
}

/// A number with a comma between thousands.
fn grouped(number: u64) -> String {
    let digits = number.to_string();
    let mut told = String::new();
    for (place, digit) in digits.chars().enumerate() {
        if place > 0 && (digits.len() - place).is_multiple_of(3) {
            told.push(',');
        }
        told.push(digit);
    }
    told
}
