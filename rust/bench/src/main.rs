//! How fast the proved loader is: tables of ratios, explained in docs/PERFORMANCE.md.
//!
//! A ratio is the other's time divided by the library's: 2 means twice as fast, 0.5 half as fast.
//! All tasks use the same file, words and output; these are not cleared between turns.
//! `bench instructions` counts instructions in place of time; `rust/bench/instructions` builds and runs it.

mod branches;
mod driver;
mod inputs;
mod instructions;
mod marks;
mod measure;
mod meshes;
mod names;
mod packs;
mod report;
mod salvage;
mod search;
mod tables;
mod tasks;
mod xml;

use std::process::ExitCode;
use tables::TABLES;

/// Parts with tables of another form.
const OTHER_PARTS: [(&str, fn()); 2] = [("next", branches::measure), ("search", search::measure)];

/// Measures the parts that are named, or all.
fn main() -> ExitCode {
    let asked: Vec<String> = std::env::args().skip(1).collect();
    if let [first, rest @ ..] = &asked[..] {
        if first == "instructions" {
            return instructions::run(rest);
        }
    }
    let names = TABLES.iter().map(|table| table.name);
    let names: Vec<&str> = names.chain(OTHER_PARTS.map(|(name, _)| name)).collect();
    if let Some(word) = asked.iter().find(|word| !names.contains(&word.as_str())) {
        eprintln!("no part {word}; the parts are {}", names.join(", "));
        return ExitCode::from(2);
    }
    let is_asked = |name: &str| asked.is_empty() || asked.iter().any(|it| it == name);
    for table in TABLES.iter().filter(|table| is_asked(table.name)) {
        tables::time(table);
    }
    for (_, measure) in OTHER_PARTS.iter().filter(|(name, _)| is_asked(name)) {
        measure();
    }
    ExitCode::SUCCESS
}
