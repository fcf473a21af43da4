//! Whether the library's instructions grow with the work alone.

use super::{callgrind::Callgrind, grouped};
use crate::inputs::{enum_list, many_values, texts, Input};
use crate::packs::pack_of;
use crate::tables::TABLES;

/// A row, a byte, a file or an entry may take so many times what it takes in a smaller input.
const MOST_GROWTH: f64 = 1.05;
const BYTES_OF_DATA: usize = 16;

/// A measure, and inputs in three sizes of it.
struct Measure {
    of: &'static str,
    sizes: [&'static str; 3],
    lines: fn() -> Vec<Line>,
}

const MEASURES: [Measure; 4] = [
    Measure {
        of: "a row",
        sizes: ["1,000", "8,000", "64,000"],
        lines: rows,
    },
    Measure {
        of: "a byte of text",
        sizes: ["64 KB", "1 MB", "16 MB"],
        lines: bytes,
    },
    Measure {
        of: "a file of a pack",
        sizes: ["16", "256", "4,096"],
        lines: files,
    },
    Measure {
        of: "an enum entry",
        sizes: ["10", "1,000", "9,000"],
        lines: entries,
    },
];

/// One kind of input in three sizes.
struct Line {
    table: &'static str,
    name: String,
    /// The inputs, and how many rows, bytes, files or entries each has.
    sizes: Vec<(Input, usize)>,
    /// How much each of so many may take, up to a factor.
    may_take: fn(usize) -> f64,
}

impl Line {
    /// Whether one takes more than it may, beside what it takes in a smaller input.
    fn grows(&self, counts: &[u64]) -> bool {
        let each = self.sizes.iter().zip(counts).map(|((_, size), count)| {
            let each = *count as f64 / *size as f64;
            each / (self.may_take)(*size)
        });
        let each: Vec<f64> = each.collect();
        let beside_smaller = |(number, one): (usize, &f64)| {
            let smaller = each[..number].iter();
            smaller.copied().any(|smaller| *one > MOST_GROWTH * smaller)
        };
        each.iter().enumerate().any(beside_smaller)
    }
}

/// Prints a table for each measure and names what grows more than it may.
pub fn run() -> Result<(), String> {
    let callgrind = Callgrind::new()?;
    let mut grown = Vec::new();
    for Measure { of, sizes, lines } in MEASURES {
        println!(
            "\ninstructions for {of}\n\n| input | {} |",
            sizes.join(" | ")
        );
        println!("|---|---|---|---|");
        for line in lines() {
            let counts = library_counts(&callgrind, &line)?;
            print!("| {} |", line.name);
            for ((_, size), count) in line.sizes.iter().zip(&counts) {
                let each = *count as f64 / *size as f64;
                print!(" {} ({}) |", told(each), grouped(*count));
            }
            println!();
            if line.grows(&counts) {
                grown.push(format!("{of}, {}", line.name));
            }
        }
    }
    if grown.is_empty() {
        println!("\nnothing grows by more than it may");
        return Ok(());
    }
    Err(format!("grows by more than it may: {}", grown.join("; ")))
}

/// The library's instructions for each size.
fn library_counts(callgrind: &Callgrind, line: &Line) -> Result<Vec<u64>, String> {
    let table = TABLES.iter().find(|table| table.name == line.table);
    let table = table.ok_or_else(|| format!("no table {}", line.table))?;
    let count = |(input, _): &(Input, usize)| {
        let lent = callgrind.lend(input)?;
        callgrind.count(table.name, &table.library, &lent)
    };
    line.sizes.iter().map(count).collect()
}

fn told(each: f64) -> String {
    match each {
        0.0..10.0 => format!("{each:.2}"),
        10.0..100.0 => format!("{each:.1}"),
        _ => grouped(each.round() as u64),
    }
}

/// Inputs that stand at the same place of lists of three sizes.
fn lines(table: &'static str, lists: [Vec<Input>; 3], size: fn(&Input) -> usize) -> Vec<Line> {
    let mut lists = lists.map(Vec::into_iter);
    let [first, ..] = &lists;
    (0..first.len())
        .map(|_| {
            let inputs = lists
                .each_mut()
                .map(|list| list.next().expect("equal lists"));
            let [small, ..] = &inputs;
            let without_size = |it: char| it.is_ascii_digit() || it == ' ' || it == ',';
            Line {
                table,
                name: small.name.trim_start_matches(without_size).to_string(),
                sizes: inputs
                    .map(|input| {
                        let size = size(&input);
                        (input, size)
                    })
                    .into(),
                may_take: |_| 1.0,
            }
        })
        .collect()
}

fn rows() -> Vec<Line> {
    lines("load", [1000, 8000, 64_000].map(many_values), |input| {
        input.rows
    })
}

fn bytes() -> Vec<Line> {
    // The longest file has 16 MB with all that stands around its text.
    let sizes = [1 << 16, 1 << 20, (1 << 24) - 100];
    lines("load", sizes.map(|bytes| texts("", bytes)), |input| {
        input.bytes.len()
    })
}

fn files() -> Vec<Line> {
    let pack = |files| vec![pack_of(files, BYTES_OF_DATA)];
    lines("pack-read", [16, 256, 4096].map(pack), |input| input.rows)
}

fn entries() -> Vec<Line> {
    let sizes = [10, 1000, 9000].map(|count| (enum_list(count), count));
    vec![Line {
        table: "enums",
        name: "enum types listed".to_string(),
        sizes: sizes.into(),
        may_take: |entries| (entries as f64).ln(),
    }]
}

#[cfg(test)]
mod tests {
    use super::*;

    /// A line over inputs of these sizes, whose bytes do not matter.
    fn line(sizes: [usize; 3], may_take: fn(usize) -> f64) -> Line {
        let sizes = sizes.map(|size| (enum_list(0), size)).into();
        let (table, name) = ("enums", String::new());
        Line {
            table,
            name,
            sizes,
            may_take,
        }
    }

    #[test]
    fn more_than_the_work_is_found() {
        let line = line([10, 100, 1000], |_| 1.0);
        assert!(!line.grows(&[100, 1000, 10_000]));
        assert!(!line.grows(&[100, 900, 9_000]));
        assert!(!line.grows(&[100, 1040, 10_000]));
        assert!(line.grows(&[100, 1060, 10_000]));
        assert!(line.grows(&[100, 1040, 10_800]));
    }

    #[test]
    fn more_than_the_logarithm_is_found() {
        let line = line([10, 100, 1000], |size| (size as f64).ln());
        assert!(!line.grows(&[100, 2000, 30_000]));
        assert!(line.grows(&[100, 2000, 40_000]));
    }
}
