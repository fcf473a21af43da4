//! Prints the values of a file, each below the one that it belongs to.
//!
//!     cargo run --release --offline --package xnb --example values -- FILE

use std::error::Error;
use xnb::{Refused, Table};

fn main() -> Result<(), Box<dyn Error>> {
    let path = std::env::args().nth(1).ok_or("name a file")?;
    let file = std::fs::read(path)?;
    let table = Table::load(&file)?;
    println!("{:?}", table.header());
    for reader in table.readers() {
        println!("type id {} reads {}", reader.type_id, reader.target());
    }
    for object in table.objects() {
        print_value(&table, object, 0)?;
    }
    Ok(())
}

/// Prints a value and all below it.
fn print_value(table: &Table, row: u32, depth: usize) -> Result<(), Refused> {
    println!(
        "{:indent$}{row}: {:?}",
        "",
        table.value(row)?,
        indent = 2 * depth
    );
    for child in table.children(row) {
        print_value(table, child, depth + 1)?;
    }
    Ok(())
}
