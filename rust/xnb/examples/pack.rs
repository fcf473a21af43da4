//! Says of each file of a pack whether the loader takes it.
//!
//!     cargo run --release --offline --package xnb --example pack -- PACK

use std::error::Error;
use xnb::{Pack, Shape, MOST_ROWS, WORDS_PER_ROW};

fn main() -> Result<(), Box<dyn Error>> {
    let path = std::env::args().nth(1).ok_or("name a pack")?;
    let bytes = std::fs::read(path)?;
    let pack = Pack::read(&bytes)?;
    // One table serves every load; each leaves in it the rows of its own file.
    let mut words = vec![0; WORDS_PER_ROW * MOST_ROWS];
    for file in pack.files() {
        match Shape::Rows.load(file.data, &mut words) {
            Ok(loaded) => println!("{:?}: {} rows", file.path, loaded.rows),
            Err(refused) => println!("{:?}: refused, {refused}", file.path),
        }
    }
    Ok(())
}
