//! A second loader for uncompressed XNB 5 files.
//!
//! It is written from documents 000, 01 and 02 alone and shares no code and no table with the proved loader.

mod branches;
mod cursor;
pub mod driver;
mod enums;
mod header;
mod image;
mod kinds;
mod load;
mod lookup;
pub mod marks;
mod mesh;
mod name;
pub mod pack;
mod printed;
mod refusal;
pub mod report;
mod rewrite;
mod row;
pub mod salvage;
mod seven;
mod table;
mod ticks;
mod types;
mod utf8;
mod walk;
pub mod xml;

pub use branches::broken_branch;
pub use image::{level_size, longest_chain};
pub use load::{builder_answer, load, load_in, reported_padding, Loaded, NO_ENUMS};
pub use lookup::{next, part, signed, text, time};
pub use printed::{
    printed_rows, printed_rows_with, refusal_line, shortened, INPUT_TOO_LONG, LONGEST_INPUT,
};
pub use refusal::Refusal;
pub use rewrite::rewrite;
pub use row::{Row, WORDS_PER_ROW};
pub use seven::{read_seven, shortest_seven, Seven};
pub use table::{Shape, Table};
pub use ticks::{split_ticks, Time};
