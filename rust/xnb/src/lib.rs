//! The proved XNB loader from Rust: loading, rewriting and looking up, text lists as XML, and packs of files, without unsafe code.
//!
//! An XNB file holds objects of a game: texts, numbers, lists, pictures, fonts, pages. The library reads one from its
//! bytes, judges every byte of it, and leaves a table with a row for each value. All of that is done by a proved library,
//! which this crate links and calls; it never reads past the bytes that it is given, and gives one answer for each file.
//!
//! # Load a file
//!
//! ```
//! use xnb::{Kind, Table, Value};
//!
//! let mut file = b"XNBw\x05\x00\x00\x00\x00\x00\x02".to_vec();
//! for name in ["ListReader`1[[System.String]]", "StringReader"] {
//!     let name = format!("Microsoft.Xna.Framework.Content.{name}");
//!     file.push(name.len() as u8);
//!     file.extend_from_slice(name.as_bytes());
//!     file.extend_from_slice(&[0; 4]);
//! }
//! // No shared objects; the primary object, a list of a text and a null.
//! file.extend_from_slice(b"\x00\x01\x02\x00\x00\x00\x02\x05Doors\x00");
//! file[6] = file.len() as u8;
//!
//! let table = Table::load(&file)?;
//! let list = table.row(0).expect("the primary object");
//! assert_eq!((list.kind, list.children), (Kind::List, 2));
//! // Each child is a row number, and each row has a value.
//! let values: Vec<Value> = table.children(0).map(|row| table.value(row)).collect::<Result<_, _>>()?;
//! assert_eq!(values, [Value::String("Doors"), Value::Null]);
//! # Ok::<(), xnb::Refused>(())
//! ```
//!
//! | to get | ask a [`Table`] for |
//! |---|---|
//! | the primary object and the shared ones | [`objects`](Grid::objects), [`resource`](Grid::resource) |
//! | a row: its kind, its bytes, what it belongs to | [`row`](Grid::row), [`rows`](Grid::rows), [`children`](Grid::children) |
//! | a value | [`value`](Grid::value), [`value_bytes`](Grid::value_bytes), [`text`](Grid::text) |
//! | a texture as pixels | [`picture`](Grid::picture) |
//! | a font, a page | [`font`](Grid::font), [`page`](Grid::page) |
//! | a model and its buffers | [`model`](Grid::model) and the rest of [`meshes`] |
//! | who the file is for, and how its values are read | [`header`](Grid::header), [`readers`](Grid::readers) |
//!
//! # When a file is refused
//!
//! A file that breaks a rule is refused as a whole, with the rule's number and the place where it is broken.
//! [`explain`] looks at that place and says what is found there.
//!
//! ```
//! // A file of 13 bytes that claims to have 14.
//! let file = b"XNBw\x05\x00\x0E\x00\x00\x00\x00\x00\x00";
//! let refused = xnb::Table::load(file).unwrap_err();
//! assert_eq!(refused.refusal.number(), 7);
//! assert_eq!(refused.to_string(), "the header's length is not the file's length, at byte 6");
//! let found = xnb::explain(file, refused, xnb::MOST_ROWS).expect("an explanation").found;
//! assert_eq!(found, "the header says 14 bytes, the file has 13");
//! ```
//!
//! # More than loading
//!
//! - [`shorten`] writes a file with every number in its shortest form; [`padding`](Grid::padding) says what that saves.
//! - [`Loader`] gives a list of enum types ([`EnumList`]) to a load, for enums that have not four bytes.
//! - [`Columns`] is a table with each word of all rows in one slice, for searches.
//! - [`Shape`] and [`Grid::load_into`] load into memory that you give, and allocate none.
//! - [`Loader::load_driver`] loads with the rules of the driver's own screen besides.
//! - [`xml`] writes a list of texts as XML for translators, and takes it back.
//! - [`Pack`] reads a pack of files; [`marks`] converts packs to marked ones and back, [`salvage`] keeps what a damaged
//!   one still holds, and [`report`] counts what many packs contain.
//!
//! # Linking
//!
//! The proved library is an archive, `libbuilder.a`, which `tools/archive` writes. This crate's build looks for it
//! in the repository's `target/staticlib`, or in the folder that the environment variable `XNB_LIB_DIR` names.
//!
//! The feature `serde` makes values, rows and what is put together of them `Serialize`.

#![deny(missing_docs)]
#![deny(unsafe_code)]
#![deny(clippy::undocumented_unsafe_blocks)]

mod calls;
mod decimal;
mod enums;
mod explain;
mod fields;
mod font;
mod header;
mod kind;
mod loader;
pub mod marks;
mod memory;
pub mod meshes;
mod numbers;
pub mod pack;
mod padding;
mod page;
mod picture;
// Its calls of the archive's entries are the only unsafe code.
#[allow(unsafe_code)]
pub mod raw;
mod refusal;
pub mod report;
mod row;
pub mod salvage;
mod search;
mod shape;
mod table;
mod time;
mod value;
pub mod xml;

pub use calls::{count_rows, rewrite, shorten, Loaded, Time};
pub use decimal::Decimal;
pub use enums::{EnumFault, EnumList, EnumsRefused};
pub use explain::{explain, Explanation, NameLine, ReaderName, ShownName};
pub use font::{Font, Glyph, Kerning, Placed};
pub use header::{Header, Platform, Profile, Reader, Target};
pub use kind::Kind;
pub use loader::Loader;
pub use memory::{NotMade, OutOfMemory};
pub use pack::Pack;
pub use page::Page;
pub use picture::{Level, Picture, SurfaceFormat, Texture};
pub use refusal::{FileError, Place, Refusal, Refused};
pub use report::Report;
pub use row::{Detail, Row, MOST_ROWS, WORDS_PER_ROW};
pub use shape::{ByColumns, ByRows, Shape, Shaped};
pub use table::{Columns, Grid, Table};
pub use time::{DateTime, TimeSpan, Zone};
pub use value::{EnumValue, Point, Rectangle, Value};
