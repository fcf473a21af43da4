//! Pages that show what files hold.
//!
//! One reading: every value on a page is a row of `load` or is put together from rows by `xnb`; no module here looks at the
//! bytes of a file for anything but to show them.

mod canvas;
mod data;
mod links;
mod markup;
mod models;
mod page;
mod pages;
mod pictures;
mod section;
mod survey;

pub use page::{policy, Page, Source};
pub use survey::{Content, Counts};

use std::io;
use xnb::Loader;

/// How files are read for a page.
#[derive(Clone, Copy)]
pub struct Maker<'e> {
    pub loader: Loader<'e>,
    /// The rows that there is room for.
    pub room: u32,
    /// Whether the driver's profile is asked.
    pub driver: bool,
}

/// A file is not what it was when the index was made.
fn changed() -> io::Error {
    io::Error::other(crate::input::CHANGED)
}
