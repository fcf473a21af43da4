//! One file of a page: what it is, what the loader and the driver's profile say of it, its pictures, its values and its
//! bytes.

use super::markup::{counted, grouped, safe};
use super::survey::{Answer, Surveyed};
use super::{data, models, pages, pictures, Maker};
use crate::input::LONGEST_FILE;
use crate::names::plain_lines;
use crate::refusal::Told;
use std::borrow::Cow;
use std::cell::Cell;
use std::io::{self, Write};
use xnb::{Platform, Profile, Refused, Table};

/// A file that is shown.
pub struct Shown<'t, 'f> {
    pub table: &'t Table<'f>,
    /// The number of its section.
    pub section: usize,
    /// How many pixels its pictures may still have.
    pixels: Cell<usize>,
}

/// The pictures of a file have no more pixels together.
pub const MOST_PIXELS: usize = 6 << 20;

impl Shown<'_, '_> {
    /// Whether a picture of this size is shown; it then counts.
    pub fn takes(&self, width: u32, height: u32) -> bool {
        let left = self.pixels.get();
        let left = left.checked_sub(width as usize * height as usize);
        left.inspect(|left| self.pixels.set(*left)).is_some()
    }

    /// A word that leads to a row of the tree.
    pub fn link(&self, row: u32, word: &str) -> String {
        format!(
            "<a href=\"#file-{}/row-{row}\" data-row=\"{row}\">{word} {}</a>",
            self.section,
            match word.ends_with("row") {
                true => row.to_string(),
                false => format!("of row {row}"),
            }
        )
    }
}

impl Maker<'_> {
    /// Writes the section of a file; an error if it is not answered as the index says.
    pub fn write_file(
        &self,
        out: &mut dyn Write,
        section: usize,
        name: &str,
        file: &[u8],
        surveyed: &Surveyed,
    ) -> io::Result<()> {
        // A mapped file may change while its values are shown. A longer file is refused by its length.
        let file = match file.len() as u64 <= LONGEST_FILE {
            true => Cow::Owned(file.to_vec()),
            false => Cow::Borrowed(file),
        };
        let file = &file[..];
        let loaded = self.load(file);
        if self.surveyed(file, &loaded) != *surveyed {
            return Err(super::changed());
        }
        write_start(out, section, name)?;
        match &loaded {
            Ok(table) => {
                write_facts(out, table)?;
                self.write_driver(out, file, surveyed)?;
                let shown = Shown {
                    table,
                    section,
                    pixels: Cell::new(MOST_PIXELS),
                };
                let pages = pages::pages(&shown);
                writeln!(out, "<div class=\"visuals\">")?;
                pages::write_pages(out, &shown, &pages)?;
                pictures::write_fonts(out, &shown, &pages::titles(&pages))?;
                pictures::write_textures(out, &shown)?;
                models::write_models(out, &shown)?;
                writeln!(out, "</div>")?;
                write_explorer(out, section, file, table)?;
                data::write(out, file, Some(table), None)?;
            }
            Err(refused) => self.write_refused(out, file, *refused)?,
        }
        writeln!(out, "</section>")
    }

    fn told<'f>(&self, file: &'f [u8], refused: Refused) -> Told<'f> {
        Told::of_file(self.loader, file, refused, self.room as usize)
    }

    /// Writes what the driver's profile says.
    fn write_driver(
        &self,
        out: &mut dyn Write,
        file: &[u8],
        surveyed: &Surveyed,
    ) -> io::Result<()> {
        match surveyed.driver {
            None => Ok(()),
            Some(None) => writeln!(
                out,
                "<div class=\"verdict good\"><p>The driver's own screen takes it.</p></div>"
            ),
            Some(Some(_)) => {
                let Err(refused) = self.loader.load_driver(file) else {
                    return Err(super::changed());
                };
                let told = self.told(file, refused);
                write_told(out, &told, "The driver's own screen does not take it: r")
            }
        }
    }

    fn write_refused(&self, out: &mut dyn Write, file: &[u8], refused: Refused) -> io::Result<()> {
        let bytes = counted(file.len(), "byte", "bytes");
        writeln!(out, "<p class=\"facts\">{bytes}</p>")?;
        let told = self.told(file, refused);
        write_told(out, &told, "R")?;
        if file.is_empty() {
            return Ok(());
        }
        let lit = told.is_at_byte().then(|| told.place());
        writeln!(
            out,
            "<div class=\"panel\"><h3>Bytes</h3><div class=\"explorer alone\">"
        )?;
        write_bytes(out)?;
        writeln!(out, "</div></div>")?;
        data::write(out, file, None, lit)
    }
}

/// Writes a refusal in words, with what was found, the name with its mark and the bytes around the place.
pub fn write_told(out: &mut dyn Write, told: &Told, start: &str) -> io::Result<()> {
    let head = told.head();
    let head = head.strip_prefix('r').unwrap_or(&head);
    writeln!(
        out,
        "<div class=\"verdict bad\"><p>{start}{}</p>",
        safe(head)
    )?;
    let body = told.body();
    if !body.is_empty() {
        writeln!(out, "<pre>{}</pre>", safe(&plain_lines(&body)))?;
    }
    writeln!(out, "</div>")
}

/// Writes the start of a section.
pub fn write_start(out: &mut dyn Write, section: usize, name: &str) -> io::Result<()> {
    // The script shows one; without it only the first is seen.
    let hidden = if section > 1 { " hidden" } else { "" };
    writeln!(
        out,
        "<section class=\"file\" data-file=\"file-{section}\" aria-labelledby=\"name-{section}\"{hidden}>\n\
        <h2 id=\"name-{section}\"><bdi>{}</bdi></h2>",
        safe(name)
    )
}

fn write_facts(out: &mut dyn Write, table: &Table) -> io::Result<()> {
    let loaded = table.loaded();
    let header = table.header();
    let platform = match header.platform {
        Platform::Windows => "Windows",
        Platform::WindowsPhone => "Windows Phone 7",
        Platform::Xbox360 => "Xbox 360",
        _ => "another platform",
    };
    let profile = match header.profile {
        Profile::Reach => "Reach",
        Profile::HiDef => "HiDef",
        _ => "another profile",
    };
    write!(
        out,
        "<p class=\"facts\">{} · {} · {} · {} · {platform} ({}), {profile}",
        counted(table.file().len(), "byte", "bytes"),
        counted(loaded.rows, "row", "rows"),
        counted(loaded.readers, "reader", "readers"),
        counted(loaded.shared, "shared object", "shared objects"),
        header.platform.letter()
    )?;
    if loaded.padding > 0 {
        write!(
            out,
            " · <span class=\"padded\">padding {}</span>",
            counted(loaded.padding, "byte", "bytes")
        )?;
    }
    writeln!(out, "</p>")
}

fn write_explorer(
    out: &mut dyn Write,
    section: usize,
    file: &[u8],
    table: &Table,
) -> io::Result<()> {
    writeln!(
        out,
        "<div class=\"panel\"><h3>Values and bytes</h3>\n\
        <div class=\"tools\" role=\"search\"><label for=\"search-{section}\">Search</label>\
        <input type=\"search\" id=\"search-{section}\" placeholder=\"a name, a kind or a value\" autocomplete=\"off\" \
        spellcheck=\"false\"><button type=\"button\" class=\"back\" disabled>Previous</button>\
        <button type=\"button\" class=\"forth\" disabled>Next</button>\
        <span class=\"found\" role=\"status\"></span></div>\n\
        <div class=\"explorer\"><div class=\"tree\" role=\"tree\" aria-label=\"values of the file\"></div>"
    )?;
    write_bytes(out)?;
    writeln!(
        out,
        "</div><p class=\"about\"></p><noscript><p class=\"cut\">The tree, the search and the bytes need the script of this \
        page.</p></noscript>"
    )?;
    if file.len() > data::MOST_BYTES {
        writeln!(
            out,
            "<p class=\"cut\">Of the bytes, the first {} are shown.</p>",
            grouped(data::MOST_BYTES)
        )?;
    }
    if table.loaded().readers > 0 {
        writeln!(
            out,
            "<details><summary>Readers</summary><table><tr><th>id</th><th>name</th></tr>"
        )?;
        for reader in table.readers() {
            let name = plain_lines(reader.name);
            writeln!(
                out,
                "<tr><td>{}</td><td class=\"mono\">{}</td></tr>",
                reader.type_id,
                safe(&name)
            )?;
        }
        writeln!(out, "</table></details>")?;
    }
    writeln!(out, "</div>")
}

fn write_bytes(out: &mut dyn Write) -> io::Result<()> {
    writeln!(
        out,
        "<div class=\"bytes\" role=\"region\" aria-label=\"bytes of the file\" tabindex=\"0\"></div>"
    )
}

/// What the index says of a file.
pub fn brief(surveyed: &Surveyed) -> (String, bool) {
    let bytes = counted(surveyed.bytes, "byte", "bytes");
    match (&surveyed.answer, surveyed.driver) {
        (Answer::Refused(refused), _) => (format!("{bytes} · {refused}"), true),
        (Answer::Taken { .. }, Some(Some(refused))) => {
            (format!("{bytes} · for the driver {refused}"), true)
        }
        (Answer::Taken { rows, padding }, _) => {
            let rows = counted(*rows, "row", "rows");
            let padding = match padding {
                0 => String::new(),
                _ => format!(" · padding {}", grouped(*padding)),
            };
            (format!("{bytes} · {rows}{padding}"), false)
        }
    }
}
