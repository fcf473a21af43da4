//! Textures and fonts of a file as pictures.

use super::canvas::{line, Canvas};
use super::markup::{counted, grouped, quoted, safe, write_cut};
use super::section::{self, Shown};
use std::io::{self, Write};
use xnb::{Font, Kind, Level, Table};

/// A larger level is not shown.
const MOST_PIXELS: usize = 1 << 20;
const MOST_TEXTURES: usize = 64;
const MOST_FONTS: usize = 16;
const MOST_GLYPHS: usize = 512;
/// Small pictures are shown so large, in pixels of the page.
const LEAST_SIDE: u32 = 96;
const SAMPLE: &str = "Next stop: Central Station 12:45";

/// Writes the textures, each level as a picture.
pub fn write_textures(out: &mut dyn Write, shown: &Shown) -> io::Result<()> {
    let table = shown.table;
    let textures = rows(table, Kind::Texture2D);
    if textures.is_empty() {
        return Ok(());
    }
    let (heading, class) = match textures.len() {
        1 => ("Texture", "panel"),
        _ => ("Textures", "panel wide"),
    };
    writeln!(
        out,
        "<div class=\"{class}\"><h3>{heading}</h3><div class=\"cards\">"
    )?;
    for row in textures.iter().take(MOST_TEXTURES) {
        write_texture(out, shown, *row)?;
    }
    writeln!(out, "</div>")?;
    write_cut(
        out,
        textures.len().min(MOST_TEXTURES),
        textures.len(),
        "textures",
    )?;
    writeln!(out, "</div>")
}

/// The rows of a kind.
pub fn rows(table: &Table, kind: Kind) -> Vec<u32> {
    let rows = table.rows().filter(|row| row.kind == kind);
    rows.map(|row| row.number).collect()
}

fn is_small(level: &Level) -> bool {
    level.width as usize * level.height as usize <= MOST_PIXELS
}

/// The largest level that is shown of a texture.
pub fn shown_level<'f>(table: &Table<'f>, row: u32) -> Option<Level<'f>> {
    let picture = table.picture(row).ok()?;
    let mut levels = picture.levels();
    levels.find(is_small)
}

/// The name of a texture's picture in the page.
pub fn picture_id(section: usize, row: u32) -> String {
    format!("file-{section}-texture-{row}")
}

fn write_texture(out: &mut dyn Write, shown: &Shown, row: u32) -> io::Result<()> {
    let picture = shown.table.picture(row).expect("the row of a texture");
    let texture = picture.texture();
    let about = format!(
        "{} by {}, {}, {}",
        grouped(texture.width as usize),
        grouped(texture.height as usize),
        texture.format,
        counted(texture.levels, "level", "levels")
    );
    let (mut is_first, mut is_cut) = (true, false);
    for (number, level) in picture.levels().enumerate() {
        // Pages show the first level that is small enough.
        let is_for_pages = is_small(&level) && std::mem::take(&mut is_first);
        if !is_small(&level) || !shown.takes(level.width, level.height) {
            is_cut = true;
            continue;
        }
        let id = match is_for_pages {
            true => format!(" id=\"{}\"", picture_id(shown.section, row)),
            false => String::new(),
        };
        let (width, height) = (level.width, level.height);
        let scale = (LEAST_SIDE / width.max(height)).max(1);
        write!(
            out,
            "<figure><svg class=\"picture\" width=\"{}\" height=\"{}\" viewBox=\"0 0 {width} {height}\" role=\"img\" \
            aria-label=\"texture of row {row}, level {number}, {width} by {height}\">\
            <image{id} width=\"{width}\" height=\"{height}\" href=\"",
            width * scale,
            height * scale
        )?;
        Canvas::of_level(&level)?.write_address(out)?;
        write!(out, "\"/></svg><figcaption>")?;
        match number {
            0 => {
                let made = texture.format.made();
                let made = made.map_or(String::new(), |it| format!("; {it}"));
                write!(
                    out,
                    "{}: {}{}",
                    shown.link(row, "Texture"),
                    safe(&about),
                    safe(&made)
                )?;
            }
            _ => write!(out, "level {number}: {width} by {height}")?,
        }
        writeln!(out, "</figcaption></figure>")?;
    }
    if is_cut {
        writeln!(
            out,
            "<p class=\"cut\">{}: {}. Levels of more than {} pixels are not shown here, nor more than {} of all pictures of a \
            file; <code>asset-builder image</code> writes them.</p>",
            shown.link(row, "Texture"),
            safe(&about),
            grouped(MOST_PIXELS),
            grouped(section::MOST_PIXELS)
        )?;
    }
    Ok(())
}

/// A font with the pixels of its texture.
pub struct Face {
    pub font: Font,
    pub texture: Canvas,
}

impl Face {
    /// The font of a row, if its texture's first level is shown.
    pub fn of(table: &Table, row: u32) -> io::Result<Option<Face>> {
        let font = table.font(row).expect("the row of a font");
        let picture = table.picture(font.texture).expect("the texture of a font");
        let Some(level) = picture.level(0).filter(is_small) else {
            return Ok(None);
        };
        let texture = Canvas::of_level(&level)?;
        Ok(Some(Face { font, texture }))
    }

    /// Whether every character of a text has a glyph of its own.
    pub fn has_all(&self, text: &str) -> bool {
        text.chars().all(|it| self.font.glyph(it).is_some())
    }

    /// A title of the file that the font has all of, or a line of ours, or the font's first characters.
    fn sample(&self, titles: &[&str]) -> String {
        let own = titles.iter().find(|it| !it.is_empty() && self.has_all(it));
        if let Some(title) = own {
            return title.to_string();
        }
        if self.has_all(SAMPLE) {
            return SAMPLE.to_string();
        }
        let characters = self.font.glyphs().iter().map(|glyph| glyph.character);
        characters.take(32).collect()
    }
}

/// Writes the fonts: a line set in each, and its glyphs.
pub fn write_fonts(out: &mut dyn Write, shown: &Shown, titles: &[&str]) -> io::Result<()> {
    let fonts = rows(shown.table, Kind::SpriteFont);
    for row in fonts.iter().take(MOST_FONTS) {
        write_font(out, shown, *row, titles)?;
    }
    write_cut(out, fonts.len().min(MOST_FONTS), fonts.len(), "fonts")
}

fn write_font(out: &mut dyn Write, shown: &Shown, row: u32, titles: &[&str]) -> io::Result<()> {
    let font = shown.table.font(row).expect("the row of a font");
    let default = match font.default {
        Some(it) => format!(
            "{} is shown for a missing character",
            quoted(&it.to_string())
        ),
        None => "a missing character is left out".to_string(),
    };
    writeln!(
        out,
        "<div class=\"panel\"><h3>{}</h3><p>{}; lines are {} apart, glyphs {}; {default}.</p>",
        shown.link(row, "Font"),
        counted(font.glyphs().len(), "glyph", "glyphs"),
        font.line_spacing,
        font.spacing
    )?;
    let Some(face) = Face::of(shown.table, row)? else {
        return writeln!(
            out,
            "<p class=\"cut\">Its texture has more than {} pixels: no glyph is shown.</p></div>",
            grouped(MOST_PIXELS)
        );
    };
    let sample = face.sample(titles);
    let line = line(&face.font, &face.texture, &sample)?;
    if let Some(line) = line.filter(|it| shown.takes(it.width, it.height)) {
        write!(
            out,
            "<figure><div class=\"sample\"><img width=\"{}\" height=\"{}\" alt=\"{} set in the font\" src=\"",
            line.width,
            line.height,
            quoted(&sample)
        )?;
        line.write_address(out)?;
        writeln!(
            out,
            "\"></div><figcaption>{} set in the font</figcaption></figure>",
            quoted(&sample)
        )?;
    }
    writeln!(
        out,
        "<details><summary>Glyphs</summary><ul class=\"glyphs\" aria-label=\"glyphs\">"
    )?;
    for glyph in font.glyphs().iter().take(MOST_GLYPHS) {
        let character = glyph.character;
        let name = quoted(&character.to_string());
        let code = u32::from(character);
        write!(out, "<li>")?;
        let part = face.texture.part(glyph.bounds)?;
        if let Some(part) = part.filter(|it| shown.takes(it.width, it.height)) {
            let scale = (24 / part.height.max(1)).max(1);
            write!(
                out,
                "<img width=\"{}\" height=\"{}\" alt=\"\" src=\"",
                part.width * scale,
                part.height * scale
            )?;
            part.write_address(out)?;
            write!(out, "\">")?;
        }
        writeln!(out, "<bdi>{name}</bdi> U+{code:04X}</li>")?;
    }
    writeln!(out, "</ul>")?;
    let glyphs = font.glyphs().len();
    write_cut(out, glyphs.min(MOST_GLYPHS), glyphs, "glyphs")?;
    writeln!(out, "</details></div>")
}
