//! Pages of the console: where each is, with its title and texture, and which leads to which.

use super::canvas::line;
use super::links::Links;
use super::markup::{counted, quoted_or_null, safe, start_of, write_cut};
use super::pictures::{picture_id, rows, shown_level, Face};
use super::section::Shown;
use crate::names::shown_text;
use std::io::{self, Write};
use xnb::{Kind, Page, Rectangle};

const MOST_PAGES: usize = 60;
/// One screen is drawn for all pages if its sides are no longer.
const LARGEST_SCREEN: i64 = 4_096;
const LONGEST_TITLE: usize = 60;

/// A part of the plane.
#[derive(Clone, Copy)]
struct Screen {
    left: i64,
    top: i64,
    right: i64,
    bottom: i64,
}

impl Screen {
    /// The least screen with the upper left corner and an area.
    fn of(area: Rectangle) -> Screen {
        let end = |from: i32, size: i32| i64::from(from) + i64::from(size.max(0));
        Screen {
            left: i64::from(area.x).min(0),
            top: i64::from(area.y).min(0),
            right: end(area.x, area.width).max(1),
            bottom: end(area.y, area.height).max(1),
        }
    }

    fn with(self, other: Screen) -> Screen {
        Screen {
            left: self.left.min(other.left),
            top: self.top.min(other.top),
            right: self.right.max(other.right),
            bottom: self.bottom.max(other.bottom),
        }
    }

    fn width(self) -> i64 {
        self.right - self.left
    }

    fn height(self) -> i64 {
        self.bottom - self.top
    }
}

/// The pages of a file, each with its row.
pub fn pages<'f>(shown: &Shown<'_, 'f>) -> Vec<(u32, Page<'f>)> {
    let rows = rows(shown.table, Kind::Page).into_iter();
    rows.map(|row| (row, shown.table.page(row).expect("the row of a page")))
        .collect()
}

/// Writes the pages as the console lays them out, and their links.
pub fn write_pages(out: &mut dyn Write, shown: &Shown, pages: &[(u32, Page)]) -> io::Result<()> {
    if pages.is_empty() {
        return Ok(());
    }
    let faces = rows(shown.table, Kind::SpriteFont);
    let face = match faces.first() {
        Some(row) => Face::of(shown.table, *row)?,
        None => None,
    };
    let screens = pages.iter().map(|(_, page)| Screen::of(page.area));
    let all = screens
        .reduce(Screen::with)
        .filter(|screen| screen.width() <= LARGEST_SCREEN && screen.height() <= LARGEST_SCREEN);
    let (heading, class) = match pages.len() {
        1 => ("Page", "panel"),
        _ => ("Pages", "panel wide"),
    };
    writeln!(
        out,
        "<div class=\"{class}\"><h3>{heading}</h3><div class=\"cards\">"
    )?;
    for (row, page) in pages.iter().take(MOST_PAGES) {
        let screen = all.unwrap_or(Screen::of(page.area));
        write_page(out, shown, (*row, page), screen, face.as_ref())?;
    }
    writeln!(out, "</div>")?;
    write_cut(out, pages.len().min(MOST_PAGES), pages.len(), "pages")?;
    writeln!(out, "</div>")?;
    write_links(out, shown, pages)
}

fn write_page(
    out: &mut dyn Write,
    shown: &Shown,
    (row, page): (u32, &Page),
    screen: Screen,
    face: Option<&Face>,
) -> io::Result<()> {
    let Rectangle {
        x,
        y,
        width,
        height,
    } = page.area;
    let title = quoted_or_null(page.title);
    writeln!(
        out,
        "<figure><svg class=\"screen\" viewBox=\"{} {} {} {}\" role=\"img\" aria-label=\"the page {title} on the screen\">",
        screen.left,
        screen.top,
        screen.width(),
        screen.height()
    )?;
    if width > 0 && height > 0 {
        let place = format!("x=\"{x}\" y=\"{y}\" width=\"{width}\" height=\"{height}\"");
        writeln!(out, "<rect class=\"area\" {place}/>")?;
        let level = page.texture.and_then(|row| shown_level(shown.table, row));
        if let (Some(row), Some(level)) = (page.texture, level) {
            let across = f64::from(width) / f64::from(level.width);
            let down = f64::from(height) / f64::from(level.height);
            writeln!(
                out,
                "<use href=\"#{}\" transform=\"translate({x} {y}) scale({across} {down})\"/>",
                picture_id(shown.section, row)
            )?;
        }
        writeln!(out, "<rect class=\"frame\" {place}/>")?;
        write_title(out, shown, page, screen, face)?;
    }
    write!(
        out,
        "</svg><figcaption><strong><bdi>{title}</bdi></strong> "
    )?;
    write!(out, "({}), ", shown.link(row, "row"))?;
    match width > 0 && height > 0 {
        true => write!(out, "{width} by {height} at {x}, {y}")?,
        false => write!(out, "{width} by {height} at {x}, {y}, which shows nothing")?,
    }
    match (page.texture, page.texture_id) {
        (Some(row), _) => write!(out, "; {}", shown.link(row, "texture"))?,
        (None, Some(id)) => write!(out, "; its texture, shared {id}, is null")?,
        (None, None) => write!(out, "; no texture")?,
    }
    match (page.next, page.next_id) {
        (Some(next), _) => {
            let title = shown.table.page(next).ok().and_then(|page| page.title);
            write!(
                out,
                "; next <bdi>{}</bdi> ({})",
                quoted_or_null(title),
                shown.link(next, "row")
            )?;
        }
        (None, Some(id)) => write!(out, "; its next page, shared {id}, is null")?,
        (None, None) => write!(out, "; no next page")?,
    }
    writeln!(out, "</figcaption></figure>")
}

/// Writes the title in the file's font if that has all of it, else in the browser's.
fn write_title(
    out: &mut dyn Write,
    shown: &Shown,
    page: &Page,
    screen: Screen,
    face: Option<&Face>,
) -> io::Result<()> {
    let Some(title) = page.title else {
        return Ok(());
    };
    let (title, _) = start_of(title, LONGEST_TITLE);
    let (x, y) = (i64::from(page.area.x), i64::from(page.area.y));
    let set = face.filter(|face| face.has_all(title));
    let set = match set {
        Some(face) => line(&face.font, &face.texture, title)?,
        None => None,
    };
    if let Some(line) = set.filter(|it| shown.takes(it.width, it.height)) {
        write!(
            out,
            "<image x=\"{}\" y=\"{}\" width=\"{}\" height=\"{}\" href=\"",
            x + 2,
            y + 2,
            line.width,
            line.height
        )?;
        line.write_address(out)?;
        return writeln!(out, "\"/>");
    }
    let size = (screen.height() as f64 / 12.0).max(screen.width() as f64 / 26.0);
    let title = shown_text(title, '”');
    writeln!(
        out,
        "<text x=\"{}\" y=\"{}\" font-size=\"{size:.2}\">{}</text>",
        x as f64 + size / 2.0,
        y as f64 + size * 1.3,
        safe(&title)
    )
}

/// The width and height of a page's box in the drawing of links, and what is between two.
const BOX: (i64, i64) = (300, 36);
const GAP: i64 = 22;

/// Writes which page leads to which, with rings.
fn write_links(out: &mut dyn Write, shown: &Shown, pages: &[(u32, Page)]) -> io::Result<()> {
    let nexts: Vec<(u32, Option<u32>)> =
        pages.iter().map(|(row, page)| (*row, page.next)).collect();
    if nexts.iter().all(|(_, next)| next.is_none()) {
        return Ok(());
    }
    let title = |row: u32| {
        let page = pages.iter().find(|(number, _)| *number == row);
        page.and_then(|(_, page)| page.title)
    };
    let links = Links::of(&nexts);
    let rings = counted(links.rings.len(), "ring", "rings");
    writeln!(
        out,
        "<div class=\"panel\"><h3>Links: {}, {rings}</h3>",
        counted(pages.len(), "page", "pages")
    )?;
    let order = &links.order[..links.order.len().min(MOST_PAGES)];
    let height = order.len() as i64 * (BOX.1 + GAP);
    let width = BOX.0 + 220;
    let section = shown.section;
    writeln!(
        out,
        "<svg class=\"graph\" width=\"{width}\" height=\"{height}\" viewBox=\"-4 -4 {width} {height}\" role=\"img\" \
        aria-label=\"which page leads to which; the lines below say it in words\"><defs>"
    )?;
    for (name, class) in [("arrow", ""), ("ring-arrow", " class=\"ring\"")] {
        writeln!(
            out,
            "<marker id=\"file-{section}-{name}\"{class} viewBox=\"0 0 10 10\" refX=\"9\" refY=\"5\" markerWidth=\"7\" \
            markerHeight=\"7\" orient=\"auto-start-reverse\"><path d=\"M0 0L10 5L0 10z\"/></marker>"
        )?;
    }
    writeln!(out, "</defs>")?;
    let place = |row: u32| order.iter().position(|it| *it == row);
    let top = |place: usize| place as i64 * (BOX.1 + GAP);
    for (from, row) in order.iter().enumerate() {
        let Some(to) = links.next(*row).and_then(place) else {
            continue;
        };
        let in_ring = links.ring_of(*row).is_some();
        let (class, arrow) = match in_ring {
            true => (" class=\"ring\"", "ring-arrow"),
            false => ("", "arrow"),
        };
        let path = if to == from + 1 {
            let x = BOX.0 / 2;
            format!("M{x} {}V{}", top(from) + BOX.1, top(to) - 1)
        } else {
            let (x, start, end) = (BOX.0, top(from) + BOX.1 / 2 + 6, top(to) + BOX.1 / 2 - 6);
            let far = x + 36 + 12 * (from.abs_diff(to) as i64).min(12);
            format!("M{x} {start}C{far} {start} {far} {end} {} {end}", x + 1)
        };
        writeln!(
            out,
            "<path{class} d=\"{path}\" marker-end=\"url(#file-{section}-{arrow})\"/>"
        )?;
    }
    for (place, row) in order.iter().enumerate() {
        let ring = links.ring_of(*row);
        let class = if ring.is_some() {
            " class=\"ring\""
        } else {
            ""
        };
        let name = title(*row).map_or("null".to_string(), short_title);
        let note = match ring {
            Some(ring) => format!("row {row}, ring {}", ring + 1),
            None => format!("row {row}"),
        };
        let y = top(place);
        writeln!(
            out,
            "<rect{class} x=\"0\" y=\"{y}\" width=\"{}\" height=\"{}\" rx=\"7\"/>\
            <text x=\"12\" y=\"{}\">{name}</text>\
            <text class=\"quiet\" x=\"{}\" y=\"{}\" text-anchor=\"end\">{note}</text>",
            BOX.0,
            BOX.1,
            y + 23,
            BOX.0 - 10,
            y + 23
        )?;
    }
    writeln!(out, "</svg>")?;
    write_cut(out, order.len(), links.order.len(), "pages")?;
    writeln!(out, "<ul class=\"words\">")?;
    let named = |row: &u32| {
        let title = title(*row).map(|it| start_of(it, LONGEST_TITLE).0);
        format!("<bdi>{}</bdi>", quoted_or_null(title))
    };
    for (number, ring) in (1..).zip(&links.rings).take(MOST_PAGES) {
        let names: Vec<String> = ring.iter().take(MOST_PAGES).map(named).collect();
        let rest = ring.len() - names.len();
        let cut = match rest {
            0 => String::new(),
            _ => format!(" → {}", counted(rest, "page more", "pages more")),
        };
        writeln!(
            out,
            "<li>Ring {number}: {}{cut} → back to {}</li>",
            names.join(" → "),
            names[0]
        )?;
    }
    if links.rings.is_empty() {
        writeln!(out, "<li>No page leads back to itself.</li>")?;
    }
    let ends = nexts.iter().filter(|(_, next)| next.is_none()).count();
    if ends > 0 {
        writeln!(
            out,
            "<li>{} to no other.</li>",
            match ends {
                1 => "One page leads".to_string(),
                _ => counted(ends, "page leads", "pages lead"),
            }
        )?;
    }
    writeln!(out, "</ul>")?;
    write_cut(
        out,
        links.rings.len().min(MOST_PAGES),
        links.rings.len(),
        "rings",
    )?;
    writeln!(out, "</div>")
}

/// A title that fits into a box.
fn short_title(title: &str) -> String {
    let title = shown_text(title, '”');
    let (start, is_cut) = start_of(&title, 26);
    let rest = if is_cut { "…" } else { "" };
    format!("“{}{rest}”", safe(start))
}

/// The titles of the pages.
pub fn titles<'f>(pages: &[(u32, Page<'f>)]) -> Vec<&'f str> {
    pages.iter().filter_map(|(_, page)| page.title).collect()
}
