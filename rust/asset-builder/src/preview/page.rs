//! A whole page: head, index and sections.

use super::markup::{counted, safe};
use super::section::{brief, write_start, write_told};
use super::survey::{Brief, Content, Counts, Surveyed};
use super::Maker;
use crate::commands::pack;
use crate::names::shown;
use crate::refusal::Told;
use sha2::{Digest, Sha256};
use std::io::{self, BufWriter, Write};
use std::path::{Path, PathBuf};

const STYLE: &str = include_str!("page.css");
const SCRIPT: &str = include_str!("page.js");
/// Files whose sections would begin behind so many bytes of the page are in the index alone.
const MOST_BYTES: u64 = 32 << 20;
/// From so many files on, the index has a filter.
const MANY_FILES: usize = 12;

/// One input of a page.
pub struct Source {
    pub path: PathBuf,
    /// Its name, to be shown.
    pub name: String,
    pub content: Content,
}

/// A page that is to be written.
pub struct Page<'p> {
    pub maker: Maker<'p>,
    pub sources: &'p [Source],
    /// The number that a served page is known by.
    pub version: Option<u64>,
}

/// What a page may load and run: its own script and style, pictures in it, and if it is served its own server.
pub fn policy(served: bool) -> String {
    let connect = if served { "; connect-src 'self'" } else { "" };
    format!(
        "default-src 'none'; script-src '{}'; style-src '{}'; img-src data:{connect}; base-uri 'none'; form-action 'none'",
        hash(SCRIPT),
        hash(STYLE)
    )
}

fn hash(text: &str) -> String {
    format!("sha256-{}", base64::encode(Sha256::digest(text)))
}

/// An output that knows how much was written.
struct Counting<'o> {
    out: BufWriter<&'o mut dyn Write>,
    written: u64,
}

impl Write for Counting<'_> {
    fn write(&mut self, bytes: &[u8]) -> io::Result<usize> {
        let written = self.out.write(bytes)?;
        self.written += written as u64;
        Ok(written)
    }

    fn flush(&mut self) -> io::Result<()> {
        self.out.flush()
    }
}

impl Page<'_> {
    /// Writes the page. The bytes of each input are read again, which gives them to what shows them; they are checked to be
    /// answered as before.
    pub fn write(
        &self,
        out: &mut dyn Write,
        mut read: impl FnMut(&Path, &mut dyn FnMut(&[u8]) -> io::Result<()>) -> io::Result<()>,
    ) -> io::Result<()> {
        let mut out = Counting {
            out: BufWriter::new(out),
            written: 0,
        };
        self.write_head(&mut out)?;
        let many = self.is_of_many();
        let class = if many { "layout many" } else { "layout" };
        writeln!(out, "<div class=\"{class}\">")?;
        if many {
            self.write_index(&mut out)?;
        }
        writeln!(out, "<main id=\"main\">")?;
        let mut section = 0;
        for source in self.sources {
            if let Content::Unread(why) = &source.content {
                section += 1;
                write_start(&mut out, section, &source.name)?;
                writeln!(
                    out,
                    "<div class=\"verdict bad\"><p>It could not be read: {}</p></div></section>",
                    safe(why)
                )?;
                continue;
            }
            read(&source.path, &mut |bytes| {
                section = self.write_source(&mut out, section, source, bytes)?;
                Ok(())
            })?;
        }
        writeln!(
            out,
            "</main></div>\n<script>{SCRIPT}</script>\n</body>\n</html>"
        )?;
        out.flush()
    }

    /// Whether there is an index.
    fn is_of_many(&self) -> bool {
        match self.sources {
            [one] => matches!(one.content, Content::Pack { .. }),
            _ => true,
        }
    }

    fn write_head(&self, out: &mut dyn Write) -> io::Result<()> {
        let title = match self.sources {
            [one] => one.name.clone(),
            many => counted(many.len(), "input", "inputs"),
        };
        let version = self.version.map(|it| format!(" data-version=\"{it}\""));
        let served = match self.version {
            Some(_) => " It is loaded again when a file changes.",
            None => "",
        };
        writeln!(
            out,
            "<!DOCTYPE html>\n<html lang=\"en\">\n<head>\n<meta charset=\"utf-8\">\n\
            <meta http-equiv=\"Content-Security-Policy\" content=\"{}\">\n\
            <meta name=\"viewport\" content=\"width=device-width, initial-scale=1\">\n\
            <meta name=\"referrer\" content=\"no-referrer\">\n\
            <title>{} – preview</title>\n<style>{STYLE}</style>\n</head>\n<body{}>\n\
            <a class=\"skip\" href=\"#main\">Skip to the file</a>\n\
            <header class=\"top\"><h1>Preview</h1><p>Every value here is a row of the proved loader, which the console \
            loads with.{served}</p></header>",
            policy(self.version.is_some()),
            safe(&title),
            version.unwrap_or_default()
        )
    }

    /// Writes the index: each file with its size and what it is answered with.
    fn write_index(&self, out: &mut dyn Write) -> io::Result<()> {
        let counts = Counts::of(self.sources.iter().map(|source| &source.content));
        writeln!(
            out,
            "<nav aria-label=\"files\"><h2>Files</h2><p>{counts}</p>"
        )?;
        if counts.files >= MANY_FILES {
            writeln!(
                out,
                "<input type=\"search\" aria-label=\"filter the files\" placeholder=\"filter\" autocomplete=\"off\">"
            )?;
        }
        let mut section = 0;
        let mut in_list = false;
        for source in self.sources {
            let is_pack = matches!(source.content, Content::Pack { .. });
            if is_pack && in_list {
                writeln!(out, "</ul>")?;
                in_list = false;
            }
            if let Content::Pack {
                bytes,
                marked,
                files,
            } = &source.content
            {
                let marked = if *marked { "marked pack" } else { "pack" };
                writeln!(
                    out,
                    "<h2><bdi>{}</bdi></h2><p>{marked} of {}, {}</p>",
                    safe(&source.name),
                    counted(files.len(), "file", "files"),
                    counted(*bytes, "byte", "bytes")
                )?;
            }
            if !in_list {
                writeln!(out, "<ul>")?;
                in_list = true;
            }
            match &source.content {
                Content::Unread(why) => {
                    section += 1;
                    let why = format!("could not be read: {why}");
                    write_entry(out, section, &source.name, &why, true)?;
                }
                Content::RefusedPack { bytes, refused } => {
                    section += 1;
                    let bytes = counted(*bytes, "byte", "bytes");
                    let words = format!("pack · {bytes} · {refused}");
                    write_entry(out, section, &source.name, &words, true)?;
                }
                content => {
                    for (path, file) in content.files() {
                        section += 1;
                        let name = path.map_or(source.name.clone(), shown);
                        let (words, is_bad) = brief(file);
                        write_entry(out, section, &name, &words, is_bad)?;
                    }
                }
            }
            if is_pack {
                writeln!(out, "</ul>")?;
                in_list = false;
            }
        }
        if in_list {
            writeln!(out, "</ul>")?;
        }
        writeln!(out, "</nav>")
    }

    /// Writes the sections of an input, and answers the number of the last.
    fn write_source(
        &self,
        out: &mut Counting,
        before: usize,
        source: &Source,
        bytes: &[u8],
    ) -> io::Result<usize> {
        let mut section = before;
        match &source.content {
            Content::Unread(_) => {}
            Content::File(file) => {
                section += 1;
                self.write_or_cut(out, section, &source.name, bytes, file)?;
            }
            Content::RefusedPack { refused, .. } => {
                section += 1;
                let Err(pack::Unopened::Refused(told)) = pack::open(bytes, false) else {
                    return Err(super::changed());
                };
                if Brief::of(&told) != *refused {
                    return Err(super::changed());
                }
                write_refused_pack(out, section, &source.name, bytes, &told)?;
            }
            Content::Pack { files, .. } => {
                let opened = pack::open(bytes, false).map_err(|unopened| match unopened {
                    pack::Unopened::Refused(_) => super::changed(),
                    pack::Unopened::Failed(why) => io::Error::other(why),
                })?;
                if opened.files.len() != files.len() {
                    return Err(super::changed());
                }
                for (stored, (path, file)) in opened.files.iter().zip(files) {
                    section += 1;
                    if stored.path != *path {
                        return Err(super::changed());
                    }
                    let data = opened.data(stored);
                    self.write_or_cut(out, section, &shown(path), data, file)?;
                }
                if files.is_empty() {
                    writeln!(out, "<p class=\"facts\">The pack has no file.</p>")?;
                }
            }
        }
        Ok(section)
    }

    /// Writes a file's section, or where the page is long already that it does not.
    fn write_or_cut(
        &self,
        out: &mut Counting,
        section: usize,
        name: &str,
        bytes: &[u8],
        file: &Surveyed,
    ) -> io::Result<()> {
        if out.written <= MOST_BYTES {
            return self.maker.write_file(out, section, name, bytes, file);
        }
        write_start(out, section, name)?;
        let (words, is_bad) = brief(file);
        let class = if is_bad { "bad" } else { "good" };
        writeln!(
            out,
            "<div class=\"verdict {class}\"><p>{}</p></div><p class=\"cut\">Cut here: the page is longer than {} already. A \
            preview of this file alone shows it.</p></section>",
            safe(&words),
            counted(MOST_BYTES as usize, "byte", "bytes")
        )
    }
}

fn write_entry(
    out: &mut dyn Write,
    section: usize,
    name: &str,
    words: &str,
    is_bad: bool,
) -> io::Result<()> {
    let class = if is_bad { " class=\"bad\"" } else { "" };
    writeln!(
        out,
        "<li><a href=\"#file-{section}\"><bdi>{}</bdi><small{class}>{}</small></a></li>",
        safe(name),
        safe(words)
    )
}

fn write_refused_pack(
    out: &mut dyn Write,
    section: usize,
    name: &str,
    bytes: &[u8],
    told: &Told,
) -> io::Result<()> {
    write_start(out, section, name)?;
    let bytes = counted(bytes.len(), "byte", "bytes");
    writeln!(out, "<p class=\"facts\">a pack of {bytes}</p>")?;
    write_told(out, told, "R")?;
    writeln!(out, "</section>")
}
