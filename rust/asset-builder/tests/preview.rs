//! `preview`: a page that shows what files hold.

mod common;

use common::{names, run_in, sample, scratch, shell, Ran, COMMAND};
use corpus::folder::folder;
use corpus::meshes::{data as mesh_data, declaration, gauge_file, number, Element};
use corpus::readers::{
    enum_of, list_of, CHAR, PAGE, RECTANGLE, SPRITE_FONT, STRING, TEXTURE2D, VECTOR3, VERTEX_BUFFER,
};
use corpus::values::*;
use corpus::writer::{write, Part, Role, Value as Written};
use serde_json::Value as Json;
use sha2::{Digest, Sha256};
use std::collections::BTreeSet;
use std::fs;
use std::io::{Read, Write};
use std::net::TcpStream;
use std::path::Path;
use std::process::{Child, Command, Stdio};
use std::time::{Duration, Instant};
use xnb::{Table, Value, WORDS_PER_ROW};

const BIDI: [char; 12] = [
    '\u{61C}', '\u{200E}', '\u{200F}', '\u{202A}', '\u{202B}', '\u{202C}', '\u{202D}', '\u{202E}',
    '\u{2066}', '\u{2067}', '\u{2068}', '\u{2069}',
];

/// The page that the command writes for these words, and what it printed.
fn page(folder: &Path, words: &[&str], input: &[u8]) -> (String, Ran) {
    let mut all = vec!["preview", "-f", "-o", "page.html"];
    all.extend(words);
    let ran = run_in(folder, &all, input);
    let page = fs::read_to_string(folder.join("page.html"));
    (page.unwrap_or_else(|error| panic!("{error}: {ran:?}")), ran)
}

/// The parts of a text behind each start, each up to its end.
fn between<'t>(text: &'t str, start: &str, end: &str) -> Vec<&'t str> {
    let parts = text.split(start).skip(1);
    parts
        .map(|part| part.split_once(end).expect("an end").0)
        .collect()
}

/// The sections of files.
fn sections(page: &str) -> Vec<&str> {
    between(page, "<section class=\"file\"", "</section>")
}

/// The data of a section.
fn data(section: &str) -> Json {
    let data = between(
        section,
        "<script type=\"application/json\" class=\"data\">",
        "</script>",
    );
    assert_eq!(data.len(), 1);
    serde_json::from_str(data[0]).expect("JSON")
}

fn decoded(text: &str) -> String {
    html_escape::decode_html_entities(text).into_owned()
}

/// A text as a page shows it in quotes.
fn in_quotes(text: &str, quote: char) -> String {
    let mut out = String::new();
    for character in text.chars() {
        match character {
            '\\' => out += "\\\\",
            _ if character == quote => out.extend(['\\', quote]),
            _ if character.is_ascii_control() => out.extend(character.escape_default()),
            _ if character.is_control()
                || BIDI.contains(&character)
                || matches!(character, '\u{2028}' | '\u{2029}') =>
            {
                out.extend(character.escape_unicode());
            }
            _ => out.push(character),
        }
    }
    format!("{quote}{out}{quote}")
}

/// What is shown of a value, told from the library's value alone.
fn expected(value: Value) -> Option<String> {
    let spaced = |numbers: &[f32]| {
        let numbers: Vec<String> = numbers.iter().map(|it| format!("{it:?}")).collect();
        numbers.join(" ")
    };
    Some(match value {
        Value::String(text) => in_quotes(text, '"'),
        Value::Char(character) => in_quotes(&character.to_string(), '\''),
        Value::Boolean(truth) => truth.to_string(),
        Value::Byte(number) => number.to_string(),
        Value::SByte(number) => number.to_string(),
        Value::Int16(number) => number.to_string(),
        Value::UInt16(number) => number.to_string(),
        Value::Int32(number) => number.to_string(),
        Value::UInt32(number) => number.to_string(),
        Value::Int64(number) => number.to_string(),
        Value::UInt64(number) => number.to_string(),
        Value::Enum(number) => number.usual().to_string(),
        Value::Single(number) => format!("{number:?}"),
        Value::Double(number) => format!("{number:?}"),
        Value::Vector2(numbers) => spaced(&numbers),
        Value::Vector3(numbers) => spaced(&numbers),
        Value::Vector4(numbers) | Value::Quaternion(numbers) => spaced(&numbers),
        Value::Matrix(numbers) => spaced(&numbers),
        Value::Color([r, g, b, a]) => format!("{r} {g} {b} {a}"),
        Value::Point(it) => format!("{} {}", it.x, it.y),
        Value::Rectangle(it) => format!("{} {} {} {}", it.x, it.y, it.width, it.height),
        Value::Decimal(number) => number.to_string(),
        Value::TimeSpan(span) => {
            let time = span.time();
            format!("{} s and {} ticks", time.seconds, time.ticks)
        }
        Value::DateTime(it) => format!("{} ticks, zone {}", it.ticks, it.zone as u64),
        Value::Nullable(None) => "nothing".to_string(),
        Value::Array(count) | Value::List(count) | Value::Dictionary(count) => {
            format!("of {count}")
        }
        Value::Texture2D(it) => {
            format!("{} by {}, format {}", it.width, it.height, it.format.code())
        }
        Value::ImageLevel(data) | Value::DataBytes(data) => format!("of {} bytes", data.len()),
        Value::BoneReference(Some(bone)) => format!("to bone {bone}"),
        Value::SharedReference(Some(id)) => format!("to shared {id}"),
        Value::BoneReference(None) | Value::SharedReference(None) => "to nothing".to_string(),
        _ => return None,
    })
}

/// Every kept file on one page: each row is the library's in all its words, its value, its padding and its bytes; each
/// refusal is the library's.
#[test]
fn every_value_is_a_row_of_the_library() {
    let top = scratch("preview-kept");
    let corpus = folder();
    let mut files: Vec<String> = names(&corpus);
    files.retain(|name| name.ends_with(".xnb"));
    std::os::unix::fs::symlink(&corpus, top.join("corpus")).expect("a link");
    let mut words: Vec<String> = files.iter().map(|name| format!("corpus/{name}")).collect();
    words.sort();
    let words: Vec<&str> = words.iter().map(String::as_str).collect();
    let (page, ran) = page(&top, &words, &[]);
    assert_eq!(ran.status, Some(1), "{}", ran.err);
    let sections = sections(&page);
    assert_eq!(sections.len(), words.len());
    let (mut kinds, mut taken, mut refusals) = (BTreeSet::new(), 0, BTreeSet::new());
    for (word, section) in words.iter().zip(sections) {
        let heading = between(section, "<bdi>", "</bdi>")[0];
        assert_eq!(decoded(heading), *word);
        let bytes = fs::read(top.join(word)).expect("a kept file");
        let table = match Table::load(&bytes) {
            Ok(table) => table,
            Err(refused) => {
                let (number, place) = (refused.refusal.number(), refused.place);
                let line = format!("Refused {number} at {place}: {}", refused.refusal.rule());
                assert!(decoded(section).contains(&line), "{word}: {section}");
                refusals.insert(number);
                continue;
            }
        };
        taken += 1;
        let data = data(section);
        assert_eq!(data["length"], bytes.len(), "{word}");
        let shown = base64::decode(data["bytes"].as_str().expect("base64")).expect("base64");
        assert_eq!(shown, bytes[..bytes.len().min(1 << 20)], "{word}");
        let readers: Vec<&str> = table.readers().map(|reader| reader.name).collect();
        assert_eq!(data["readers"], serde_json::json!(readers), "{word}");
        let rows = data["rows"].as_array().expect("rows");
        assert_eq!(rows.len(), table.loaded().rows, "{word}");
        for (row, words) in table.rows().zip(table.words().chunks(WORDS_PER_ROW)) {
            let shown = rows[row.number as usize].as_array().expect("a row");
            let place = format!("{word}: row {}", row.number);
            let expected_words: Vec<Json> = words.iter().map(|it| (*it).into()).collect();
            assert_eq!(shown[..WORDS_PER_ROW], expected_words, "{place}");
            let kind = &data["kinds"][row.kind.number().to_string()];
            assert_eq!(kind, &row.kind.to_string(), "{place}");
            let value = expected(table.value(row.number).expect("a row"));
            match value {
                Some(value) if value.chars().count() > 2_000 => {
                    let start: String = value.chars().take(2_000).collect();
                    assert_eq!(shown[8], start, "{place}");
                    assert!(shown[9].as_str().expect("a note").contains("cut here"));
                }
                value => assert_eq!(shown[8], serde_json::json!(value), "{place}"),
            }
            let padding = table.row_padding(row.number).expect("a row");
            assert_eq!(shown[10], padding, "{place}");
            kinds.insert(row.kind.number());
        }
    }
    assert!(taken > 200, "only {taken} files are taken");
    // Every kind but 14 and 31, which have no rows.
    let all: BTreeSet<u32> = (0..=42).filter(|it| !matches!(it, 14 | 31)).collect();
    assert_eq!(kinds, all);
    assert!(refusals.len() > 20, "{refusals:?}");
}

#[test]
fn what_each_row_is_called_is_as_tree_tells() {
    let top = scratch("preview-names");
    for name in [
        "ok-kind-34-page.xnb",
        "ok-kind-33-font.xnb",
        "ok-kind-42-model-of-three-bones.xnb",
        "ok-kind-39-vertex-buffer.xnb",
        "ok-argument-dictionary.xnb",
    ] {
        let bytes = sample(name);
        let (page, _) = page(&top, &["-"], &bytes);
        let data = data(sections(&page)[0]);
        let ran = run_in(&top, &["tree", "-"], &bytes);
        let lines: Vec<&str> = ran.out.lines().map(str::trim_start).collect();
        let rows = data["rows"].as_array().expect("rows");
        assert_eq!(rows.len(), lines.len(), "{name}");
        for (row, line) in rows.iter().zip(lines) {
            let mut shown = row[7]
                .as_str()
                .map_or(String::new(), |name| format!("{name}: "));
            shown += data["kinds"][row[0].to_string()].as_str().expect("a kind");
            for text in [&row[8], &row[9]].into_iter().filter_map(Json::as_str) {
                shown += &format!(" {text}");
            }
            assert_eq!(shown, line, "{name}");
        }
    }
}

/// A file of pages and a list with texts that try what texts can, and such a path.
fn hostile() -> (Vec<u8>, Vec<u8>) {
    let titles = [
        "</script><script>alert(1)</script>",
        "<img src=x onerror=\"alert(1)\">",
        "\u{202E}reversed\u{2066} and \u{200F}turned",
        "สถานีถัดไป: หมอชิต",
        "line\nbreak\u{0}\u{1B}[2J\u{2028}",
        "'\"&amp;<!--",
    ];
    let readers = [
        list_of("System.String"),
        STRING.to_string(),
        PAGE.to_string(),
    ];
    let list = list(titles.iter().map(|it| bound_object(2, text(it))).collect());
    let pages = titles.iter().map(|title| {
        let area = rectangle([0, 0, 300, 160]);
        object(3, page_of(title, area))
    });
    let bytes = write(&file(&readers, object(1, list), pages.collect())).bytes;
    let mut pack = 2_u32.to_le_bytes().to_vec();
    for path in ["<script>alert(2)</script>", "สถานี\\\u{202E}xnb"] {
        pack.push(path.len() as u8);
        pack.extend_from_slice(path.as_bytes());
        pack.extend_from_slice(&(bytes.len() as u32).to_le_bytes());
        pack.extend_from_slice(&bytes);
    }
    (bytes, pack)
}

fn page_of(title: &str, area: corpus::writer::Value) -> corpus::writer::Value {
    corpus::values::page(
        bound_object(2, text(title)),
        area,
        reference(0),
        reference(2),
    )
}

#[test]
fn no_text_becomes_markup() {
    let top = scratch("preview-hostile");
    let (file, pack) = hostile();
    fs::write(top.join("<b onclick=x>.xnb"), &file).expect("a file");
    fs::write(top.join("season.pak"), &pack).expect("a pack");
    let (page, ran) = page(&top, &["<b onclick=x>.xnb", "season.pak"], &[]);
    assert_eq!(ran.status, Some(0), "{}", ran.err);
    // Three files with data, and the page's own script; nothing of a text opens or closes one.
    assert_eq!(page.matches("<script").count(), 4);
    assert_eq!(page.matches("</script").count(), 4);
    for markup in [
        "<img src=x",
        "<script>alert",
        "<b onclick",
        "onerror=\"",
        "<!--",
        "]]>",
    ] {
        assert!(!page.contains(markup), "{markup}");
    }
    let turned = page
        .chars()
        .find(|it| BIDI.contains(it) || *it == '\u{2028}');
    assert_eq!(turned, None);
    assert!(page.chars().all(|it| it == '\n' || !it.is_control()));
    // Thai stands as it is, in words and in data, and what is escaped is still all there.
    assert!(page.contains("สถานีถัดไป: หมอชิต"));
    assert!(page.contains("สถานี\\"));
    let shown = decoded(&page);
    assert!(shown.contains("“</script><script>alert(1)</script>”"));
    assert!(shown.contains("“\\u{202e}reversed\\u{2066} and \\u{200f}turned”"));
    let data = data(sections(&page)[0]);
    assert_eq!(data["rows"][1][8], "\"</script><script>alert(1)</script>\"");
}

#[test]
fn the_policy_names_the_script_and_the_style_alone() {
    let top = scratch("preview-policy");
    let (_, pack) = hostile();
    fs::write(top.join("season.pak"), &pack).expect("a pack");
    let page = page(&top, &["season.pak"], &[]).0;
    let hash = |text: &str| format!("'sha256-{}'", base64::encode(Sha256::digest(text)));
    let (style, script) = (
        between(&page, "<style>", "</style>"),
        between(&page, "<script>", "</script>"),
    );
    assert_eq!((style.len(), script.len()), (1, 1));
    let policy = between(
        &page,
        "http-equiv=\"Content-Security-Policy\" content=\"",
        "\"",
    );
    let expected = format!(
        "default-src 'none'; script-src {}; style-src {}; img-src data:; base-uri 'none'; form-action 'none'",
        hash(script[0]),
        hash(style[0])
    );
    assert_eq!(policy, [expected]);
    // It stands before all that it judges.
    assert!(page.find("Content-Security-Policy") < page.find("<style>"));
    // Nothing is loaded from outside, no style and no script stands in an attribute.
    let outside = page.replace(script[0], "").replace(style[0], "");
    for markup in [
        "http:", "https:", " style=", "src=\"//", "<link", "<iframe", "@import",
    ] {
        assert!(!outside.contains(markup), "{markup}");
    }
    for attribute in outside.split(" on").skip(1) {
        let name = attribute.trim_start_matches(|it: char| it.is_ascii_alphabetic());
        assert!(!name.starts_with("=\""), " on{attribute}");
    }
    for address in between(&outside, "href=\"", "\"") {
        assert!(
            address.starts_with('#') || address.starts_with("data:image/png;base64,"),
            "{address}"
        );
    }
    assert!(!style[0].contains("url("));
}

#[test]
fn a_refused_file_is_shown_with_its_mark() {
    let top = scratch("preview-refused");
    let (page, ran) = page(&top, &["-"], &sample("bad-34-hyphen-in-head.xnb"));
    assert_eq!(
        (ran.out.as_str(), ran.status),
        ("page.html: 1 file: 0 taken, 1 refused\n", Some(1))
    );
    let shown = decoded(&page);
    for line in [
        "Refused 34 at 95: bad byte in a head",
        "  Microsoft.Xna.Framework.Content.List-Reader`1[[System.Char]]\n                                      ^\n",
        "reader 2: a head has letters, digits, '.', '_' and '+', found '-' (2D)",
        "00000050  72 6B 2E 43 6F 6E 74 65 6E 74 2E 4C 69 73 74 2D  rk.Content.List-",
    ] {
        assert!(shown.contains(line), "{line}");
    }
    let data = data(sections(&page)[0]);
    assert_eq!(data["lit"], serde_json::json!([95, 1]));
    assert!(data["rows"].as_array().is_some_and(Vec::is_empty));
}

#[test]
fn padded_texts_are_marked() {
    let top = scratch("preview-padded");
    let (shown, _) = page(&top, &["-"], &sample("ok-text-count-in-2-bytes.xnb"));
    assert!(shown.contains("<span class=\"padded\">padding 1 byte</span>"));
    let rows = &data(sections(&shown)[0])["rows"];
    assert_eq!((&rows[0][8], &rows[0][10]), (&"\"Hi\"".into(), &1.into()));
    let (shown, _) = page(&top, &["-"], &sample("ok-kind-13-string.xnb"));
    assert!(!shown.contains("<span class=\"padded\">"));
}

#[test]
fn the_driver_has_a_word() {
    let top = scratch("preview-driver");
    let passing = "ok-driver-key-in-two-dictionaries.xnb";
    let (shown, ran) = page(&top, &["-", "--driver"], &sample(passing));
    assert!(
        shown.contains("The driver's own screen takes it."),
        "{passing}"
    );
    assert_eq!(ran.status, Some(0));
    let (shown, ran) = page(&top, &["-", "--driver"], &sample("ok-kind-13-string.xnb"));
    let words = "The driver's own screen does not take it: refused 46 at 61: the first object is not a Page";
    assert!(decoded(&shown).contains(words), "{shown}");
    assert_eq!(ran.status, Some(1));
    let line = "page.html: 1 file: 1 taken, 0 refused; 1 not taken by the driver's own screen\n";
    assert_eq!(ran.out, line);
    let (shown, ran) = page(&top, &["-"], &sample("ok-kind-13-string.xnb"));
    assert!(!shown.contains("The driver"));
    assert_eq!(ran.status, Some(0));
}

/// Each picture of a texture, decoded, has the pixels that the library gives; each glyph is its part of them.
#[test]
fn pictures_have_the_pixels_of_the_library() {
    let top = scratch("preview-pictures");
    let mut pictures = 0;
    let all = names(&folder()).into_iter();
    let files = all.filter(|name| name.starts_with("ok-format-") && name.ends_with(".xnb"));
    for name in files.chain([
        "ok-kind-32-texture.xnb".to_string(),
        "ok-kind-33-font.xnb".to_string(),
    ]) {
        let bytes = sample(&name);
        let (page, _) = page(&top, &["-"], &bytes);
        let table = Table::load(&bytes).expect("a file that is taken");
        let shown: Vec<Vec<u8>> = between(&page, "<image", "/>")
            .into_iter()
            .map(pixels)
            .collect();
        let textures = (0..table.loaded().rows as u32).filter_map(|row| table.picture(row).ok());
        let levels: Vec<Vec<u8>> = textures
            .flat_map(|it| it.levels())
            .map(|it| it.rgba8().expect("memory"))
            .collect();
        assert_eq!(shown, levels, "{name}");
        pictures += levels.len();
    }
    assert!(pictures > 20, "only {pictures}");
}

/// The pixels of the picture in an element.
fn pixels(element: &str) -> Vec<u8> {
    let address = between(element, "data:image/png;base64,", "\"")[0];
    let png = base64::decode(address).expect("base64");
    let mut reader = png::Decoder::new(&png[..]).read_info().expect("a PNG");
    let mut pixels = vec![0; reader.output_buffer_size()];
    reader.next_frame(&mut pixels).expect("a whole PNG");
    pixels
}

#[test]
fn pages_and_their_rings_are_shown() {
    let readers = [PAGE.to_string(), STRING.to_string(), TEXTURE2D.to_string()];
    let one = |title: &str, area: [i32; 4], picture, next| {
        let title = bound_object(2, text(title));
        object(
            1,
            corpus::values::page(title, rectangle(area), reference(picture), reference(next)),
        )
    };
    let shared = vec![
        object(3, texture(0, 4, 2, 1)),
        one("Doors", [8, 9, 40, 20], 1, 3),
        one("Stops", [0, 0, 64, 48], 0, 2),
    ];
    let bytes = write(&file(&readers, one("Start", [0, 0, 64, 48], 0, 2), shared)).bytes;
    let top = scratch("preview-pages");
    let (page, ran) = page(&top, &["-"], &bytes);
    assert_eq!(ran.status, Some(0), "{}", ran.err);
    assert!(page.contains("<h3>Links: 3 pages, 1 ring</h3>"), "{page}");
    assert!(page
        .contains("Ring 1: <bdi>“Doors”</bdi> → <bdi>“Stops”</bdi> → back to <bdi>“Doors”</bdi>"));
    // The texture fills the area of its page: ten times as wide and as high as it is.
    let table = Table::load(&bytes).expect("a file that is taken");
    let row = table
        .page(table.resource(2).expect("a page"))
        .expect("a page")
        .texture;
    let place = format!(
        "<use href=\"#file-1-texture-{}\" transform=\"translate(8 9) scale(10 10)\"/>",
        row.expect("a texture")
    );
    assert!(page.contains(&place), "{place}");
    assert!(page.contains(&format!(
        "<image id=\"file-1-texture-{}\"",
        row.expect("a texture")
    )));
    assert!(page.contains("viewBox=\"0 0 64 48\""));
    assert!(page.contains("40 by 20 at 8, 9"));
}

/// The file of a font with this texture, and with these characters and their parts of it.
fn font_file(texture: Written, glyphs: &[(char, [i32; 4])]) -> Vec<u8> {
    let rectangles = |all: Vec<[i32; 4]>| {
        let all = all.into_iter().map(rectangle);
        bound_object(3, list(all.collect()))
    };
    let parts: Vec<[i32; 4]> = glyphs.iter().map(|(_, part)| *part).collect();
    let sizes = parts.iter().map(|part| [0, 0, part[2], part[3]]).collect();
    let characters = glyphs.iter().map(|(it, _)| character(*it)).collect();
    let kerning = |part: &[i32; 4]| vector3([0.0, part[2] as f32, 0.0]);
    let kernings = parts.iter().map(kerning).collect();
    let font = font(Font {
        texture: bound_object(2, texture),
        glyphs: rectangles(parts),
        cropping: rectangles(sizes),
        characters: bound_object(4, list(characters)),
        line_spacing: int32(3),
        spacing: single(1.0),
        kerning: bound_object(5, list(kernings)),
        default_character: nothing(),
    });
    let readers = [
        SPRITE_FONT.to_string(),
        TEXTURE2D.to_string(),
        list_of("Microsoft.Xna.Framework.Rectangle"),
        list_of("System.Char"),
        list_of("Microsoft.Xna.Framework.Vector3"),
        RECTANGLE.to_string(),
        CHAR.to_string(),
        VECTOR3.to_string(),
    ];
    write(&file(&readers, object(1, font), vec![])).bytes
}

/// A level of these bytes.
fn level(bytes: Vec<u8>) -> Written {
    let size = number_field(Role::LevelSize, bytes.len() as u32);
    value(35, vec![size, Part::Data(bytes)])
}

/// Thirty-two glyphs, each the whole of a texture: each takes 4 MB, and 40 MB are to be had.
#[test]
fn memory_that_is_refused_is_reported() {
    let top = scratch("preview-refused-memory");
    let side = 1024;
    let texture = texture_of(
        4,
        side,
        side,
        vec![level(vec![0; (side * side / 2) as usize])],
    );
    let whole = [0, 0, side as i32, side as i32];
    let glyphs: Vec<(char, [i32; 4])> = ('A'..='`').map(|it| (it, whole)).collect();
    assert_eq!(glyphs.len(), 32);
    fs::write(top.join("font.xnb"), font_file(texture, &glyphs)).expect("a file");
    let ran = shell(
        &top,
        "ulimit -d 40000; asset-builder preview font.xnb -o page.html",
    );
    let why = "page.html: no memory for 4194304 bytes\n";
    assert_eq!(
        (ran.out.as_str(), ran.err.as_str(), ran.status),
        ("", why, Some(2))
    );
    assert_eq!(names(&top), ["font.xnb"]);
}

/// A font of two glyphs of two by two pixels, side by side in its texture.
#[test]
fn a_font_has_its_glyphs_and_a_line() {
    let numbers: Vec<u8> = (1..=8).flat_map(|number| [number, 0, 0, 255]).collect();
    let texture = texture_of(0, 4, 2, vec![level(numbers)]);
    let bytes = font_file(texture, &[('a', [0, 0, 2, 2]), ('b', [2, 0, 2, 2])]);
    let top = scratch("preview-font");
    let (page, ran) = page(&top, &["-"], &bytes);
    assert_eq!(ran.status, Some(0), "{page}");
    let reds = |element| -> Vec<u8> { pixels(element).chunks(4).map(|it| it[0]).collect() };
    let shown: Vec<Vec<u8>> = between(&page, "<img", ">").into_iter().map(reds).collect();
    // The line "ab" with a clear column between its letters, then the letters.
    let line = vec![1, 2, 0, 3, 4, 5, 6, 0, 7, 8];
    assert_eq!(shown, [line, vec![1, 2, 5, 6], vec![3, 4, 7, 8]]);
    assert!(page.contains("<figcaption>“ab” set in the font</figcaption>"));
    assert!(page.contains("<bdi>“b”</bdi> U+0062"));
}

#[test]
fn a_model_is_told_in_words_and_drawn() {
    let top = scratch("preview-model");
    let (shown, _) = page(&top, &["-"], &write(&gauge_file(0)).bytes);
    for words in [
        "3 bones, 2 meshes</h3>",
        "<li>Bone 1, <bdi>“hub”</bdi>: below none, 2 children, the root</li>",
        "<li>Mesh 1, <bdi>“dial”</bdi>: on bone 2, 2 parts, around 1.0, 2.0, 3.0 with radius 4.0",
        "<li>Part 1: 3 vertices from vertex 0 on, 1 triangle from index 0 on; vertex buffer shared 1, index buffer shared 2</li>",
        "6 indices of 16 bits",
    ] {
        assert!(shown.contains(words), "{words}");
    }
    // Three points from the front: left, right and below between them.
    let places = [[-1.0_f32, 1.0, 5.0], [1.0, 1.0, 5.0], [0.0, -1.0, 5.0]];
    let bytes: Vec<u8> = places
        .iter()
        .flatten()
        .flat_map(|it| it.to_le_bytes())
        .collect();
    let position = Element {
        offset: 0,
        format: 2,
        usage: 0,
        usage_index: 0,
    };
    let fields = [
        declaration(12, &[position]),
        number(Role::VertexCount(12), 3),
        mesh_data(&bytes),
    ];
    let buffer = value(39, fields.map(Part::Child).to_vec());
    let bytes = write(&file(&[VERTEX_BUFFER], object(1, buffer), vec![])).bytes;
    let (shown, _) = page(&top, &["-"], &bytes);
    let circles = between(&shown, "<circle ", "/>");
    let expected = ["20\" cy=\"20", "460\" cy=\"20", "240\" cy=\"460"];
    assert_eq!(circles, expected.map(|it| format!("cx=\"{it}\" r=\"2.5\"")));
    assert!(shown.contains("3 vertices of 12 bytes each: Position 0 as Vector3 at 0"));
}

/// Files behind a long page are in the index, and say that they are not shown.
#[test]
fn a_long_page_is_cut_between_files() {
    let top = scratch("preview-many");
    let long = write(&file(
        &[STRING],
        object(1, text(&"y".repeat(1 << 20))),
        vec![],
    ))
    .bytes;
    let mut pack = 30_u32.to_le_bytes().to_vec();
    for _ in 0..30 {
        pack.extend_from_slice(b"\x01y");
        pack.extend_from_slice(&(long.len() as u32).to_le_bytes());
        pack.extend_from_slice(&long);
    }
    fs::write(top.join("season.pak"), pack).expect("a pack");
    let (shown, ran) = page(&top, &["season.pak"], &[]);
    assert_eq!(ran.out, "page.html: 30 files: 30 taken, 0 refused\n");
    let cut = shown
        .matches("Cut here: the page is longer than 33,554,432 bytes already.")
        .count();
    assert!((3..10).contains(&cut), "{cut}");
    assert_eq!(shown.matches("class=\"data\"").count(), 30 - cut);
    assert_eq!(sections(&shown).len(), 30);
    assert!(shown.len() < 36 << 20, "{}", shown.len());
}

#[test]
fn a_pack_has_an_index_with_sizes_and_refusals() {
    let top = scratch("preview-pack");
    let mut pack = 3_u32.to_le_bytes().to_vec();
    let files = [
        ("Doors\\Open", sample("ok-kind-13-string.xnb")),
        ("Bad", sample("bad-07-length-too-large.xnb")),
        ("None", Vec::new()),
    ];
    for (path, bytes) in &files {
        pack.push(path.len() as u8);
        pack.extend_from_slice(path.as_bytes());
        pack.extend_from_slice(&(bytes.len() as u32).to_le_bytes());
        pack.extend_from_slice(bytes);
    }
    let (shown, ran) = page(&top, &["-"], &pack);
    assert_eq!(
        (ran.out.as_str(), ran.status),
        ("page.html: 3 files: 1 taken, 2 refused\n", Some(1))
    );
    let index = between(&shown, "<nav", "</nav>")[0];
    for words in [
        "Doors\\Open</bdi><small>65 bytes · 1 row</small>",
        "Bad</bdi><small class=\"bad\">13 bytes · refused 7 at 6: the header's length is not the file's length</small>",
        "None</bdi><small class=\"bad\">0 bytes · refused 1 at 0: a field runs past the end of the file</small>",
        "pack of 3 files, ",
    ] {
        assert!(decoded(index).contains(words), "{words}: {index}");
    }
    assert_eq!(sections(&shown).len(), 3);
    // A damaged pack is told as one, and a folder has files and packs.
    pack.truncate(pack.len() - 3);
    fs::create_dir(top.join("depot")).expect("a folder");
    fs::write(top.join("depot/season.pak"), &pack).expect("a pack");
    fs::write(top.join("depot/hi.XNB"), &files[0].1).expect("a file");
    fs::write(top.join("depot/notes.txt"), "none").expect("a file");
    let (shown, ran) = page(&top, &["depot"], &[]);
    assert_eq!(
        (ran.out.as_str(), ran.status),
        ("page.html: 2 files: 1 taken, 1 refused\n", Some(1))
    );
    assert!(
        shown.contains("a field runs past the end of the pack"),
        "{shown}"
    );
    assert!(shown.contains("hi.XNB</bdi><small>65 bytes · 1 row</small>"));
}

#[test]
fn outputs_do_no_harm() {
    let top = scratch("preview-outputs");
    fs::write(top.join("hi.xnb"), sample("ok-kind-13-string.xnb")).expect("a file");
    fs::write(top.join("page.html"), "kept").expect("a file");
    let ran = run_in(&top, &["preview", "hi.xnb", "-o", "page.html"], &[]);
    assert_eq!(
        ran.err,
        "page.html: it is there already; -f overwrites it\n"
    );
    assert_eq!(ran.status, Some(2));
    assert_eq!(fs::read(top.join("page.html")).expect("a file"), b"kept");
    assert_eq!(names(&top), ["hi.xnb", "page.html"]);
    let ran = run_in(&top, &["preview", "hi.xnb", "-o", "-"], &[]);
    assert!(ran.out.starts_with("<!DOCTYPE html>") && ran.out.ends_with("</html>\n"));
    let (shown, ran) = page(&top, &["hi.xnb", "missing.xnb"], &[]);
    assert_eq!(ran.status, Some(2));
    assert!(shown.contains("It could not be read: No such file or directory"));
    assert!(shown.contains("\"Hi\"") || shown.contains("\\\"Hi\\\""));
    let ran = run_in(&top, &["preview", "hi.xnb"], &[]);
    assert_eq!(ran.status, Some(2));
    assert!(ran.err.contains("--output <PAGE.html>"), "{}", ran.err);
}

#[test]
fn the_list_of_enum_types_is_lent() {
    let readers = [enum_of("Coach.Door")];
    let bytes = write(&file(&readers, object(1, fixed(15, &[7])), vec![])).bytes;
    let top = scratch("preview-enums");
    fs::write(top.join("enums.txt"), "Coach.Door 1\n").expect("a list");
    let (shown, ran) = page(&top, &["-", "--enums", "enums.txt"], &bytes);
    assert_eq!(ran.status, Some(0), "{}", ran.err);
    assert_eq!(data(sections(&shown)[0])["rows"][0][8], "7");
    assert_eq!(page(&top, &["-"], &bytes).1.status, Some(1));
}

#[test]
fn what_is_long_is_cut_and_told() {
    let top = scratch("preview-long");
    let long = "y".repeat(1 << 21);
    let bytes = write(&file(&[STRING], object(1, text(&long)), vec![])).bytes;
    let (shown, _) = page(&top, &["-"], &bytes);
    assert!(shown.contains("Of the bytes, the first 1,048,576 are shown."));
    let data = data(sections(&shown)[0]);
    assert_eq!(data["rows"][0][8].as_str().map(str::len), Some(2_000));
    assert_eq!(
        data["rows"][0][9],
        "… cut here, the text has 2,097,152 bytes"
    );
    assert!(shown.len() < 3 << 20, "{}", shown.len());
    // A picture with more pixels than are shown.
    let large = write(&file(
        &[TEXTURE2D],
        object(1, texture(12, 1_025, 1_024, 1)),
        vec![],
    ))
    .bytes;
    let (shown, _) = page(&top, &["-"], &large);
    assert!(shown.contains("Levels of more than 1,048,576 pixels are not shown here"));
    assert!(!shown.contains("data:image/png"));
    // Seven textures of a million pixels: six are shown.
    let readers = [
        list_of("Microsoft.Xna.Framework.Graphics.Texture2D"),
        TEXTURE2D.to_string(),
    ];
    let one = || bound_object(2, texture(12, 1_024, 1_024, 1));
    let many = list((0..7).map(|_| one()).collect());
    let many = write(&file(&readers, object(1, many), vec![])).bytes;
    let (shown, _) = page(&top, &["-"], &many);
    assert_eq!(shown.matches("data:image/png").count(), 6);
    assert_eq!(
        shown
            .matches("nor more than 6,291,456 of all pictures")
            .count(),
        1
    );
}

/// A server that is ended when it goes.
struct Served {
    child: Child,
    port: u16,
}

impl Served {
    fn start(folder: &Path, words: &[&str]) -> Served {
        // Where the tests run in the background, SIGINT may be ignored: the command starts as at a terminal.
        let mut child = Command::new("env")
            .args(["--default-signal=INT", COMMAND, "preview"])
            .args(words)
            .arg("--serve")
            .current_dir(folder)
            .stdout(Stdio::piped())
            .stderr(Stdio::null())
            .spawn()
            .expect("the command starts");
        let mut address = String::new();
        let out = child.stdout.as_mut().expect("its output");
        let mut byte = [0];
        while out.read(&mut byte).expect("its output") == 1 && byte[0] != b'\n' {
            address.push(byte[0].into());
        }
        let port = address
            .strip_prefix("http://127.0.0.1:")
            .expect("an address");
        let port = port.trim_end_matches('/').parse().expect("a port");
        Served { child, port }
    }

    /// What is answered to a request for a host: the first line, the headers and the body.
    fn ask(&self, request: &str, host: &str) -> (String, String, String) {
        let mut stream = TcpStream::connect(("127.0.0.1", self.port)).expect("it listens");
        let host = host.replace("PORT", &self.port.to_string());
        write!(
            stream,
            "{request} HTTP/1.1\r\nHost: {host}\r\nConnection: close\r\n\r\n"
        )
        .expect("a request");
        let mut answer = String::new();
        stream.read_to_string(&mut answer).expect("an answer");
        let (head, body) = answer.split_once("\r\n\r\n").expect("a head");
        let (line, headers) = head.split_once("\r\n").expect("a line");
        (line.to_string(), headers.to_string(), body.to_string())
    }
}

impl Drop for Served {
    fn drop(&mut self) {
        let _ = self.child.kill();
        let _ = self.child.wait();
    }
}

#[test]
fn a_page_is_served_to_this_machine_and_made_anew() {
    let top = scratch("preview-served");
    let path = top.join("hi.xnb");
    fs::write(&path, sample("ok-kind-13-string.xnb")).expect("a file");
    let mut served = Served::start(&top, &["hi.xnb"]);
    let own = "127.0.0.1:PORT";
    let (line, headers, page) = served.ask("GET /", own);
    assert_eq!(line, "HTTP/1.1 200 OK");
    assert!(page.contains("\\\"Hi\\\""), "{page}");
    let policy = between(&page, "Content-Security-Policy\" content=\"", "\"")[0];
    assert!(policy.contains("; connect-src 'self';"), "{policy}");
    assert!(
        headers.contains(&format!("Content-Security-Policy: {policy}")),
        "{headers}"
    );
    assert!(headers.contains("Cache-Control: no-store"), "{headers}");
    // Another name that leads here, as in an attack by the names of hosts, gets nothing.
    for host in [
        "evil.example:PORT",
        "evil.example",
        "127.0.0.1",
        "127.0.0.1:1",
        "",
    ] {
        let (line, _, body) = served.ask("GET /", host);
        assert!(line.contains(" 403 "), "{host}: {line}");
        assert!(!body.contains("Hi"), "{host}");
    }
    assert!(served
        .ask("GET /version", "localhost:PORT")
        .0
        .contains(" 200 "));
    assert!(served.ask("GET /../hi.xnb", own).0.contains(" 404 "));
    assert!(served.ask("POST /", own).0.contains(" 405 "));
    // It listens on the loopback address alone.
    let listening = fs::read_to_string("/proc/net/tcp").expect("the system's list");
    let port = format!(":{:04X}", served.port);
    let addresses: Vec<&str> = listening
        .lines()
        .filter_map(|line| line.split_whitespace().nth(1))
        .filter(|address| address.ends_with(&port))
        .collect();
    assert!(
        !addresses.is_empty() && addresses.iter().all(|it| it.starts_with("0100007F:")),
        "{addresses:?}"
    );
    // A change makes another version, and the page then has it.
    let before = served.ask("GET /version", own).2;
    let changed = write(&file(&[STRING], object(1, text("Ho")), vec![])).bytes;
    fs::write(top.join("new"), changed).expect("a file");
    fs::rename(top.join("new"), &path).expect("it takes the old one's place");
    let start = Instant::now();
    while served.ask("GET /version", own).2 == before {
        assert!(
            start.elapsed() < Duration::from_secs(20),
            "no change is seen"
        );
        std::thread::sleep(Duration::from_millis(20));
    }
    assert!(served.ask("GET /", own).2.contains("\\\"Ho\\\""));
    // Reading is no change.
    let before = served.ask("GET /version", own).2;
    std::thread::sleep(Duration::from_millis(200));
    assert_eq!(served.ask("GET /version", own).2, before);
    // A file that is gone is told as such.
    fs::remove_file(&path).expect("it was there");
    let start = Instant::now();
    while !served.ask("GET /", own).2.contains("It could not be read") {
        assert!(start.elapsed() < Duration::from_secs(20), "the page stays");
        std::thread::sleep(Duration::from_millis(20));
    }
    let interrupted = Command::new("kill")
        .args(["-INT", &served.child.id().to_string()])
        .status();
    assert!(interrupted.expect("kill runs").success());
    let start = Instant::now();
    let ended = loop {
        if let Some(status) = served.child.try_wait().expect("its status") {
            break status;
        }
        assert!(start.elapsed() < Duration::from_secs(20), "it goes on");
        std::thread::sleep(Duration::from_millis(20));
    };
    assert_eq!(ended.code(), Some(0));
    assert_eq!(names(&top), Vec::<String>::new());
}

#[test]
fn no_other_address_is_served() {
    let top = scratch("preview-address");
    fs::write(top.join("hi.xnb"), sample("ok-kind-13-string.xnb")).expect("a file");
    for address in [
        "0.0.0.0:8080",
        "[::]:80",
        "192.168.0.1",
        "localhost:80",
        "65536",
        "-1",
    ] {
        let ran = run_in(
            &top,
            &["preview", "hi.xnb", &format!("--serve={address}")],
            &[],
        );
        assert_eq!(ran.status, Some(2), "{address}");
        assert!(
            ran.err
                .contains("the page is served on the loopback address only"),
            "{}",
            ran.err
        );
    }
    let ran = run_in(&top, &["preview", "-", "--serve"], &[]);
    assert_eq!(
        ran.err,
        "-: standard input does not change, so it is not served\n"
    );
    assert_eq!(ran.status, Some(2));
    let ran = run_in(
        &top,
        &["preview", "hi.xnb", "-o", "page.html", "--serve"],
        &[],
    );
    assert_eq!(ran.status, Some(2), "{}", ran.err);
    assert_eq!(names(&top), ["hi.xnb"]);
}
