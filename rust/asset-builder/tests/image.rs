//! `image`: the levels of textures as PNG.

mod common;

use common::{names, on_terminal, run, run_in, sample, scratch, shell, Ran, NEVER};
use corpus::folder::{folder, kept_files};
use corpus::readers::{enum_of, list_of, TEXTURE2D};
use corpus::values::*;
use corpus::writer::{write, Part, Role, Value};
use serde_json::{json, Value as Json};
use std::fs;
use std::os::unix::fs::symlink;
use std::path::Path;
use xnb::Table;

/// A texture of two levels in row 0: 2 by 2 pixels of bytes 0 to 15, and one pixel of bytes 0 to 3.
const TEXTURE: &str = "ok-kind-32-texture.xnb";
/// A font whose texture is one pixel of bytes 0 to 3 in row 1.
const FONT: &str = "ok-kind-33-font.xnb";

type Pixel = [u8; 4];

/// What a PNG shows.
#[derive(Debug, PartialEq)]
struct Shown {
    width: u32,
    height: u32,
    pixels: Vec<Pixel>,
}

fn shown(path: &Path) -> Shown {
    let file = fs::read(path).unwrap_or_else(|error| panic!("{}: {error}", path.display()));
    // The last chunk, of no bytes, with its checksum.
    assert!(file.ends_with(b"\0\0\0\0IEND\xAE\x42\x60\x82"));
    let mut reader = png::Decoder::new(&file[..]).read_info().expect("a PNG");
    let mut bytes = vec![0; reader.output_buffer_size()];
    let frame = reader.next_frame(&mut bytes).expect("a whole PNG");
    let form = (frame.color_type, frame.bit_depth);
    assert_eq!(form, (png::ColorType::Rgba, png::BitDepth::Eight));
    let pixels = bytes.chunks_exact(4).map(|it| [it[0], it[1], it[2], it[3]]);
    Shown {
        width: frame.width,
        height: frame.height,
        pixels: pixels.collect(),
    }
}

fn reported(ran: &Ran) -> (&str, &str, Option<i32>) {
    (&ran.out, &ran.err, ran.status)
}

fn json_of(text: &str) -> Json {
    serde_json::from_str(text).expect("JSON")
}

/// A level of these bytes.
fn level(bytes: &[u8]) -> Value {
    let size = number_field(Role::LevelSize, bytes.len() as u32);
    value(35, vec![size, Part::Data(bytes.to_vec())])
}

/// A file with a list of textures, in rows 1, 3, 5 and so on if each has one level.
fn textures(textures: Vec<Value>) -> Vec<u8> {
    let readers = [
        list_of("Microsoft.Xna.Framework.Graphics.Texture2D"),
        TEXTURE2D.to_string(),
    ];
    let textures = textures.into_iter().map(|it| bound_object(2, it)).collect();
    write(&file(&readers, object(1, list(textures)), vec![])).bytes
}

/// Each kept format, whose bytes are all AA, by its definition: AA is 10101010, and -86 of 127 with a sign.
#[test]
fn the_kept_files_of_each_format_show_their_first_pixel() {
    let first: [(&str, Pixel); 19] = [
        ("00-color", [170, 170, 170, 170]),
        // 10101 010101 01010: 21 of 31, 21 of 63 and 10 of 31.
        ("01-bgr565", [173, 85, 82, 255]),
        // 1 01010 10101 01010.
        ("02-bgra5551", [82, 173, 82, 255]),
        ("03-bgra4444", [170, 170, 170, 170]),
        // Both colours of a block are that of Bgr565, and so is every one between them.
        ("04-dxt1", [173, 85, 82, 255]),
        ("05-dxt3", [173, 85, 82, 170]),
        ("06-dxt5", [173, 85, 82, 170]),
        ("07-normalizedbyte2", [41, 41, 0, 255]),
        ("08-normalizedbyte4", [41, 41, 41, 41]),
        // 10 1010101010 1010101010 1010101010: 2 of 3, and 682 of 1023.
        ("09-rgba1010102", [170, 170, 170, 170]),
        ("10-rg32", [170, 170, 0, 255]),
        ("11-rgba64", [170, 170, 170, 170]),
        ("12-alpha8", [255, 255, 255, 170]),
        // The highest bit is the sign: the numbers are below 0.
        ("13-single", [0, 0, 0, 255]),
        ("14-vector2", [0, 0, 0, 255]),
        ("15-vector4", [0, 0, 0, 0]),
        ("16-halfsingle", [0, 0, 0, 255]),
        ("17-halfvector2", [0, 0, 0, 255]),
        ("18-halfvector4", [0, 0, 0, 0]),
    ];
    let top = scratch("image-formats");
    for (name, pixel) in first {
        let file = folder().join(format!("ok-format-{name}.xnb"));
        let words = ["image", file.to_str().expect("a plain path"), "-o", name];
        let ran = run_in(&top, &words, &[]);
        assert_eq!((ran.err.as_str(), ran.status), ("", Some(0)), "{name}");
        // 5 by 3 pixels, then half of each side, rounded down.
        for (level, (width, height)) in [(5, 3), (2, 1), (1, 1)].into_iter().enumerate() {
            let path = top.join(name).join(format!("row-0-level-{level}.png"));
            let shown = shown(&path);
            assert_eq!((shown.width, shown.height), (width, height), "{name}");
            assert_eq!(shown.pixels, vec![pixel; (width * height) as usize]);
        }
    }
}

/// A format with the bytes of pixels and the pixels, typed from the format's definition.
struct Typed {
    format: u32,
    /// The size of the picture.
    size: (u32, u32),
    bytes: Vec<u8>,
    /// The pixels of the first line.
    line: Vec<Pixel>,
    made: bool,
}

/// A format of two pixels side by side.
fn two(format: u32, bytes: &[u8], line: [Pixel; 2], made: bool) -> Typed {
    Typed {
        format,
        size: (2, 1),
        bytes: bytes.to_vec(),
        line: line.to_vec(),
        made,
    }
}

/// A format of two blocks side by side.
fn blocks(format: u32, bytes: [&[u8]; 2], line: [Pixel; 8]) -> Typed {
    Typed {
        format,
        size: (8, 4),
        bytes: bytes.concat(),
        line: line.to_vec(),
        made: false,
    }
}

fn singles_of(numbers: &[f32]) -> Vec<u8> {
    numbers.iter().flat_map(|it| it.to_le_bytes()).collect()
}

fn halves_of(numbers: &[u16]) -> Vec<u8> {
    numbers.iter().flat_map(|it| it.to_le_bytes()).collect()
}

fn typed() -> Vec<Typed> {
    // Red and blue; the pixels of the first line have colours 0, 1, 2 and 3, the left one in the lowest bits.
    let colours = [0x00, 0xF8, 0x1F, 0x00, 0xE4, 0, 0, 0];
    let packed = |red: u32, green: u32, blue: u32, alpha: u32| {
        (red | green << 10 | blue << 20 | alpha << 30).to_le_bytes()
    };
    let (a, b) = (packed(341, 682, 1023, 2), packed(0, 1023, 341, 1));
    vec![
        two(
            0,
            &[10, 20, 30, 40, 255, 0, 128, 1],
            [[10, 20, 30, 40], [255, 0, 128, 1]],
            false,
        ),
        // Red 1, green 2, blue 3; then 31, 32 and 16. The highest bits fill the lowest of eight.
        two(
            1,
            &[0x43, 0x08, 0x10, 0xFC],
            [[8, 8, 24, 255], [255, 130, 132, 255]],
            false,
        ),
        // Alpha 1, red 1, green 2, blue 3; then 0, 31, 16 and 0.
        two(
            2,
            &[0x43, 0x84, 0x00, 0x7E],
            [[8, 16, 24, 255], [255, 132, 0, 0]],
            false,
        ),
        // Alpha F, red 1, green 2, blue 3; then 8, 0, F and 4.
        two(
            3,
            &[0x23, 0xF1, 0xF4, 0x80],
            [[17, 34, 51, 255], [0, 255, 68, 136]],
            false,
        ),
        // The first colour is the larger number: two between them by thirds. In the other block it is the smaller
        // (black, and red 16 of 31): one between them, and nothing.
        blocks(
            4,
            [&colours, &[0x00, 0x00, 0x00, 0x80, 0xE4, 0, 0, 0]],
            [
                [255, 0, 0, 255],
                [0, 0, 255, 255],
                [170, 0, 85, 255],
                [85, 0, 170, 255],
                [0, 0, 0, 255],
                [132, 0, 0, 255],
                [66, 0, 0, 255],
                [0, 0, 0, 0],
            ],
        ),
        // Alpha in four bits, the left pixel in the lower ones: 0, 5, A and F; then F, 1, 2 and 3.
        blocks(
            5,
            [
                &[&[0x50, 0xFA, 0, 0, 0, 0, 0, 0][..], &colours].concat(),
                &[&[0x1F, 0x32, 0, 0, 0, 0, 0, 0][..], &colours].concat(),
            ],
            [
                [255, 0, 0, 0],
                [0, 0, 255, 85],
                [170, 0, 85, 170],
                [85, 0, 170, 255],
                [255, 0, 0, 255],
                [0, 0, 255, 17],
                [170, 0, 85, 34],
                [85, 0, 170, 51],
            ],
        ),
        // Alpha 70 and 0, and six between them by sevenths: 0, 1, 2 and 7 in three bits each, the left pixel lowest.
        // Then 0 and 50, four between them by fifths, 0 and 255: 1, 2, 6 and 7.
        blocks(
            6,
            [
                &[&[70, 0, 0x88, 0x0E, 0, 0, 0, 0][..], &colours].concat(),
                &[&[0, 50, 0x91, 0x0F, 0, 0, 0, 0][..], &colours].concat(),
            ],
            [
                [255, 0, 0, 70],
                [0, 0, 255, 0],
                [170, 0, 85, 60],
                [85, 0, 170, 10],
                [255, 0, 0, 50],
                [0, 0, 255, 10],
                [170, 0, 85, 0],
                [85, 0, 170, 255],
            ],
        ),
        // 64 and -64 of 127; -128, which is as -127, and 127.
        two(
            7,
            &[64, 0xC0, 0x80, 127],
            [[192, 63, 0, 255], [0, 255, 0, 255]],
            true,
        ),
        two(
            8,
            &[0x81, 127, 64, 0xC0, 127, 0x80, 0xC0, 64],
            [[0, 255, 192, 63], [255, 0, 63, 192]],
            true,
        ),
        // Thirds of 1023 and of 3.
        two(
            9,
            &[a, b].concat(),
            [[85, 170, 255, 170], [0, 255, 85, 85]],
            true,
        ),
        // Thirds of 65535.
        two(
            10,
            &[0x55, 0x55, 0xAA, 0xAA, 0xFF, 0xFF, 0x00, 0x00],
            [[85, 170, 0, 255], [255, 0, 0, 255]],
            true,
        ),
        // 0101 is 1 of 255, 3333 is 51, 8080 is 128.
        two(
            11,
            &[
                1, 1, 2, 2, 0x55, 0x55, 0xFF, 0xFF, 0x80, 0x80, 0, 0, 0xAA, 0xAA, 0x33, 0x33,
            ],
            [[1, 2, 85, 255], [128, 0, 170, 51]],
            true,
        ),
        two(
            12,
            &[7, 200],
            [[255, 255, 255, 7], [255, 255, 255, 200]],
            true,
        ),
        two(
            13,
            &singles_of(&[0.2, 1.5]),
            [[51, 51, 51, 255], [255, 255, 255, 255]],
            true,
        ),
        two(
            14,
            &singles_of(&[0.4, 0.6, -1.0, 1.0]),
            [[102, 153, 0, 255], [0, 255, 0, 255]],
            true,
        ),
        two(
            15,
            &singles_of(&[0.0, 1.0, 0.2, 0.8, 2.0, -3.0, 1.0, 0.0]),
            [[0, 255, 51, 204], [255, 0, 255, 0]],
            true,
        ),
        // 3400 is 0.25, 3C00 is 1.
        two(
            16,
            &halves_of(&[0x3400, 0x3C00]),
            [[64, 64, 64, 255], [255, 255, 255, 255]],
            true,
        ),
        // 3A00 is 0.75, BC00 is -1.
        two(
            17,
            &halves_of(&[0x3A00, 0xBC00, 0x3C00, 0x3400]),
            [[191, 0, 0, 255], [255, 64, 0, 255]],
            true,
        ),
        // 4000 is 2, 3000 is 0.125, C000 is -2.
        two(
            18,
            &halves_of(&[0x3400, 0x3A00, 0x3C00, 0, 0x4000, 0x3000, 0xC000, 0x3C00]),
            [[64, 191, 255, 0], [255, 32, 0, 255]],
            true,
        ),
    ]
}

#[test]
fn typed_pixels_of_each_format_are_shown() {
    let top = scratch("image-typed");
    let typed = typed();
    let of = |it: &Typed| texture_of(it.format, it.size.0, it.size.1, vec![level(&it.bytes)]);
    fs::write(
        top.join("all.xnb"),
        textures(typed.iter().map(of).collect()),
    )
    .expect("a file");
    let ran = run_in(&top, &["image", "all.xnb", "-o", "all/"], &[]);
    assert_eq!((ran.err.as_str(), ran.status), ("", Some(0)));
    let lines: Vec<&str> = ran.out.lines().collect();
    assert_eq!((typed.len(), lines.len()), (19, 19));
    for (place, (typed, line)) in typed.iter().zip(lines).enumerate() {
        let (format, name) = (
            typed.format,
            format!("all/row-{}-level-0.png", 2 * place + 1),
        );
        assert_eq!(format as usize, place);
        let shown = shown(&top.join(&name));
        assert_eq!((shown.width, shown.height), typed.size, "{format}");
        assert_eq!(shown.pixels[..typed.line.len()], typed.line, "{format}");
        assert!(line.ends_with(&format!(", written to {name}")), "{line}");
        // What is not plain colour is said with what was done to it.
        let said = line.contains(" (") && line.contains("), written");
        assert_eq!(said, typed.made, "{line}");
    }
    assert!(
        ran.out
            .contains("row 25 level 0: 2 by 1, Alpha8 (alpha as it is, white), written to "),
        "{}",
        ran.out
    );
}

/// Every level of every texture of every kept file, by the rows of `load`, and no other picture.
#[test]
fn every_level_of_the_kept_files_is_shown() {
    let top = scratch("image-kept");
    let mut pictures = 0;
    for file in kept_files() {
        let Ok(table) = Table::load(&file.bytes) else {
            continue;
        };
        let rows = 0..table.loaded().rows as u32;
        let textures: Vec<u32> = rows.filter(|row| table.picture(*row).is_ok()).collect();
        if textures.is_empty() {
            continue;
        }
        let ran = run_in(&top, &["image", "-", "-o", &file.name], &file.bytes);
        assert_eq!(ran.status, Some(0), "{}: {}", file.name, ran.err);
        let mut expected = Vec::new();
        for row in textures {
            let picture = table.picture(row).expect("a texture");
            for (number, level) in picture.levels().enumerate() {
                let name = format!("row-{row}-level-{number}.png");
                let shown = shown(&top.join(&file.name).join(&name));
                let size = (shown.width, shown.height);
                assert_eq!(size, (level.width, level.height), "{}", file.name);
                assert_eq!(
                    shown.pixels.concat(),
                    level.rgba8().expect("memory"),
                    "{}",
                    file.name
                );
                expected.push(name);
            }
        }
        expected.sort();
        assert_eq!(names(&top.join(&file.name)), expected, "{}", file.name);
        pictures += expected.len();
    }
    assert!(pictures > 300, "only {pictures} pictures");
}

#[test]
fn one_picture_goes_to_a_file() {
    let top = scratch("image-one");
    for name in [TEXTURE, FONT] {
        fs::write(top.join(name), sample(name)).expect("a file");
    }
    let ran = run_in(&top, &["image", FONT, "-o", "font.PNG"], &[]);
    let line = format!("{FONT}: row 1 level 0: 1 by 1, Color, written to font.PNG\n");
    assert_eq!(reported(&ran), (line.as_str(), "", Some(0)));
    assert_eq!(shown(&top.join("font.PNG")).pixels, [[0, 1, 2, 3]]);
    let words = [
        "image", TEXTURE, "--row", "0", "--level", "0", "-o", "0.png",
    ];
    let ran = run_in(&top, &words, &[]);
    let line = format!("{TEXTURE}: row 0 level 0: 2 by 2, Color, written to 0.png\n");
    assert_eq!(reported(&ran), (line.as_str(), "", Some(0)));
    let shown = shown(&top.join("0.png"));
    let pixels = [[0, 1, 2, 3], [4, 5, 6, 7], [8, 9, 10, 11], [12, 13, 14, 15]];
    assert_eq!((shown.width, shown.height), (2, 2));
    assert_eq!(shown.pixels, pixels);
    // Standard input and standard output: only the picture is printed there, and what is said goes beside it.
    let line = format!("asset-builder image - --level 0 -o - < {TEXTURE} | cmp - 0.png");
    let said = "-: row 0 level 0: 2 by 2, Color\n";
    assert_eq!(reported(&shell(&top, &line)), ("", said, Some(0)));
    let ran = shell(
        &top,
        &line.replace("asset-builder image", "asset-builder image -q"),
    );
    assert_eq!(reported(&ran), ("", "", Some(0)));
    // What is no plain file is written as it stands.
    let ran = shell(
        &top,
        &format!("asset-builder image -q {FONT} -o >(cat) | cmp - font.PNG"),
    );
    assert_eq!(reported(&ran), ("", "", Some(0)));
    // -q prints no more than is asked for, -v says what is read and written.
    let words = ["image", FONT, "-fqo", "font.PNG"];
    assert_eq!(reported(&run_in(&top, &words, &[])), ("", "", Some(0)));
    let ran = run_in(&top, &["image", FONT, "-fvo", "font.PNG"], &[]);
    let said = format!("{FONT}: 589 bytes read\nfont.PNG: written\n");
    assert_eq!((ran.err, ran.status), (said, Some(0)));
    // Several pictures do not go to a file, which would be one of them only.
    for (output, place) in [("both.png", "a file"), ("-", "standard output")] {
        let ran = run_in(&top, &["image", TEXTURE, "-o", output], &[]);
        let why = format!(
            "{output}: 2 pictures do not go to {place}; a folder takes them, --row and --level choose one\n"
        );
        assert_eq!(reported(&ran), ("", why.as_str(), Some(2)));
    }
    assert_eq!(names(&top), ["0.png", "font.PNG", TEXTURE, FONT]);
}

#[test]
fn pictures_go_to_a_folder_by_row_and_level() {
    let top = scratch("image-folder");
    let three = textures(vec![
        texture(0, 4, 4, 3),
        texture(12, 1, 1, 1),
        texture(4, 2, 2, 2),
    ]);
    fs::write(top.join("three.xnb"), three).expect("a file");
    let all = [
        "row-1-level-0.png",
        "row-1-level-1.png",
        "row-1-level-2.png",
        "row-5-level-0.png",
        "row-7-level-0.png",
        "row-7-level-1.png",
    ];
    fs::create_dir(top.join("there.png")).expect("a folder");
    for output in ["new/below", "slash.png/", "there.png"] {
        let ran = run_in(&top, &["image", "three.xnb", "-o", output], &[]);
        assert_eq!((ran.err.as_str(), ran.status), ("", Some(0)), "{output}");
        assert_eq!(ran.out.lines().count(), 6, "{}", ran.out);
        assert_eq!(names(&top.join(output)), all, "{output}");
    }
    let of = |words: &[&str], output: &str| {
        let words = [&["image", "three.xnb", "-o", output], words].concat();
        let ran = run_in(&top, &words, &[]);
        (ran.err, ran.status, names(&top.join(output)))
    };
    let reported = of(&["--row", "7"], "of-row");
    assert_eq!(reported, (String::new(), Some(0), strings(&all[4..])));
    let reported = of(&["--row", "1", "--level", "2"], "of-both");
    assert_eq!(reported, (String::new(), Some(0), strings(&all[2..3])));
    // A texture without the level is reported, and the others are written.
    let (err, status, names) = of(&["--level", "1"], "of-level");
    let why = "three.xnb: row 5 level 1: the texture has 1 level, counted from 0\n";
    assert_eq!((err.as_str(), status), (why, Some(1)));
    assert_eq!(names, [all[1], all[5]]);
}

fn strings(names: &[&str]) -> Vec<String> {
    names.iter().map(|it| it.to_string()).collect()
}

#[test]
fn what_is_not_there_is_reported() {
    let top = scratch("image-refused");
    fs::write(top.join("out.png"), "kept").expect("a file");
    let of = |file: &str, words: &[&str]| {
        let words = [&["image", "-", "-fo", "out.png"], words].concat();
        let ran = run_in(&top, &words, &sample(file));
        assert_eq!((ran.out.as_str(), ran.status), ("", Some(1)), "{words:?}");
        ran.err
    };
    let text = "ok-kind-13-string.xnb";
    assert_eq!(of(text, &[]), "-: no texture is in it\n");
    let no_row = "-: refused 23 at 3: there is no such row\n  the file has 3 rows\n";
    assert_eq!(of(TEXTURE, &["--row", "3"]), no_row);
    let other = "-: refused 24 at 0: the row is not of the kind asked for\n  \
        row 0 is of kind SpriteFont, not Texture2D\n";
    assert_eq!(of(FONT, &["--row", "0"]), other);
    let no_level = "-: row 0 level 2: the texture has 2 levels, counted from 0\n";
    assert_eq!(of(TEXTURE, &["--level", "2"]), no_level);
    let start = "-: refused 6 at 5: a flag other than the profile is set\n";
    assert!(of("bad-06-flags.xnb", &[]).starts_with(start));
    let few = of(TEXTURE, &["--rows", "2"]);
    let start = "-: refused 19 at 101: no row is left for a value\n";
    assert!(few.starts_with(start), "{few}");
    assert!(few.contains("; --rows N gives more, up to 65536\n"));
    let ran = run_in(&top, &["image", "none.xnb", "-fo", "out.png"], &[]);
    let why = "none.xnb: No such file or directory (os error 2)\n";
    assert_eq!(reported(&ran), ("", why, Some(2)));
    let ran = run_in(&top, &["image", "-", "-o", "out.png/"], &sample(FONT));
    let why = "out.png/: it is there already, and it is no folder\n";
    assert_eq!(reported(&ran), ("", why, Some(2)));
    assert_eq!(fs::read(top.join("out.png")).expect("a file"), b"kept");
    assert_eq!(names(&top), ["out.png"]);
}

#[test]
fn nothing_is_overwritten_unasked_or_left_half_written() {
    let top = scratch("image-kept-files");
    fs::write(top.join("font.png"), "kept").expect("a file");
    let words = ["image", "-", "-o", "font.png"];
    let ran = run_in(&top, &words, &sample(FONT));
    let why = "font.png: it is there already; -f overwrites it\n";
    assert_eq!(reported(&ran), ("", why, Some(2)));
    assert_eq!(fs::read(top.join("font.png")).expect("a file"), b"kept");
    let ran = run_in(&top, &[&words[..], &["-f"]].concat(), &sample(FONT));
    assert_eq!((ran.err.as_str(), ran.status), ("", Some(0)));
    assert_eq!(shown(&top.join("font.png")).pixels, [[0, 1, 2, 3]]);
    // In a folder the other pictures are written.
    fs::create_dir(top.join("both")).expect("a folder");
    fs::write(top.join("both/row-0-level-0.png"), "kept").expect("a file");
    let ran = run_in(&top, &["image", "-", "-o", "both"], &sample(TEXTURE));
    let why = "both/row-0-level-0.png: it is there already; -f overwrites it\n";
    let line = "-: row 0 level 1: 1 by 1, Color, written to both/row-0-level-1.png\n";
    assert_eq!(reported(&ran), (line, why, Some(2)));
    let kept = fs::read(top.join("both/row-0-level-0.png"));
    assert_eq!(kept.expect("a file"), b"kept");
    let shown = shown(&top.join("both/row-0-level-1.png"));
    assert_eq!(shown.pixels, [[0, 1, 2, 3]]);
    symlink("nowhere", top.join("link.png")).expect("a link");
    let ran = run_in(&top, &["image", "-", "-fo", "link.png"], &sample(FONT));
    let why = "link.png: it is a link to a file that is not there\n";
    assert_eq!(reported(&ran), ("", why, Some(2)));

    // A disk that is full at any byte of the picture: a failure, and nothing is left.
    let noise: Vec<u8> = (0..40_000_u32)
        .map(|it| (it.wrapping_mul(2_654_435_761) >> 24) as u8)
        .collect();
    let noise = textures(vec![texture_of(0, 100, 100, vec![level(&noise)])]);
    fs::write(top.join("noise.xnb"), noise).expect("a file");
    let ran = run_in(&top, &["image", "noise.xnb", "-o", "whole.png"], &[]);
    assert_eq!((ran.err.as_str(), ran.status), ("", Some(0)));
    let whole = fs::read(top.join("whole.png")).expect("a file").len();
    let before = names(&top);
    for blocks in 0..=whole / 1024 {
        let line = format!("ulimit -f {blocks}; asset-builder image noise.xnb -o cut.png");
        let ran = shell(&top, &line);
        let why = "cut.png: File too large (os error 27)\n";
        assert_eq!(reported(&ran), ("", why, Some(2)), "{blocks} of {whole}");
        assert_eq!(names(&top), before, "{blocks} of {whole}");
    }
    let ran = run_in(&top, &["image", "noise.xnb", "-o", "/dev/full"], &[]);
    let why = "/dev/full: No space left on device (os error 28)\n";
    assert_eq!(reported(&ran), ("", why, Some(2)));
}

/// Six pictures of 16 MB each, by a run that may have 50 MB of memory, of which the file takes 12.
#[test]
fn memory_is_taken_for_one_level() {
    let top = scratch("image-memory");
    let (width, height) = (4096, 1024);
    let blocks = vec![0; (width * height / 2) as usize];
    let large = || texture_of(4, width, height, vec![level(&blocks)]);
    let six = textures((0..6).map(|_| large()).collect());
    fs::write(top.join("six.xnb"), six).expect("a file");
    let ran = shell(
        &top,
        "ulimit -d 50000; asset-builder image six.xnb -qo pictures",
    );
    assert_eq!(reported(&ran), ("", "", Some(0)));
    let shown = shown(&top.join("pictures/row-11-level-0.png"));
    assert_eq!((shown.width, shown.height), (width, height));
    assert!(shown.pixels.iter().all(|pixel| *pixel == [0, 0, 0, 255]));
}

/// A file of 8 MB whose picture takes 64: the memory that is asked for is named, and nothing is written.
#[test]
fn memory_that_is_refused_is_reported() {
    let top = scratch("image-refused-memory");
    let side = 4096;
    let blocks = vec![0; (side * side / 2) as usize];
    let large = textures(vec![texture_of(4, side, side, vec![level(&blocks)])]);
    let bytes = large.len();
    fs::write(top.join("large.xnb"), large).expect("a file");
    let limited = "ulimit -d 40000; asset-builder image large.xnb -o out.png";
    let ran = shell(&top, limited);
    let why = "no memory for 67108864 bytes";
    let line = format!("out.png: {why}\n");
    assert_eq!(reported(&ran), ("", &line[..], Some(2)));
    assert_eq!(names(&top), ["large.xnb"]);
    let ran = shell(&top, &format!("{limited} --json"));
    let expected = json!({
        "schema": 1, "file": "large.xnb", "bytes": bytes, "pictures": [
            {"row": 1, "level": 0, "width": side, "height": side, "format": 4, "name": "Dxt1",
                "unwritten": {"why": why}},
        ],
    });
    assert_eq!((json_of(&ran.out), ran.status), (expected, Some(2)));
    // With the memory it is written.
    let ran = shell(&top, "asset-builder image large.xnb -qo out.png");
    assert_eq!(reported(&ran), ("", "", Some(0)));
}

#[test]
fn a_terminal_gets_no_raw_bytes() {
    let top = scratch("image-terminal");
    fs::write(top.join("font.xnb"), sample(FONT)).expect("a file");
    for output in ["-", "/dev/stdout"] {
        let line = format!("asset-builder image font.xnb -o {output}");
        let out = on_terminal(&top, &line, &NEVER);
        let why = "raw bytes are not written to a terminal; ";
        assert!(out.contains(why) && !out.contains("PNG"), "{out:?}");
    }
}

#[test]
fn programs_are_reported_in_json() {
    let top = scratch("image-json");
    for name in [TEXTURE, FONT] {
        fs::write(top.join(name), sample(name)).expect("a file");
    }
    fs::create_dir(top.join("out")).expect("a folder");
    fs::write(top.join("out/row-0-level-1.png"), "kept").expect("a file");
    let ran = run_in(&top, &["image", "--json", TEXTURE, "-o", "out"], &[]);
    let written = fs::metadata(top.join("out/row-0-level-0.png")).expect("a file");
    let why = "it is there already; -f overwrites it";
    let expected = json!({
        "schema": 1, "file": TEXTURE, "bytes": sample(TEXTURE).len(), "pictures": [
            {"row": 0, "level": 0, "width": 2, "height": 2, "format": 0, "name": "Color",
                "written": {"file": "out/row-0-level-0.png", "bytes": written.len()}},
            {"row": 0, "level": 1, "width": 1, "height": 1, "format": 0, "name": "Color",
                "unwritten": {"why": why}},
        ],
    });
    assert_eq!((json_of(&ran.out), ran.status), (expected, Some(2)));
    let alpha = textures(vec![texture(12, 1, 1, 1)]);
    let words = ["image", "--json", "-", "--level", "0", "-o", "alpha.png"];
    let ran = run_in(&top, &words, &alpha);
    assert_eq!((ran.err.as_str(), ran.status), ("", Some(0)));
    let picture = &json_of(&ran.out)["pictures"][0];
    assert_eq!(picture["name"], "Alpha8");
    assert_eq!(picture["format"], 12);
    assert_eq!(picture["made"], "alpha as it is, white");
    let words = ["image", "--json", TEXTURE, "--level", "7", "-o", "no"];
    let ran = run_in(&top, &words, &[]);
    let why = "the texture has 2 levels, counted from 0";
    let expected = json!([{"row": 0, "level": 7, "unwritten": {"why": why}}]);
    assert_eq!(json_of(&ran.out)["pictures"], expected);
    assert_eq!(ran.status, Some(1));
    let ran = run_in(
        &top,
        &["image", "--json", "-", "-o", "no"],
        &sample("ok-kind-13-string.xnb"),
    );
    let why = json!({"why": "no texture is in it"});
    let expected = json!({"schema": 1, "file": "-", "bytes": 65, "unwritten": why});
    assert_eq!((json_of(&ran.out), ran.status), (expected, Some(1)));
    let ran = run_in(
        &top,
        &["image", "--json", TEXTURE, "--row", "1", "-o", "no"],
        &[],
    );
    assert_eq!(json_of(&ran.out)["refused"]["number"], 24);
    // Beside a picture on standard output, the line goes to standard error.
    let line = format!("asset-builder image --json {FONT} -o - | cat > font.png");
    let ran = shell(&top, &line);
    let length = fs::metadata(top.join("font.png")).expect("a file").len();
    let written = json!({"file": "-", "bytes": length});
    assert_eq!(json_of(&ran.err)["pictures"][0]["written"], written);
    assert_eq!(ran.out, "");
    assert!(!top.join("no").exists());
}

#[test]
fn the_list_of_enum_types_is_lent() {
    let readers = [
        list_of("System.Object"),
        enum_of("Coach.Door"),
        TEXTURE2D.to_string(),
    ];
    let elements = vec![object(2, fixed(15, &[7])), object(3, texture(0, 1, 1, 1))];
    let bytes = write(&file(&readers, object(1, list(elements)), vec![])).bytes;
    let top = scratch("image-enums");
    fs::write(top.join("doors.xnb"), bytes).expect("a file");
    fs::write(top.join("enums.txt"), "Coach.Door 1\n").expect("a list");
    let words = [
        "image",
        "doors.xnb",
        "-o",
        "door.png",
        "--enums",
        "enums.txt",
    ];
    let ran = run_in(&top, &words, &[]);
    let line = "doors.xnb: row 2 level 0: 1 by 1, Color, written to door.png\n";
    assert_eq!(reported(&ran), (line, "", Some(0)));
    assert_eq!(run_in(&top, &words[..4], &[]).status, Some(1));
    let ran = run(&["image", FONT]);
    assert!(ran.err.contains("--output <OUT.png|FOLDER>"), "{}", ran.err);
}
