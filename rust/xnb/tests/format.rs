//! docs/FORMAT.md against the library: files, lists of enum types, packs of both forms and XML are written by its tables
//! alone, and given to the library; answers, rows, reports and refusals are held to what the tables say.
//!
//! Nothing of the corpus and of its writer is used here. What the document says in sentences (a count is four bytes,
//! a seven-bit number below 128 is one byte) is written by hand; names, numbers, sizes, fields and limits are the tables'.

use std::collections::{BTreeMap, BTreeSet};
use xnb::meshes::{ElementFormat, ElementUsage};
use xnb::pack::{PackError, PackRefused};
use xnb::report::{Counter, Report, REPORT_WORDS, ROW_WORDS};
use xnb::salvage::{salvage, Stretch};
use xnb::{Kind, Loader, Pack, Place, Refusal, Refused, SurfaceFormat, Table};

/// The text of a section.
fn section(name: &str) -> String {
    let path = corpus::folder::root().join("docs/FORMAT.md");
    let page = std::fs::read_to_string(path).expect("the document");
    let from = page.split_once(&format!("\n## {name}\n")).expect(name).1;
    from.split("\n## ").next().expect("a section").to_string()
}

/// The rows of the tables of a section, each a list of cells, without the line of headings.
fn tables(name: &str) -> Vec<Vec<Vec<String>>> {
    let text = section(name);
    let mut tables = Vec::new();
    let blocks = text.split("\n\n").map(str::trim);
    for block in blocks.filter(|it| it.starts_with('|')) {
        tables.push(block.lines().skip(2).map(cells).collect());
    }
    tables
}

fn cells(line: &str) -> Vec<String> {
    let inner = line.trim().trim_matches('|');
    inner.split('|').map(|it| it.trim().to_string()).collect()
}

/// What is between the first two backquotes.
fn quoted(cell: &str) -> Option<&str> {
    cell.split('`').nth(1)
}

/// The bytes that a cell has in hexadecimal digits.
fn hex(cell: &str) -> Vec<u8> {
    let digits = quoted(cell).expect("bytes").split(' ');
    let byte = |it| u8::from_str_radix(it, 16).expect("a byte");
    digits.map(byte).collect()
}

fn number(cell: &str) -> usize {
    let digits: String = cell.chars().filter(|it| *it != ',').collect();
    digits.parse().unwrap_or_else(|_| panic!("{cell}"))
}

/// A line of the table of kinds.
#[derive(Clone)]
struct KindLine {
    number: u32,
    name: String,
    /// The number of arguments of its reader, where it has one.
    arguments: Option<usize>,
    bytes: String,
    children: String,
    /// The target's head.
    target: Option<String>,
}

impl KindLine {
    /// The bytes of the raw value, where the table has a number.
    fn size(&self) -> Option<usize> {
        self.bytes.parse().ok()
    }

    /// Readers that no type id may name.
    fn is_never_used(&self) -> bool {
        ["Object", "Texture"].contains(&self.name.as_str())
    }
}

fn kinds() -> Vec<KindLine> {
    let line = |cells: &Vec<String>| {
        let [number, name, arguments, bytes, _rule, children, target] = &cells[..] else {
            panic!("{cells:?}");
        };
        KindLine {
            number: number.parse().expect("a kind"),
            name: name.clone(),
            arguments: arguments.parse().ok(),
            bytes: bytes.clone(),
            children: children.clone(),
            target: quoted(target).map(str::to_string),
        }
    };
    tables("Values and kinds")[0].iter().map(line).collect()
}

/// "Values of a value type (kinds 1 to 12, 15, 16 and 20 to 30) are raw wherever they are elements or fields."
fn is_value_type(kind: u32) -> bool {
    matches!(kind, 1..=12 | 15 | 16 | 20..=30)
}

/// A type: its kind and the arguments of its reader.
#[derive(Clone)]
struct Type {
    kind: KindLine,
    arguments: Vec<Type>,
    /// The argument of an enum, which is no type of the table.
    named: Option<&'static str>,
}

/// The type that a table calls so, such as `List of Rectangle`.
fn type_of(words: &str) -> Type {
    let (name, inner) = match words.split_once(" of ") {
        Some((name, inner)) => (name, Some(inner)),
        None => (words, None),
    };
    let kind = kinds().into_iter().find(|it| it.name == name);
    Type {
        kind: kind.unwrap_or_else(|| panic!("no kind {name}")),
        arguments: inner.into_iter().map(type_of).collect(),
        named: None,
    }
}

impl Type {
    /// A type of this kind, with arguments where its reader takes some.
    fn any(kind: &KindLine) -> Type {
        let of_enum = kind.name == "Enum";
        let count = if of_enum {
            0
        } else {
            kind.arguments.unwrap_or(0)
        };
        Type {
            kind: kind.clone(),
            arguments: vec![type_of("Byte"); count],
            named: of_enum.then_some("Coach.Door"),
        }
    }

    fn arguments(&self) -> String {
        let mut names: Vec<String> = self.arguments.iter().map(Type::target).collect();
        names.extend(self.named.map(str::to_string));
        if names.is_empty() {
            return String::new();
        }
        let parts: Vec<String> = names.iter().map(|it| format!("[{it}]")).collect();
        format!("`{}[{}]", parts.len(), parts.join(","))
    }

    fn reader(&self) -> String {
        let name = &self.kind.name;
        let space = if name == "Page" {
            "Coach.Console."
        } else {
            "Microsoft.Xna.Framework.Content."
        };
        format!("{space}{name}Reader{}", self.arguments())
    }

    fn target(&self) -> String {
        let head = self.kind.target.as_ref().expect("a target name");
        format!("{head}{}", self.arguments())
    }
}

/// A file that is written: its readers, and the bytes behind the shared count.
#[derive(Default)]
struct Written {
    readers: Vec<String>,
    objects: Vec<u8>,
    shared: usize,
}

impl Written {
    /// The bytes by the tables of "File".
    fn file(&self) -> Vec<u8> {
        let mut file = Vec::new();
        for (place, cells) in [0, 3, 4, 5, 6].iter().zip(&tables("File")[0]) {
            assert_eq!(number(&cells[0]), *place);
            assert_eq!(file.len(), *place, "{cells:?}");
            match place {
                6 => file.extend([0; 4]),
                4 | 5 => file.push(
                    u8::from_str_radix(quoted(&cells[3]).expect("a byte"), 16).expect("a byte"),
                ),
                3 => file.extend(quoted(&cells[3]).expect("a letter").bytes()),
                _ => file.extend(quoted(&cells[2]).expect("letters").bytes()),
            }
            let bytes = number(&cells[1]);
            assert_eq!(file.len(), place + bytes, "{cells:?}");
        }
        file.extend(seven(self.readers.len()));
        for reader in &self.readers {
            file.extend(seven(reader.len()));
            file.extend(reader.bytes());
            file.extend([0; 4]);
        }
        file.extend(seven(self.shared));
        file.extend(&self.objects);
        let length = file.len() as u32;
        file[6..10].copy_from_slice(&length.to_le_bytes());
        file
    }

    fn number(&mut self, value: u32) {
        self.objects.extend(value.to_le_bytes());
    }

    /// An object: the type id of its reader, listed where it is not yet, and the value.
    fn object(&mut self, of: &Type) {
        let reader = of.reader();
        let listed = self.readers.iter().position(|it| *it == reader);
        let place = listed.unwrap_or_else(|| {
            self.readers.push(reader);
            self.readers.len() - 1
        });
        self.objects.extend(seven(place + 1));
        self.raw(of);
    }

    /// An element: raw if its type is a value type, else an object.
    fn element(&mut self, of: &Type) {
        if is_value_type(of.kind.number) {
            self.raw(of);
        } else {
            self.object(of);
        }
    }

    /// The raw value by the column "bytes of the raw value", zero where it may be.
    fn raw(&mut self, of: &Type) {
        if let Some(size) = of.kind.size() {
            self.objects.extend(vec![0; size]);
            return;
        }
        match (of.kind.name.as_str(), of.kind.bytes.as_str()) {
            ("Char", "1 to 3") => self.objects.push(b'a'),
            ("String", "a seven-bit count, then so many bytes") => {
                self.objects.extend(seven(2));
                self.objects.extend(b"Hi");
            }
            ("Enum", "4, or the listed size") => self.objects.extend([0; 4]),
            ("Nullable", "1, then the raw value if it is 1") => {
                self.objects.push(1);
                self.raw(&of.arguments[0]);
            }
            ("Array" | "List", "a count of 4 bytes, then the elements") => {
                self.number(1);
                self.element(&of.arguments[0]);
            }
            ("Dictionary", "a count of 4 bytes, then a key and a value in turn") => {
                self.number(1);
                self.element(&of.arguments[0]);
                self.element(&of.arguments[1]);
            }
            ("Texture2D", _) => self.texture(0, 1, 1, &[level_size(0, 1, 1)]),
            (_, bytes) if bytes.starts_with("see [") => self.fields(of),
            // No type id may name the readers without a size.
            (_, "") => {}
            other => panic!("{other:?}"),
        }
    }

    /// "A texture is: surface format (4 bytes), width (4), height (4), level count (4), then for each level a size (4
    /// bytes) and so many bytes of data."
    fn texture(&mut self, format: u32, width: u32, height: u32, levels: &[usize]) {
        for field in [format, width, height, levels.len() as u32] {
            self.number(field);
        }
        for size in levels {
            self.number(*size as u32);
            self.objects.extend(vec![0; *size]);
        }
    }

    /// A value by the table of its fields, with 1 for each count and 4 for each size.
    fn fields(&mut self, of: &Type) {
        for field in fields(&of.kind.name) {
            let (name, how, of) = (field[0].as_str(), field[1].as_str(), field[2].as_str());
            match how {
                "object" if of == "Object" => self.objects.push(0),
                "object" => self.object(&type_of(of)),
                "reference" | "bone" => self.objects.push(0),
                "data" => self.objects.extend([0; 4]),
                "raw" if name.ends_with("count") => self.number(1),
                "raw" if name == "data size" || name == "stride" => self.number(4),
                "raw" => self.raw(&type_of(of)),
                _ => panic!("{field:?}"),
            }
        }
    }
}

/// The fields of a kind, from its table.
fn fields(name: &str) -> Vec<Vec<String>> {
    let (section, table) = match name {
        "SpriteFont" => ("Fonts and pages", 0),
        "Page" => ("Fonts and pages", 1),
        "IndexBuffer" => ("Gauge meshes", 0),
        "VertexDeclaration" => ("Gauge meshes", 1),
        "VertexBuffer" => ("Gauge meshes", 3),
        "Model" => ("Gauge meshes", 4),
        _ => panic!("{name} has no fields"),
    };
    tables(section).swap_remove(table)
}

/// A seven-bit number of one or two bytes.
fn seven(value: usize) -> Vec<u8> {
    match value {
        0..0x80 => vec![value as u8],
        _ => vec![
            (value % 0x80) as u8 | 0x80,
            u8::try_from(value / 0x80).expect("two bytes"),
        ],
    }
}

/// A file with one object of a type.
fn file_of(of: &Type) -> Vec<u8> {
    let mut written = Written::default();
    written.object(of);
    written.file()
}

fn refused(file: &[u8]) -> Option<(u32, u32)> {
    let Refused { refusal, place } = Table::load(file).err()?;
    Some((refusal.number(), place))
}

#[test]
fn each_kind_is_written_by_the_table_and_loaded() {
    let lines = kinds();
    let mut seen = BTreeSet::from([0]);
    for line in lines.iter().filter(|it| it.arguments.is_some()) {
        let file = file_of(&Type::any(line));
        if line.is_never_used() {
            assert_eq!(refused(&file).map(|it| it.0), Some(13), "{}", line.name);
            continue;
        }
        let table = Table::load(&file).unwrap_or_else(|it| panic!("{}: {it}", line.name));
        let row = table.row(0).expect("the primary object");
        assert_eq!(
            (row.kind.number(), row.kind.name()),
            (line.number, &*line.name)
        );
        assert_eq!(row.first + row.length, file.len(), "{}", line.name);
        assert_eq!(row.kind.size(), line.size(), "{}", line.name);
        if let Some(size) = line.size() {
            assert_eq!(row.length, 1 + size, "{}", line.name);
        }
        let children = match line.children.as_str() {
            "none" => 0,
            "its value, if it has one" | "its elements" | "its levels" => 1,
            "each key and each value" => 2,
            "its four fields" => 4,
            "its eight fields" => 8,
            "its fields" => fields(&line.name).len(),
            other => panic!("{other}"),
        };
        assert_eq!(row.children, children, "{}", line.name);
        let more = [&file[..], &[0]].concat();
        assert_eq!(
            refused(&with_length(more)),
            Some((20, file.len() as u32)),
            "{}",
            line.name
        );
        let cut = with_length(file[..file.len() - 1].to_vec());
        assert_eq!(refused(&cut).map(|it| it.0), Some(1), "{}", line.name);
        seen.extend(table.rows().map(|row| row.kind.number()));
    }
    let with_rows = lines.iter().filter(|it| !it.is_never_used());
    assert_eq!(seen, with_rows.map(|it| it.number).collect());
}

/// The same bytes with the length field set.
fn with_length(mut file: Vec<u8>) -> Vec<u8> {
    let length = file.len() as u32;
    file[6..10].copy_from_slice(&length.to_le_bytes());
    file
}

#[test]
fn the_table_of_kinds_is_the_librarys() {
    let lines = kinds();
    let of_table = lines.iter().filter(|it| !it.is_never_used());
    let of_table: Vec<_> = of_table.map(|it| (it.number, it.name.clone())).collect();
    let of_library: Vec<_> = Kind::all()
        .map(|it| (it.number(), it.name().to_string()))
        .collect();
    assert_eq!(of_table, of_library);
}

#[test]
fn each_target_name_is_an_argument() {
    for line in kinds().iter().filter(|it| it.target.is_some()) {
        let target = Type::any(line).target();
        let list = |target: &str| Written {
            readers: vec![format!("{}`1[[{target}]]", type_of("List").reader())],
            objects: vec![1, 0, 0, 0, 0],
            shared: 0,
        };
        assert_eq!(refused(&list(&target).file()), None, "{target}");
        let other = format!("x{target}");
        assert_eq!(refused(&list(&other).file()), Some((11, 58)), "{other}");
    }
}

/// A surface format: its number, its name, and its bytes for a pixel or for a block.
struct FormatLine {
    code: u32,
    name: String,
    bytes: usize,
    in_blocks: bool,
}

/// The table has two formats to a line.
fn formats() -> Vec<FormatLine> {
    let mut formats = Vec::new();
    for cells in &tables("Textures")[0] {
        for half in cells.chunks(3).filter(|half| !half[0].is_empty()) {
            formats.push(FormatLine {
                code: number(&half[0]) as u32,
                name: half[1].clone(),
                bytes: number(half[2].trim_end_matches(" a block")),
                in_blocks: half[2].ends_with("a block"),
            });
        }
    }
    formats.sort_by_key(|it| it.code);
    formats
}

/// "A block has 4 by 4 pixels; sides are rounded up to whole blocks."
fn level_size(code: usize, width: usize, height: usize) -> usize {
    let format = &formats()[code];
    if format.in_blocks {
        width.div_ceil(4) * height.div_ceil(4) * format.bytes
    } else {
        width * height * format.bytes
    }
}

#[test]
fn each_surface_format_is_written_by_the_table_and_loaded() {
    let formats = formats();
    assert_eq!(formats.len(), 19);
    for (code, line) in formats.iter().enumerate() {
        let format = SurfaceFormat::of_code(line.code).expect("a format");
        let of_library = (
            format.code(),
            format.name(),
            format.bytes(),
            format.is_in_blocks(),
        );
        assert_eq!(
            of_library,
            (code as u32, &*line.name, line.bytes, line.in_blocks)
        );
        let texture = |more: usize| {
            let sizes =
                [(5, 3), (2, 1), (1, 1)].map(|(width, height)| level_size(code, width, height));
            let mut written = Written::default();
            written.readers.push(type_of("Texture2D").reader());
            written.objects.push(1);
            written.texture(line.code, 5, 3, &[sizes[0], sizes[1], sizes[2] + more]);
            written.file()
        };
        assert_eq!(refused(&texture(0)), None, "{}", line.name);
        assert_eq!(
            refused(&texture(1)).map(|it| it.0),
            Some(15),
            "{}",
            line.name
        );
    }
}

/// "| 80 01 | 128 |": as the count of a text, of so many bytes.
#[test]
fn seven_bit_numbers_are_those_of_the_table() {
    let mut tried = 0;
    for cells in &tables("Numbers")[0] {
        let bytes = hex(&cells[0]);
        let (value, padding) = match cells[1].split_once(", with one byte of padding") {
            Some((value, _)) => (number(value), 1),
            None => (number(&cells[1]), 0),
        };
        let mut objects = vec![1];
        objects.extend(&bytes);
        objects.extend(vec![b'x'; value.min(1000)]);
        let written = Written {
            readers: vec![type_of("String").reader()],
            objects,
            shared: 0,
        };
        let file = written.file();
        if value < 1000 {
            let table = Table::load(&file).expect("a text");
            assert_eq!(table.text(0).expect("a text").len(), value, "{cells:?}");
            assert_eq!(table.padding(), padding, "{cells:?}");
        } else {
            assert_eq!(refused(&file), Some((1, 62)), "{cells:?}");
        }
        tried += 1;
    }
    assert!(tried >= 6);
}

#[test]
fn the_example_has_its_row() {
    let mut file = Vec::new();
    for cells in &tables("An example, byte by byte")[0] {
        assert_eq!(file.len(), number(&cells[0]), "{cells:?}");
        let text = quoted(&cells[1]).expect("bytes");
        if text.split(' ').all(|it| it.len() == 2) {
            file.extend(hex(&cells[1]));
        } else {
            file.extend(text.bytes());
        }
    }
    let table = Table::load(&file).expect("the example");
    assert_eq!(table.words()[..7], [13, 61, 4, 0, 0, 1, 1]);
    assert_eq!(table.text(0), Ok("Hi"));
}

fn place_words(place: Place) -> &'static str {
    match place {
        Place::Byte => "a byte",
        Place::BytesNeeded => "the bytes needed",
        Place::StretchesNeeded => "the stretches needed",
        Place::Row => "a row number",
        Place::EnumEntry => "an entry of the list",
        Place::Zero => "0",
        _ => panic!("{place:?}"),
    }
}

#[test]
fn every_refusal_has_the_librarys_words() {
    let words = |refusal: Refusal| {
        let place = place_words(refusal.place()).to_string();
        [
            refusal.number().to_string(),
            refusal.rule().to_string(),
            place,
        ]
    };
    let of_library: Vec<_> = Refusal::all().map(words).collect();
    assert_eq!(tables("Every refusal")[0], of_library);
}

/// Each refusal is explained where it belongs, and no table names one that is not.
#[test]
fn every_refusal_is_explained() {
    let sections = [
        "Refusals of a load",
        "The driver's profile",
        "Packs",
        "Text lists as XML",
    ];
    let mut explained = BTreeSet::from([23, 24, 52, 71, 72]);
    for section in sections {
        for cells in tables(section).last().expect("a table") {
            let numbers = cells[0].split(", ").filter_map(|it| it.parse::<u32>().ok());
            explained.extend(numbers);
        }
    }
    assert_eq!(explained, Refusal::all().map(Refusal::number).collect());
}

/// The largest number in the line of the limits that begins so.
fn limit(what: &str) -> usize {
    let lines = tables("Limits").swap_remove(0);
    let line = lines.iter().find(|it| it[0] == what).expect(what);
    let last = line[1].split(", ").next().expect("a limit").to_string();
    let words = if line[1].contains("levels") {
        last
    } else {
        line[1].clone()
    };
    let words = words.trim_end_matches(" bytes");
    number(words.rsplit(' ').next().expect("a number"))
}

#[test]
fn files_at_the_limits_are_loaded_and_past_them_refused() {
    let readers = |count: usize| Written {
        readers: vec![type_of("Byte").reader(); count],
        objects: vec![0],
        shared: 0,
    };
    let name = |length: usize| {
        let head = format!("{},", type_of("Byte").reader());
        let tail = "x".repeat(length - head.len());
        Written {
            readers: vec![head + &tail],
            objects: vec![0],
            shared: 0,
        }
    };
    let shared = |count: usize| Written {
        readers: vec![],
        objects: vec![0; 1 + count],
        shared: count,
    };
    let depth = |depth: usize| Written {
        readers: vec![type_of("List of Object").reader()],
        objects: [&[1, 1, 0, 0, 0].repeat(depth - 1)[..], &[0]].concat(),
        shared: 0,
    };
    let side = |side: usize| {
        let mut written = Written {
            readers: vec![type_of("Texture2D").reader()],
            objects: vec![1],
            shared: 0,
        };
        written.texture(12, side as u32, 1, &[level_size(12, side, 1)]);
        written
    };
    type Write<'w> = &'w dyn Fn(usize) -> Written;
    let limits: [(&str, u32, Write); 5] = [
        ("readers", 9, &readers),
        ("reader name", 9, &name),
        ("shared objects", 9, &shared),
        ("depth", 18, &depth),
        ("texture side", 15, &side),
    ];
    for (what, refusal, write) in limits {
        let limit = limit(what);
        assert_eq!(refused(&write(limit).file()), None, "{what}");
        let past = refused(&write(limit + 1).file()).map(|it| it.0);
        assert_eq!(past, Some(refusal), "{what}");
    }
    assert_eq!(limit("rows"), xnb::MOST_ROWS);
}

/// A pack by the table of its fields, and where each field of each file is.
fn pack_by_table(
    marked: bool,
    files: &[(&[u8], &[u8])],
) -> (Vec<u8>, Vec<BTreeMap<String, usize>>) {
    let fields = tables("Packs").swap_remove(0);
    let (once, each): (Vec<_>, Vec<_>) = fields.into_iter().partition(|it| it[3] == "once");
    assert_eq!((once.len(), &once[0][0][..]), (1, "file count"));
    let mut pack = (files.len() as u64).to_le_bytes()[..number(&once[0][1])].to_vec();
    let mut places = Vec::new();
    for (path, data) in files {
        let mut at = BTreeMap::new();
        for cells in &each {
            if cells[3].ends_with("in a [marked pack](#marked-packs) only") && !marked {
                continue;
            }
            at.insert(cells[0].clone(), pack.len());
            match (&cells[0][..], &cells[1][..]) {
                ("mark", "2") => pack.extend(hex(&cells[2])),
                ("path length", "seven-bit") => pack.extend(seven(path.len())),
                ("path", "so many") => pack.extend(*path),
                ("size", "4") => pack.extend((data.len() as u32).to_le_bytes()),
                ("data", "so many") => pack.extend(*data),
                other => panic!("{other:?}"),
            }
        }
        places.push(at);
    }
    (pack, places)
}

/// A pack of so many files, with paths of this length.
fn pack_of(marked: bool, files: usize, path: usize) -> Vec<u8> {
    let path = vec![b'p'; path];
    pack_by_table(marked, &vec![(&path[..], &b"data"[..]); files]).0
}

type Reader = fn(&[u8], &mut [u64]) -> Result<usize, PackRefused>;

/// The reader of a form.
fn reader(marked: bool) -> Reader {
    match marked {
        true => xnb::marks::read,
        false => xnb::pack::read,
    }
}

#[test]
fn packs_at_the_limits_are_read_and_past_them_refused() {
    let files = limit("files in a pack");
    let path = limit("path in a pack");
    for (files, path) in [(0, 1), (files, 1), (1, path)] {
        for marked in [false, true] {
            let bytes = pack_of(marked, files, path);
            let pack = match marked {
                true => Pack::read_marked(&bytes),
                false => Pack::read(&bytes),
            };
            let pack = pack.expect("a pack");
            assert_eq!(pack.files().len(), files);
            assert!(pack
                .files()
                .all(|it| it.path.len() == path && it.data == b"data"));
        }
    }
    let refusal = Refusal::TooLarge;
    let read = |bytes: &[u8]| Pack::read(bytes).err();
    let past = |place| Some(PackError::Refused(PackRefused { refusal, place }));
    assert_eq!(read(&pack_of(false, files + 1, 1)), past(0));
    assert_eq!(read(&pack_of(false, 1, path + 1)), past(4));
    assert_eq!(read(&pack_of(false, 1, 0)), past(4));
}

/// "The table has four 64-bit words for each file: the path's start and length, the data's start and length."
#[test]
fn a_pack_of_either_form_is_written_by_the_table_and_converted() {
    let files: [(&[u8], &[u8]); 2] = [("Tür".as_bytes(), b"data"), (b"a\\b", b"")];
    let [plain, marked] = [false, true].map(|it| pack_by_table(it, &files));
    for ((bytes, places), is_marked) in [(&plain, false), (&marked, true)] {
        let mut words = [7; 9];
        assert_eq!(reader(is_marked)(bytes, &mut words), Ok(2));
        let mut expected = Vec::new();
        for (at, (path, data)) in places.iter().zip(files) {
            expected.extend([at["path"], path.len(), at["data"], data.len()].map(|it| it as u64));
        }
        expected.push(0);
        assert_eq!(words[..], expected);
        assert_eq!(
            xnb::pack::find(bytes, &words, "tür".as_bytes()),
            Some(&b"data"[..])
        );
        assert_eq!(
            xnb::pack::find(bytes, &words, "TÜR".as_bytes()),
            None,
            "only A to Z"
        );
    }
    assert_eq!(xnb::marks::mark(&plain.0), Ok(marked.0.clone()));
    assert_eq!(xnb::marks::unmark(&marked.0), Ok(plain.0.clone()));
    let longer = marked.0.len() as u64;
    let too_small = xnb::marks::mark_into(&plain.0, &mut [0; 4]);
    let expected = PackRefused {
        refusal: Refusal::OutputTooSmall,
        place: longer,
    };
    assert_eq!(too_small, Err(expected));
}

/// A pack that breaks a rule, and the number that is expected.
struct Broken {
    number: u32,
    pack: Vec<u8>,
    /// The words of the table.
    words: usize,
}

#[test]
fn each_refusal_of_a_pack_is_given_at_its_place() {
    let lines = tables("Packs").pop().expect("a table");
    for marked in [false, true] {
        let (pack, places) = pack_by_table(marked, &[(b"a", b"data"), (b"b", b"more")]);
        let at = &places[1];
        let (start, length) = (
            places[1].values().min().expect("a field"),
            at["path length"],
        );
        let broken = |number, pack| Broken {
            number,
            pack,
            words: 8,
        };
        let cut = |end: usize| pack[..end].to_vec();
        let with = |place: usize, bytes: &[u8]| {
            let rest = &pack[(place + 1).min(pack.len())..];
            [&pack[..place], bytes, rest].concat()
        };
        let long = limit("path in a pack") + 1;
        for cells in &lines {
            let cases = match &cells[1][..] {
                "the file count is cut" => vec![broken(1, cut(3)), broken(1, cut(0))],
                "more than 4,096 files" => vec![broken(9, with(1, &[0x10]))],
                "the table has no room for the next file" => vec![Broken {
                    words: 7,
                    ..broken(31, pack.clone())
                }],
                "in a marked pack: the mark is cut, or is another" if !marked => continue,
                "in a marked pack: the mark is cut, or is another" => {
                    vec![broken(1, cut(start + 1)), broken(51, with(start + 1, b"?"))]
                }
                "the path's length is cut or broken" => {
                    vec![broken(1, cut(length)), broken(8, with(length, &[0xFF; 5]))]
                }
                "the path is empty or over 260 bytes" => {
                    vec![
                        broken(9, with(length, &[0])),
                        broken(9, with(length, &seven(long))),
                    ]
                }
                "the path runs past the end" => vec![broken(1, cut(length + 1))],
                "the path is not UTF-8" => vec![broken(15, with(at["path"], &[0xFF]))],
                "the size is cut, or the data runs past the end" => {
                    vec![
                        broken(1, cut(at["size"] + 3)),
                        broken(1, cut(pack.len() - 1)),
                    ]
                }
                "bytes are left over" => vec![broken(20, [&pack[..], &[0]].concat())],
                other => panic!("{other}"),
            };
            let place = match &cells[2][..] {
                "0" => 0,
                "the file's start" | "the mark" => *start,
                "the path's length" => length,
                "the size" => at["size"],
                "the first of them" => pack.len(),
                other => panic!("{other}"),
            };
            let numbers: Vec<u32> = cells[0]
                .split(", ")
                .map(|it| it.parse().expect("one"))
                .collect();
            let given: BTreeSet<u32> = cases.iter().map(|it| it.number).collect();
            assert_eq!(given, numbers.into_iter().collect(), "{cells:?}");
            for broken in cases {
                let mut words = vec![7; broken.words];
                let refused = reader(marked)(&broken.pack, &mut words).expect_err(&cells[1]);
                let answer = (refused.refusal.number(), refused.place as usize);
                assert_eq!(
                    answer,
                    (broken.number, place),
                    "{cells:?}, marked: {marked}"
                );
                assert!(words.iter().all(|it| *it == 0), "{cells:?}");
            }
        }
    }
}

/// "where a mark and a whole record within the limits are found, the record is kept .. elsewhere it goes on one byte"
#[test]
fn a_damaged_pack_is_salvaged_as_the_document_says() {
    let files: [(&[u8], &[u8]); 3] = [(b"a", b"one"), (b"b", b"two"), (b"c", b"three")];
    let (pack, places) = pack_by_table(true, &files);
    let whole = salvage(&pack).expect("a marked pack");
    assert_eq!((&whole.pack, &whole.skipped[..]), (&pack, &[][..]));
    let mut damaged = pack.clone();
    let (start, end) = (places[1]["mark"], places[2]["mark"]);
    damaged[start] = 0;
    // The count is not looked at.
    damaged[0] = 0xFF;
    let kept = [files[0], files[2]];
    let salvaged = salvage(&damaged).expect("four bytes or more");
    assert_eq!(salvaged.pack, pack_by_table(true, &kept).0);
    let stretch = Stretch {
        start: start as u64,
        length: (end - start) as u64,
    };
    assert_eq!(salvaged.skipped, [stretch]);
    let refused = |refusal, place| Err(PackRefused { refusal, place });
    let into = |pack: &[u8], bytes, words| {
        xnb::salvage::salvage_into(pack, &mut vec![0; bytes], &mut vec![0; words])
    };
    let needed = salvaged.pack.len();
    assert_eq!(into(&damaged[..3], 0, 0), refused(Refusal::PastEnd, 0));
    assert_eq!(
        into(&damaged, needed - 1, 0),
        refused(Refusal::OutputTooSmall, needed as u64)
    );
    assert_eq!(into(&damaged, needed, 1), refused(Refusal::ListTooShort, 1));
}

/// A list of enum types by the table of an entry's fields.
fn enum_list(types: &[(&[u8], u8)]) -> Vec<u8> {
    let fields = tables("Enum types").swap_remove(0);
    let mut list = Vec::new();
    for (name, size) in types {
        for cells in &fields {
            match (&cells[0][..], &cells[1][..]) {
                ("name length", "1") => list.push(name.len() as u8),
                ("name", "so many") => list.extend(*name),
                ("size", "1") => list.push(*size),
                other => panic!("{other:?}"),
            }
        }
    }
    list
}

#[test]
fn enum_types_are_listed_by_the_table_and_taken() {
    // The example has the bytes that the table of fields gives.
    let example = tables("Enum types").swap_remove(1);
    let types: Vec<(&[u8], u8)> = example
        .iter()
        .map(|cells| {
            (
                quoted(&cells[0]).expect("a name").as_bytes(),
                number(&cells[1]) as u8,
            )
        })
        .collect();
    let bytes: Vec<u8> = example.iter().flat_map(|cells| hex(&cells[2])).collect();
    assert_eq!(enum_list(&types), bytes);

    let loader = |list: &[u8], file: &[u8]| -> Result<Vec<(u32, usize)>, (u32, u32)> {
        let table = Loader::new().with_enum_bytes(list).load(file);
        let table = table.map_err(|it| (it.refusal.number(), it.place))?;
        Ok(table
            .rows()
            .map(|row| (row.kind.number(), row.length))
            .collect())
    };
    // Each size that the rule names, as the value of an EnumReader and as an element of a list.
    let rule = &tables("Enum types")[0][2][2];
    let sizes: Vec<u8> = rule
        .replace(" or ", ", ")
        .split(", ")
        .map(|it| it.parse().expect("a size"))
        .collect();
    assert_eq!(sizes, [1, 2, 4, 8]);
    let name = &b"Coach.Door"[..];
    for size in 0..=u8::MAX {
        let list = enum_list(&[(b"Coach.Other", 1), (name, size)]);
        let value = vec![0; usize::from(size)];
        let own = Written {
            readers: vec![Type::any(&type_of("Enum").kind).reader()],
            objects: [&[1][..], &value].concat(),
            shared: 0,
        };
        let listed = Written {
            readers: vec![format!("{}`1[[Coach.Door]]", type_of("List").reader())],
            objects: [&[1, 1, 0, 0, 0][..], &value].concat(),
            shared: 0,
        };
        let length = usize::from(size);
        if !sizes.contains(&size) {
            assert_eq!(loader(&list, &own.file()), Err((32, 1)), "{size}");
            continue;
        }
        assert_eq!(loader(&list, &own.file()), Ok(vec![(15, 1 + length)]));
        let rows = vec![(18, 5 + length), (15, length)];
        assert_eq!(loader(&list, &listed.file()), Ok(rows));
        // "One that is not listed has four bytes and is no argument."
        let unlisted = loader(&[], &listed.file()).map_err(|it| it.0);
        assert_eq!(unlisted, Err(11));
        assert_eq!(loader(&[], &own.file()).is_ok(), size == 4);
    }
}

#[test]
fn wrong_lists_of_enum_types_are_refused_at_their_entry() {
    let null = Written {
        objects: vec![0],
        ..Written::default()
    };
    let null = null.file();
    let refused = |list: &[u8]| {
        let loaded = Loader::new().with_enum_bytes(list).load(&null);
        loaded.err().map(|it| (it.refusal.number(), it.place))
    };
    let good = (&b"Coach.Door"[..], 1);
    let list = enum_list(&[good, (b"Coach.Lamp", 2)]);
    assert_eq!(refused(&list), None);
    let first = enum_list(&[good]).len();
    for end in 1..list.len() {
        let expected = (end != first).then_some((32, u32::from(end > first)));
        assert_eq!(refused(&list[..end]), expected, "cut at {end}");
    }
    // Before all else: the file is not even one.
    let empty = Loader::new().with_enum_bytes(&list[..1]).load(&[]);
    assert_eq!(empty.err().map(|it| it.refusal.number()), Some(32));
    let mut wrong: Vec<Vec<u8>> = vec![vec![], b"Coach Door".to_vec(), b"Coach`1".to_vec()];
    wrong.push(good.0.to_vec());
    let targets = kinds().into_iter().filter_map(|it| it.target);
    wrong.extend(targets.map(String::into_bytes));
    for name in wrong {
        let list = enum_list(&[good, (b"Coach.Lamp", 2), (&name, 1)]);
        let shown = String::from_utf8_lossy(&name);
        assert_eq!(refused(&list), Some((32, 2)), "{shown}");
    }
}

/// The start and the end of the XML, and what is before and behind each text, by the line of the document.
fn xml_parts() -> [String; 4] {
    let text = section("Text lists as XML");
    let line = text.lines().find_map(|it| it.strip_prefix("    <?xml"));
    let line = format!("<?xml{}", line.expect("the XML"));
    let (start, rest) = line.split_once("first").expect("a text");
    let (between, end) = rest.split_once("second").expect("a text");
    let before = &start[start.rfind('<').expect("an item")..];
    let behind = &between[..between.find('>').expect("an end") + 1];
    assert_eq!(between, format!("{behind}{before}"), "nothing between");
    let start = start.strip_suffix(before).expect("a start");
    let end = end.strip_prefix(behind).expect("an end");
    [start, end, before, behind].map(str::to_string)
}

/// The XML of texts, by the line and the table of entities.
fn xml_of(texts: &[&str]) -> String {
    let [start, end, before, behind] = xml_parts();
    let entities = tables("Text lists as XML").swap_remove(0);
    let entities: Vec<(&str, &str)> = entities
        .iter()
        .map(|cells| {
            (
                quoted(&cells[0]).expect("one"),
                quoted(&cells[1]).expect("one"),
            )
        })
        .collect();
    let mut xml = start;
    for text in texts {
        xml += &before;
        for character in text.chars() {
            let entity = entities.iter().find(|it| it.0 == character.to_string());
            match entity {
                Some((_, entity)) => xml += entity,
                None => xml.push(character),
            }
        }
        xml += &behind;
    }
    xml + &end
}

/// "the shortest file with two readers .. in this order, platform `w`, flags 00", with these texts; none is null.
fn text_list(texts: &[Option<&str>]) -> Written {
    let readers = ["Array of String", "String"].map(|it| type_of(it).reader());
    let text = section("Text lists as XML");
    assert!(readers.iter().all(|it| text.contains(it.as_str())));
    let mut objects = vec![1];
    objects.extend((texts.len() as u32).to_le_bytes());
    for text in texts {
        let Some(text) = text else {
            objects.push(0);
            continue;
        };
        objects.push(2);
        objects.extend(seven(text.len()));
        objects.extend(text.bytes());
    }
    Written {
        readers: readers.to_vec(),
        objects,
        shared: 0,
    }
}

#[test]
fn xml_is_written_by_the_document_and_taken() {
    let long = "x".repeat(200);
    let lists: [&[&str]; 4] = [
        &[],
        &[
            "Doors & steps",
            "<b> \"quoted\" 'text'",
            "",
            "Türen \u{7F}\u{1FFFE}",
        ],
        &["&amp;", "&", "]]>"],
        &[&long, "สถานี"],
    ];
    for texts in lists {
        let some: Vec<Option<&str>> = texts.iter().copied().map(Some).collect();
        let (file, xml) = (text_list(&some).file(), xml_of(texts));
        assert_eq!(xnb::xml::export(&file).as_deref(), Ok(&xml[..]));
        assert_eq!(xnb::xml::import(&xml), Ok(file));
    }
}

#[test]
fn each_refusal_of_xml_is_given_at_its_place() {
    let export = |written: &Written| {
        let refused = xnb::xml::export(&written.file()).expect_err("a refusal");
        let refused = refused.refused().expect("a rule");
        (refused.refusal.number(), refused.place as usize)
    };
    let import = |xml: &str| {
        let refused = xnb::xml::import(xml).expect_err("a refusal").refused();
        let refused = refused.expect("a rule");
        (refused.refusal.number(), refused.place as usize)
    };
    let texts = [Some("a"), None, Some("\u{1F}")];
    let of = |texts: &[Option<&str>]| text_list(texts);
    let primary = |written: &Written| written.file().len() - written.objects.len();
    let xml = xml_of(&["a"]);
    let text = xml.find("a</").expect("the text");
    for cells in tables("Text lists as XML").pop().expect("a table") {
        let (answers, places): (Vec<_>, Vec<usize>) = match &cells[2][..] {
            "as there" => {
                let mut file = of(&texts).file();
                file[3] = b'?';
                let refused = xnb::xml::export(&file).expect_err("a refusal");
                assert_eq!(refused.refused(), Table::load(&file).err());
                continue;
            }
            "the primary object" => {
                let mut shared = of(&texts);
                shared.shared = 1;
                shared.objects.push(0);
                let mut list = of(&texts);
                list.readers[0] = type_of("List of String").reader();
                let null = Written {
                    objects: vec![0],
                    ..Written::default()
                };
                let all = [&shared, &list, &null];
                let of_shared = shared.file().len() - shared.objects.len();
                assert_eq!(primary(&shared), of_shared);
                (all.map(export).to_vec(), all.map(primary).to_vec())
            }
            "its row number" if cells[0] == "62" => {
                // The first text that has 62 or 63 decides.
                (
                    vec![export(&of(&texts)), export(&of(&texts[1..]))],
                    vec![2, 1],
                )
            }
            "its row number" => {
                let faults = ["\u{0}", "\u{1F}", "\n", "\u{FFFE}", "\u{FFFF}"];
                let answers = faults.map(|it| export(&of(&[Some("a"), Some(it), None])));
                (answers.to_vec(), vec![2; faults.len()])
            }
            "the byte, or the end" => {
                let wrong = xml.replace("a</", "\u{9}</");
                let answers = vec![
                    import(&wrong),
                    import(&xml[..text]),
                    import(&format!("{xml}\n")),
                ];
                (answers, vec![text, text, xml.len()])
            }
            "0" => {
                let many = vec!["a"; limit("texts in an XML list") + 1];
                assert!(xnb::xml::import(xml_of(&many[1..])).is_ok());
                (vec![import(&xml_of(&many))], vec![0])
            }
            "the number of bytes needed" => {
                let file = of(&texts[..1]).file();
                let refused = xnb::xml::import_into(xml.as_bytes(), &mut vec![0; file.len() - 1]);
                let refused = refused.expect_err("no room");
                let into = Loader::new().export_xml_into(&file, &mut [0; 14], &mut [0; 10]);
                let exported = into.expect_err("no room");
                let answers = vec![
                    (refused.refusal.number(), refused.place as usize),
                    (exported.refusal.number(), exported.place as usize),
                ];
                (answers, vec![file.len(), xml.len()])
            }
            other => panic!("{other}"),
        };
        let number: u32 = cells[0].parse().expect("a refusal");
        let expected: Vec<_> = places.into_iter().map(|it| (number, it)).collect();
        assert_eq!(answers, expected, "{cells:?}");
    }
}

/// The word of a report that counts something, or the first of such words.
fn report_word(counts: &str) -> usize {
    let lines = tables("The report").swap_remove(0);
    let line = lines.iter().find(|it| it[1].starts_with(counts));
    let word = &line.expect(counts)[0];
    number(word.split(" + ").next().expect("a word"))
}

#[test]
fn a_report_has_the_words_of_the_table() {
    assert!(
        section("The report").contains(&format!("A report is {REPORT_WORDS} numbers of 64 bits"))
    );
    let text = file_of(&type_of("String"));
    let texture = file_of(&type_of("Texture2D"));
    let font = file_of(&type_of("SpriteFont"));
    let mut wrong = text.clone();
    wrong[6] += 1;
    let files: [(&[u8], &[u8]); 6] = [
        (b"text", &text),
        (b"again", &text),
        (b"texture", &texture),
        (b"font", &font),
        (b"wrong", &wrong),
        (b"log", b"no file"),
    ];
    let mut expected = [0; REPORT_WORDS];
    expected[report_word("files")] = 6;
    expected[report_word("XNB files accepted")] = 4;
    // "Hi", twice; and two textures of one Color pixel, that of the font among them.
    expected[report_word("bytes of texts (kind 13)")] = 4;
    expected[report_word("bytes of image levels (kind 35)")] = 8;
    expected[report_word("XNB files refused with number n") + 7] = 1;
    for (_, file) in &files[..4] {
        for row in Table::load(file).expect("a file").rows() {
            expected[report_word("rows of kind k") + row.kind.number() as usize] += 1;
        }
    }
    let (pack, _) = pack_by_table(false, &files);
    let mut counter = Counter::new();
    counter.add(&pack).expect("a pack");
    assert_eq!(counter.report().words(), &expected);

    // "Under a list of enum types that 32 refuses, every XNB file counts as refused with 32."
    let mut counter = Counter::by(Loader::new().with_enum_bytes(&[1]));
    counter.add(&pack).expect("a pack");
    let mut under = [0; REPORT_WORDS];
    under[report_word("files")] = 6;
    under[report_word("XNB files refused with number n") + 32] = 5;
    assert_eq!(counter.report().words(), &under);

    // 72 is first, then the reader's refusals, then 71; each leaves the report as it was.
    let full = Report::of_words([u64::MAX; REPORT_WORDS]);
    let add = |pack: &[u8], rows: usize| {
        let mut report = full.clone();
        let mut table = vec![7; 4 * 6];
        let refused = report.add_pack(Loader::new(), pack, &mut table, &mut vec![7; rows]);
        assert_eq!(report, full);
        let refused = refused.expect_err("a refusal");
        (refused.refusal.number(), refused.place)
    };
    assert_eq!(add(&pack[..3], ROW_WORDS - 1), (72, 0));
    assert_eq!(add(&pack[..3], ROW_WORDS), (1, 0));
    assert_eq!(add(&pack, ROW_WORDS), (71, 0));
    let sum = full.clone().add(&full).expect_err("a refusal");
    assert_eq!((sum.refusal.number(), sum.place), (71, 0));
}

/// Two pages that lead to the second of them, which is shared.
fn pages() -> Written {
    let mut written = Written::default();
    for _ in 0..2 {
        written.object(&type_of("Page"));
        // Its next, the last field.
        *written.objects.last_mut().expect("a reference") = 1;
    }
    written.shared = 1;
    written
}

#[test]
fn each_refusal_of_the_drivers_profile_is_given_at_its_place() {
    let judged = |file: &[u8]| {
        assert!(Table::load(file).is_ok());
        let refused = Table::load_driver(file).err();
        refused.map(|it| (it.refusal.number(), it.place as usize))
    };
    assert_eq!(judged(&pages().file()), None);
    let name_at = |written: &Written, name: &str| {
        let file = written.file();
        let mut windows = file.windows(name.len());
        windows.rposition(|it| it == name.as_bytes()).expect(name)
    };
    for cells in &tables("The driver's profile")[0] {
        let mut written = pages();
        let objects = written.objects.len();
        let (file, place) = match &cells[2][..] {
            "3" => {
                let mut file = written.file();
                file[3] = b'm';
                (file, 3)
            }
            "the number" => {
                // The next of the second page, the last byte, in two bytes.
                let mut file = written.file();
                let last = file.len() - 1;
                file.splice(last.., [0x81, 0x00]);
                (with_length(file), last)
            }
            "the reader's name" => {
                written.readers.push(type_of("Int64").reader());
                let place = name_at(&written, &type_of("Int64").reader());
                (written.file(), place)
            }
            "the later reader's name" => {
                let later = format!("{}, tail", type_of("Page").reader());
                written.readers.push(later.clone());
                let readers = written.readers.len() as u8;
                written.objects[objects / 2] = readers;
                let place = name_at(&written, &later);
                (written.file(), place)
            }
            "the later key (its type id)" => {
                // A dictionary of Byte by String with one key twice, as another shared object.
                let mut dictionary = Written {
                    readers: written.readers.clone(),
                    ..Written::default()
                };
                let of = type_of("Dictionary");
                let of = Type {
                    arguments: vec![type_of("String"), type_of("Byte")],
                    ..of
                };
                dictionary.object(&of);
                // The count, then the one key and value again.
                dictionary.objects[1] = 2;
                let entry = dictionary.objects[5..].to_vec();
                let before = written.objects.len() + dictionary.objects.len();
                dictionary.objects.extend(entry);
                written.readers = dictionary.readers;
                written.objects.extend(&dictionary.objects);
                written.shared = 2;
                let file = written.file();
                let place = file.len() - written.objects.len() + before;
                (file, place)
            }
            "its type id" => {
                let null = [&[0][..], &written.objects[objects / 2..]].concat();
                written.objects = null;
                let file = written.file();
                let place = file.len() - written.objects.len();
                (file, place)
            }
            "the reference" => {
                *written.objects.last_mut().expect("a reference") = 0;
                let file = written.file();
                let last = file.len() - 1;
                (file, last)
            }
            other => panic!("{other}"),
        };
        let number: u32 = cells[0].parse().expect("a refusal");
        assert_eq!(judged(&file), Some((number, place)), "{cells:?}");
    }
}

#[test]
fn the_codes_of_vertex_elements_are_the_librarys() {
    let lines = tables("Gauge meshes").swap_remove(2);
    assert_eq!(lines.len(), 13);
    for (code, cells) in (0..).zip(&lines) {
        assert_eq!(cells[0], code.to_string());
        let format = ElementFormat::of_code(code);
        let name = format.map_or("", ElementFormat::name);
        let bytes = format.map_or(String::new(), |it| it.bytes().to_string());
        assert_eq!((&cells[1][..], &cells[2]), (name, &bytes));
        let usage = ElementUsage::of_code(code).map(ElementUsage::name);
        assert_eq!(Some(&cells[3][..]), usage);
    }
}
