//! Explanations held to how each file was broken: the generator knows the field, what it put there and what is left.
//!
//! The words are put together here from the writer's fields and rows alone, and must be those of `explain`; so must the
//! reader that is meant, its name and the mark in it.

mod name_words;

use corpus::writer::{Field, Role, Row, Written};
use fuzz::broken::{self, Broken, EntryFault, Fault};
use fuzz::{enums, Known};
use name_words::name_words;
use std::collections::BTreeMap;
use std::ops::Range;
use xnb::{Kind, Loader, Shape, WORDS_PER_ROW};

/// How many files are tried without a list and with one, and from which seed on; FUZZ_FILES and FUZZ_FIRST in the
/// environment ask for others.
fn seeds() -> Range<u64> {
    let asked = |name: &str| std::env::var(name).ok().and_then(|it| it.parse().ok());
    let first = asked("FUZZ_FIRST").unwrap_or(0);
    first..first + asked("FUZZ_FILES").unwrap_or(40_000)
}

/// A number of bytes in words.
fn bytes(count: u64) -> String {
    match count {
        1 => "1 byte".to_string(),
        _ => format!("{count} bytes"),
    }
}

fn hex(bytes: &[u8]) -> String {
    let shown: Vec<String> = bytes.iter().map(|byte| format!("{byte:02X}")).collect();
    shown.join(" ")
}

fn little_endian(bytes: &[u8]) -> u32 {
    u32::from_le_bytes(bytes.try_into().expect("four bytes"))
}

/// The value of a seven-bit number.
fn seven(bytes: &[u8]) -> u32 {
    let add = |value: u64, byte: &u8| value << 7 | u64::from(byte & 0x7F);
    bytes.iter().rev().fold(0, add) as u32
}

fn takes(what: &str, size: u64, left: usize) -> String {
    format!("{what} takes {}, {left} left", bytes(size))
}

/// The row above this one, and which of its children this one is.
fn place_below_parent(rows: &[Row], row: usize) -> Option<(usize, usize)> {
    let parent = rows[row][4].checked_sub(1)? as usize;
    let is_sibling = |it: &&Row| it[4] as usize == parent + 1;
    let before = rows[parent..row].iter().filter(is_sibling).count();
    Some((parent, before))
}

/// A file before it was broken, and a field of it.
struct Made<'b> {
    before: &'b Written,
    number: usize,
    field: Field,
}

impl<'b> Made<'b> {
    fn of(before: &'b Written, number: usize) -> Made<'b> {
        let field = before.fields[number];
        Made {
            before,
            number,
            field,
        }
    }

    /// The bytes of a field.
    fn bytes_of(&self, field: Field) -> &[u8] {
        &self.before.bytes[field.start..field.end]
    }

    /// The field so many before this one.
    fn earlier(&self, distance: usize) -> Field {
        self.before.fields[self.number - distance]
    }

    /// Which reader the field belongs to, counted from 1.
    fn reader(&self) -> usize {
        let fields = self.before.fields[..=self.number].iter();
        fields
            .filter(|field| field.role == Role::NameLength)
            .count()
    }

    /// The number of the innermost row that the field stands in.
    fn row(&self) -> usize {
        let start = self.field.start as u32;
        let holds = |row: &Row| row[1] <= start && start < row[1] + row[2];
        self.before.rows.iter().rposition(holds).expect("a row")
    }

    fn place_below_parent(&self) -> Option<(usize, usize)> {
        place_below_parent(&self.before.rows, self.row())
    }

    /// What a seven-bit number is.
    fn seven_name(&self) -> String {
        match self.field.role {
            Role::ReaderCount => "the reader count".to_string(),
            Role::SharedCount => "the shared count".to_string(),
            Role::NameLength => format!("the length of the name of reader {}", self.reader()),
            Role::FreeTypeId | Role::BoundTypeId => "the type id".to_string(),
            Role::ResourceId => "the resource id".to_string(),
            Role::TextCount => "the count of a text".to_string(),
            role => panic!("{role:?} is no seven-bit number"),
        }
    }

    fn is_seven(&self) -> bool {
        matches!(
            self.field.role,
            Role::ReaderCount
                | Role::SharedCount
                | Role::NameLength
                | Role::FreeTypeId
                | Role::BoundTypeId
                | Role::ResourceId
                | Role::TextCount
        )
    }

    /// What a field of a fixed size is.
    fn fixed_name(&self) -> String {
        let kind_of = |row: usize| Kind::of_number(self.before.rows[row][0]).expect("a kind");
        match self.field.role {
            Role::ReaderVersion => format!("the version of reader {}", self.reader()),
            Role::ElementCount => self.number_name().unwrap_or_else(|| {
                let kind = kind_of(self.row());
                format!("the count of a value of kind {kind}")
            }),
            Role::NullableFlag => "the first byte of a value of kind Nullable".to_string(),
            Role::SurfaceFormat => "the format of a Texture2D".to_string(),
            Role::Side => format!("the {} of a Texture2D", self.side()),
            Role::LevelCount => "the level count of a Texture2D".to_string(),
            Role::LevelSize => "the size of an image level".to_string(),
            Role::IndexSize(_) => "the data size of an IndexBuffer".to_string(),
            Role::Stride => "the stride of a VertexDeclaration".to_string(),
            Role::ElementFormat => "the format of an element".to_string(),
            Role::ElementUsage => "the usage of an element".to_string(),
            Role::VertexCount(_) => "the vertex count of a VertexBuffer".to_string(),
            Role::BoneReference(_) => "a bone reference".to_string(),
            Role::Fixed(_) => self.number_name().unwrap_or_else(|| {
                let kind = kind_of(self.row());
                format!("a value of kind {kind}")
            }),
            role => panic!("{role:?} has no fixed size"),
        }
    }

    fn side(&self) -> &'static str {
        match self.earlier(1).role {
            Role::SurfaceFormat => "width",
            _ => "height",
        }
    }

    /// What a number of a mesh is by its place among the fields.
    fn number_name(&self) -> Option<String> {
        let (parent, child) = self.place_below_parent()?;
        match self.before.rows[parent][0] {
            38 => {
                let elements = ["offset", "format", "usage", "usage index"];
                Some(match child {
                    0 => "the stride of a VertexDeclaration".to_string(),
                    1 => "the element count of a VertexDeclaration".to_string(),
                    _ => format!("the {} of an element", elements[(child - 2) % 4]),
                })
            }
            40 => self.model_fields(parent).swap_remove(child),
            _ => None,
        }
    }

    /// The numbers of a model by name, in the order of its children; none for what is no number.
    fn model_fields(&self, model: usize) -> Vec<Option<String>> {
        let rows = self.before.rows[model..].iter();
        let children = rows.filter(|it| it[4] as usize == model + 1);
        let number = |row: &Row| match row[2] {
            4 => little_endian(&self.before.bytes[row[1] as usize..][..4]),
            _ => 0,
        };
        let numbers: Vec<u32> = children.map(number).collect();
        let mut fields = vec![Some("the bone count of a Model".to_string())];
        let bones = numbers[0];
        fields.extend((0..2 * bones).map(|_| None));
        for _ in 0..bones {
            fields.push(None);
            let children = numbers[fields.len()];
            fields.push(Some("the child count of a bone".to_string()));
            fields.extend((0..children).map(|_| None));
        }
        let meshes = numbers[fields.len()];
        fields.push(Some("the mesh count of a Model".to_string()));
        for _ in 0..meshes {
            fields.extend((0..5).map(|_| None));
            let parts = numbers[fields.len()];
            fields.push(Some("the part count of a mesh".to_string()));
            for _ in 0..parts {
                for what in [
                    "vertex offset",
                    "vertex count",
                    "start index",
                    "primitive count",
                ] {
                    fields.push(Some(format!("the {what} of a mesh part")));
                }
                fields.extend((0..4).map(|_| None));
            }
        }
        fields.extend([None, None]);
        assert_eq!(fields.len(), numbers.len(), "a model's children");
        fields
    }

    /// What stands behind a count or a size, or in the place of a field that is data.
    fn data_name(&self) -> String {
        match self.field.role {
            Role::NameLength => format!("the name of reader {}", self.reader()),
            Role::TextCount => "the text".to_string(),
            Role::LevelSize => "the data of an image level".to_string(),
            Role::IndexSize(_) => "the index data".to_string(),
            Role::VertexCount(_) => "the vertex data".to_string(),
            Role::DataBytes => match self.earlier(1).role {
                Role::IndexSize(_) => "the index data".to_string(),
                _ => "the vertex data".to_string(),
            },
            role => panic!("no data behind {role:?}"),
        }
    }

    /// The words where the file ends so many bytes behind the field's start.
    fn cut_words(&self, left: usize) -> String {
        let Field {
            role,
            start,
            end,
            data_end,
        } = self.field;
        let size = end - start;
        if role == Role::DataBytes {
            return takes(&self.data_name(), size as u64, left);
        }
        if left >= size {
            let data = data_end - end;
            return takes(&self.data_name(), data as u64, left - size);
        }
        if self.is_seven() {
            let what = self.seven_name();
            return match left {
                0 => format!("{what} is due where the file ends"),
                _ => format!("{what} goes on behind the file's end"),
            };
        }
        if role == Role::Character {
            return match left {
                0 => takes("a value of kind Char", 1, 0),
                _ => {
                    let lead = self.before.bytes[start];
                    takes(
                        &format!("a Char that begins with {lead:02X}"),
                        size as u64,
                        left,
                    )
                }
            };
        }
        takes(&self.fixed_name(), size as u64, left)
    }
}

/// The words for bytes that stand in the place of a field.
fn field_words(broken: &Broken, number: usize, put: &[u8], refusal: u32) -> String {
    let made = Made::of(&broken.before, number);
    let field = made.field;
    if refusal == 8 {
        let (what, fifth) = (made.seven_name(), put[4]);
        return format!("{what} has the fifth byte {fifth:02X}, above 0F");
    }
    let left = broken.case.bytes.len() - field.start - put.len();
    let within = |what: &str, least: u32, most: u32| {
        let value = little_endian(put);
        format!("Texture2D: the {what} is {value}; only {least} to {most} are taken")
    };
    let listed = |what: &str, last: u32| {
        let value = little_endian(put) as i32;
        format!("VertexDeclaration: the element {what} is {value}; only 0 to {last} are taken")
    };
    match (field.role, refusal) {
        (Role::ReaderCount, 9) => format!("the reader count is {}, the limit 64", seven(put)),
        (Role::SharedCount, 9) => format!("the shared count is {}, the limit 256", seven(put)),
        (Role::NameLength, 9) => {
            let what = made.seven_name();
            match seven(put) {
                0 => format!("{what} is 0, a name has at least 1 byte"),
                length => format!("{what} is {length}, the limit 1024"),
            }
        }
        (Role::ReaderVersion, 12) => {
            let (reader, version) = (made.reader(), little_endian(put));
            format!("the version of reader {reader} is {version}; only 0 is taken")
        }
        (Role::FreeTypeId | Role::BoundTypeId, 13) => {
            let (id, readers) = (seven(put), broken.targets.len());
            match broken.targets.get((id as usize).wrapping_sub(1)) {
                Some(target) => format!("reader {id} is for {} and never invoked", target.name),
                None => format!("the type id is {id}, the reader list has {readers}"),
            }
        }
        (Role::BoundTypeId, 14) => undeclared_words(broken, made.row(), seven(put)),
        (Role::ResourceId, 16) => {
            let (id, shared) = (seven(put), broken.before.shared);
            format!("the resource id is {id}, the shared count {shared}")
        }
        (Role::TextCount, 1) => takes("the text", seven(put).into(), left),
        (Role::TextCount, 15) => {
            let count = put.iter().position(|byte| *byte < 0x80).expect("an end") + 1;
            let text = &put[count..];
            // The first byte from which on no character is whole.
            let valid = |end: &usize| std::str::from_utf8(&text[..*end]).is_ok();
            let good = (0..text.len()).rfind(valid).expect("no byte");
            let (at, byte) = (field.start + count + good, text[good]);
            format!("String: the text is not UTF-8 from byte {at} on, which is {byte:02X}")
        }
        (Role::NullableFlag, 15) => {
            format!("Nullable: the byte is {}; only 0 and 1 are taken", put[0])
        }
        (Role::Character, 15) => match put[0] {
            0xC2..=0xEF => format!("Char: the bytes are {}, no character in UTF-8", hex(put)),
            lead => {
                let begins = "no character of 1 to 3 bytes begins so";
                format!("Char: the first byte is {lead:02X}, {begins}")
            }
        },
        (Role::SurfaceFormat, 15) => within("format", 0, 18),
        (Role::Side, 15) => within(made.side(), 1, 4096),
        (Role::LevelCount, 15) => {
            let side = |distance| little_endian(made.bytes_of(made.earlier(distance)));
            within("level count", 1, second::longest_chain(side(2), side(1)))
        }
        (Role::LevelSize, 15) => {
            let (row, child) = made.place_below_parent().expect("a texture");
            let start = broken.before.rows[row][1] as usize;
            let is_format = |it: &&Field| it.role == Role::SurfaceFormat && it.start >= start;
            let first = broken.before.fields.iter().position(|it| is_format(&it));
            let first = first.expect("a format");
            let number = |at: usize| {
                let field = broken.before.fields[first + at];
                little_endian(made.bytes_of(field))
            };
            let (format, level) = (number(0), child as u32);
            let [width, height] = [number(1), number(2)].map(|it| (it >> level).max(1));
            let (size, right) = (little_endian(put), field.data_end - field.end);
            format!(
                "ImageLevel: the size is {size}, {width} by {height} in format {format} takes {right}"
            )
        }
        (Role::Fixed(11), 15) => format!("Boolean: the byte is {}; only 0 and 1 are taken", put[0]),
        (Role::Fixed(21), 15) => {
            let packed = u64::from_le_bytes(put.try_into().expect("eight bytes"));
            match packed >> 62 {
                zone @ 3.. => format!("DateTime: the high two bits are {zone}, the limit 2"),
                _ => {
                    let (ticks, last) = (packed & ((1 << 62) - 1), 3_155_378_975_999_999_999_u64);
                    format!("DateTime: the ticks are {ticks}, the limit {last}")
                }
            }
        }
        (Role::Fixed(22), 15) => {
            let fourth = little_endian(&put[12..]);
            match fourth & 0x7F00_FFFF {
                0 => format!(
                    "Decimal: the scale is {}, the limit 28",
                    fourth >> 16 & 0xFF
                ),
                _ => {
                    let rule = "bits 0 to 15 and 24 to 30 must be zero";
                    format!("Decimal: the fourth word is {fourth:08X}, {rule}")
                }
            }
        }
        (Role::IndexSize(multiple), 15) => {
            let size = little_endian(put);
            format!("IndexBuffer: the data size is {size}; only a multiple of {multiple} is taken")
        }
        (Role::IndexSize(_), 1) => takes("the index data", little_endian(put).into(), left),
        (Role::VertexCount(stride), 1) => {
            let size = u64::from(little_endian(put)) * u64::from(stride);
            takes("the vertex data", size, left)
        }
        (Role::ElementFormat, 15) => listed("format", 11),
        (Role::ElementUsage, 15) => listed("usage", 12),
        (Role::BoneReference(bones), 15) => {
            let number = match put.len() {
                1 => u32::from(put[0]),
                _ => little_endian(put),
            };
            format!("BoneReference: the number is {number}, the bone count {bones}")
        }
        (role, number) => panic!("{role:?} refused with {number}"),
    }
}

/// The words for an object by this reader, where its row has another type declared.
fn undeclared_words(broken: &Broken, row: usize, id: u32) -> String {
    let rows = &broken.before.rows;
    let target = |id: u32| &broken.targets[id as usize - 1];
    let (parent, child) = place_below_parent(rows, row).expect("a declared type");
    // Elements are declared by the container's reader; a field of a font, a page or a model has one type alone.
    let declared = match rows[parent][0] {
        17..=19 => {
            let arguments = &target(rows[parent][5]).arguments;
            &arguments[child % arguments.len()]
        }
        _ => &target(rows[row][5]).name,
    };
    let found = &target(id).name;
    format!("declared {declared}, found {found} by reader {id}")
}

/// The words for a header.
fn header_words(file: &[u8]) -> String {
    let Some(header) = file.get(..10) else {
        return format!("the header takes 10 bytes, the file has {}", file.len());
    };
    let (platform, version, flags) = (header[3], header[4], header[5]);
    let length = little_endian(&header[6..]);
    match header {
        [b'X', b'N', b'B', ..] => {}
        _ => {
            return format!(
                "the file begins with {}, XNB is 58 4E 42",
                hex(&header[..3])
            )
        }
    }
    match (platform, version, flags) {
        (b'w' | b'm' | b'x', 5, 0..=1) => {
            format!(
                "the header says {length} bytes, the file has {}",
                file.len()
            )
        }
        (b'w' | b'm' | b'x', 5, 0x80..) => format!("the flags are {flags:02X}, bit 80 is set"),
        (b'w' | b'm' | b'x', 5, _) => {
            format!("the flags are {flags:02X}; only 00 and 01 are taken")
        }
        (b'w' | b'm' | b'x', _, _) => format!("the version is {version}; only 5 is taken"),
        _ => format!("the platform is {platform:02X}, w, m and x are 77, 6D and 78"),
    }
}

/// The words for a fault that the file was made with.
fn planted_words(broken: &Broken, number: u32, place: usize) -> String {
    let Written { rows, bytes, .. } = &broken.before;
    match number {
        14 => {
            let is_object = |row: &Row| row[1] as usize == place;
            let row = rows.iter().rposition(is_object).expect("an object");
            undeclared_words(broken, row, rows[row][5])
        }
        18 => "the value's depth is 33, the limit 32".to_string(),
        17 => {
            let is_reference = |row: &Row| row[0] == 36 && row[1] as usize == place;
            let row = rows.iter().position(is_reference).expect("a reference");
            let id = rows[row][5];
            let objects: Vec<&Row> = rows.iter().filter(|it| it[4] == 0).collect();
            let resource = objects[id as usize];
            let target = &broken.targets[resource[5] as usize - 1].name;
            let found = format!("found {target} as resource {id} at byte {}", resource[1]);
            let (parent, child) = place_below_parent(rows, row).expect("a parent");
            let wanted = match rows[parent][0] {
                34 => ["Graphics.Texture2D", "Page"][child - 2],
                // The three references of a mesh part stand together.
                40 => {
                    let before = rows[parent..row].iter().rev();
                    let before = before.filter(|it| it[4] as usize == parent + 1);
                    let together = before.take_while(|it| it[0] == 36).count();
                    ["Graphics.VertexBuffer", "Graphics.IndexBuffer", ""][together]
                }
                kind => panic!("a reference below kind {kind}"),
            };
            match wanted {
                "" => format!("declared an effect, which must be null, {found}"),
                "Page" => format!("declared Coach.Console.Page, {found}"),
                wanted => format!("declared Microsoft.Xna.Framework.{wanted}, {found}"),
            }
        }
        22 => {
            // The font's rows: texture, glyphs, cropping, characters, and behind two numbers the kerning.
            let is_font = |row: &Row| row[0] == 33 && row[1] as usize <= place;
            let font = rows.iter().rposition(is_font).expect("a font");
            let children: Vec<(usize, &Row)> = rows
                .iter()
                .enumerate()
                .filter(|(_, it)| it[4] as usize == font + 1)
                .collect();
            let named = [
                ("texture", children[0]),
                ("glyphs", children[1]),
                ("cropping", children[2]),
                ("characters", children[3]),
                ("kerning", children[6]),
            ];
            if let Some((name, _)) = named.iter().find(|(_, (_, row))| row[0] == 0) {
                return format!("an object of the font is null: its {name}");
            }
            let counts: Vec<u32> = named[1..].iter().map(|(_, (_, row))| row[3]).collect();
            if counts.iter().any(|it| *it != counts[2]) {
                let shown: Vec<String> = named[1..]
                    .iter()
                    .map(|(name, (_, row))| format!("{name} {}", row[3]))
                    .collect();
                return format!("the counts of the lists differ: {}", shown.join(", "));
            }
            let list = children[3].0;
            let letters: Vec<char> = rows[list..]
                .iter()
                .filter(|it| it[4] as usize == list + 1)
                .map(|it| {
                    let text = &bytes[it[1] as usize..][..it[2] as usize];
                    let text = std::str::from_utf8(text).expect("a character");
                    text.chars().next().expect("a character")
                })
                .collect();
            let pair = letters.windows(2).find(|it| it[0] >= it[1]);
            let [one, two] = pair.expect("a pair") else {
                panic!("two characters");
            };
            let (one, two) = (u32::from(*one), u32::from(*two));
            format!("the characters do not rise: U+{two:04X} comes behind U+{one:04X}")
        }
        _ => panic!("{number} is not planted"),
    }
}

/// The words for an entry of a list.
fn entry_words(entry: usize, name: &[u8], fault: EntryFault) -> String {
    let name = match String::from_utf8_lossy(name) {
        name if name.is_empty() => String::new(),
        name => format!(", {name}"),
    };
    let wrong = match fault {
        EntryFault::CutShort => "the list ends in it".to_string(),
        EntryFault::Size(size) => format!("the size is {size}; only 1, 2, 4 and 8 are taken"),
        EntryFault::EmptyName => "the name is empty".to_string(),
        EntryFault::NameByte(byte) => {
            let only = "only letters, digits, ., _ and + are taken";
            format!("the name has the byte {byte:02X}; {only}")
        }
        EntryFault::KnownType => "a type of this name is known already".to_string(),
        EntryFault::Listed(before) => format!("the name is listed before, as entry {before}"),
    };
    format!("entry {entry} of the enum list{name}: {wrong}")
}

/// The words for a broken file.
fn expected_words(broken: &Broken, fault: &Fault, number: u32, place: usize) -> String {
    let file = &broken.case.bytes;
    match fault {
        Fault::Header => header_words(file),
        Fault::Rows(room) => {
            format!("the table has room for {room} rows, this value needs one more")
        }
        Fault::LeftOver(count) => left_over_words(*count),
        Fault::Cut { field } => {
            let made = Made::of(&broken.before, *field);
            made.cut_words(file.len() - made.field.start)
        }
        Fault::Field { field, bytes } => field_words(broken, *field, bytes, number),
        Fault::Name {
            reader,
            name,
            wrong,
        } => name_words(*reader, name, wrong),
        Fault::Planted => planted_words(broken, number, place),
        Fault::Resized(size) => match (number, file.len() - place) {
            (20, left) => left_over_words(left),
            (_, left) => takes("a value of kind Enum", u64::from(*size), left),
        },
        Fault::Entry { name, fault } => entry_words(place, name, *fault),
    }
}

fn left_over_words(count: usize) -> String {
    let count = bytes(count as u64);
    format!("the last object ends there, left over: {count}")
}

/// The reader that is meant: its number, the place of its name and the name itself.
fn expected_reader(
    broken: &Broken,
    fault: &Fault,
    number: u32,
    place: usize,
) -> Option<(usize, usize, Vec<u8>)> {
    let before = &broken.before;
    let reader = match (fault, number) {
        (
            Fault::Name {
                reader,
                name,
                wrong,
            },
            _,
        ) => return Some((*reader, place - wrong.place, name.clone())),
        (Fault::Field { field, .. }, 12) => Made::of(before, *field).reader(),
        (Fault::Field { bytes, .. }, 13 | 14) => seven(bytes) as usize,
        (Fault::Planted, 14) => 2,
        _ => return None,
    };
    let name = broken::names(before).nth(reader - 1)?;
    let bytes = &before.bytes[name.end..name.data_end];
    Some((reader, name.end, bytes.to_vec()))
}

/// What was broken, to count by.
fn sort_of(broken: &Broken) -> String {
    let role = |field: &usize| format!("{:?}", broken.before.fields[*field].role);
    let name = match &broken.fault {
        Some(Fault::Cut { field }) => format!("cut {}", role(field)),
        Some(Fault::Field { field, .. }) => role(field),
        Some(Fault::Name { wrong, .. }) => format!("Name {:?}", wrong.fault),
        Some(Fault::Entry { fault, .. }) => format!("Entry {fault:?}"),
        Some(fault) => format!("{fault:?}"),
        None => "nothing".to_string(),
    };
    // Without the numbers in it.
    name.replace(|it: char| it.is_ascii_digit(), "")
}

/// Compares all that `explain` says of each file that is refused, and counts by what was broken and by number.
fn compare(case: fn(u64) -> Broken) -> BTreeMap<(String, u32), u32> {
    let mut counts = BTreeMap::new();
    for seed in seeds() {
        let broken = case(seed);
        let Some(Known::Refused { number, place }) = broken.case.known else {
            continue;
        };
        let fault = broken.fault.as_ref().expect("a fault");
        let file = &broken.case.bytes;
        let loader = Loader::new().with_enum_bytes(&broken.enums);
        let mut words = vec![0; broken.case.words];
        let refused = loader.load_words(Shape::Rows, file, &mut words);
        let refused = refused.expect_err("a broken file");
        let answer = (refused.refusal.number(), refused.place as usize);
        assert_eq!(answer, (number, place), "seed {seed}");
        let room = broken.case.words / WORDS_PER_ROW;
        let explanation = loader.explain(file, refused, room);
        let explanation = explanation.unwrap_or_else(|| panic!("seed {seed}: no words"));
        let expected = expected_words(&broken, fault, number, place);
        assert_eq!(explanation.found, expected, "seed {seed}");
        let reader = explanation.reader;
        let reader = reader.map(|it| (it.number, it.first, it.bytes.to_vec()));
        let expected = expected_reader(&broken, fault, number, place);
        assert_eq!(reader, expected, "seed {seed}");
        let mark = match fault {
            Fault::Name { wrong, .. } => Some(wrong.place..wrong.place + wrong.length),
            _ => None,
        };
        assert_eq!(explanation.mark, mark, "seed {seed}");
        *counts.entry((sort_of(&broken), number)).or_default() += 1;
    }
    println!("{} sorts: {counts:?}", counts.len());
    counts
}

/// Every field with every refusal that it can meet, header and rows, each field cut, and each fault of a name.
#[test]
fn words_are_those_of_what_was_broken() {
    let counts = compare(broken::case);
    assert!(counts.len() >= 80, "{} sorts", counts.len());
}

/// The same under lists of enum types, and each fault of a list.
#[test]
fn words_are_those_of_what_was_broken_with_enums() {
    let counts = compare(enums::broken);
    assert!(counts.len() >= 90, "{} sorts", counts.len());
}
