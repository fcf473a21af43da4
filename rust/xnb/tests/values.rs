//! Values by row, held to what was written and to the proved lookups.

use corpus::enums::TARGET_NAMES;
use corpus::folder::{kept_files, kept_files_with_enums};
use corpus::lawful::{font_fields, font_readers, page_to, PAGE_READERS};
use corpus::readers::*;
use corpus::values::*;
use corpus::writer::{write, File};
use xnb::{
    ByColumns, ByRows, DateTime, Decimal, Detail, Grid, Kind, Loader, Place, Platform, Point,
    Profile, Rectangle, Refusal, Refused, Shaped, Table, TimeSpan, Value, Zone,
};

const FILES: u64 = 10_000;

fn refused<T>(refusal: Refusal, place: u32) -> Result<T, Refused> {
    Err(Refused { refusal, place })
}

/// A list of objects of these values, each by the reader of this name; the list is row 0.
fn objects(values: Vec<(String, corpus::writer::Value)>) -> File {
    let mut names = vec![list_of("System.Object")];
    let mut elements = Vec::new();
    for (name, value) in values {
        names.push(name);
        elements.push(object(names.len() as u32, value));
    }
    file(&names, object(1, list(elements)), vec![])
}

/// The value of each row below the list.
fn below<'f, S: Shaped>(table: &Grid<'f, S>) -> Vec<Value<'f>> {
    let values = table.children(0).map(|row| table.value(row));
    values.collect::<Result<_, _>>().expect("values of rows")
}

fn check_both(file: &File, check: fn(&Grid<ByRows>), same: fn(&Grid<ByColumns>)) {
    for width in [1, 5] {
        let mut file = file.clone();
        corpus::lawful::pad_file(width, &mut file);
        let bytes = write(&file).bytes;
        check(&Grid::load(&bytes).expect("a lawful file"));
        same(&Grid::load(&bytes).expect("a lawful file"));
    }
}

/// Runs a check over a file by rows and in columns, with numbers as short as can be and padded.
macro_rules! in_both_shapes {
    ($file:expr, $check:ident) => {
        check_both(&$file, $check::<ByRows>, $check::<ByColumns>)
    };
}

#[test]
fn numbers_are_as_they_were_written() {
    fn check<S: Shaped>(table: &Grid<S>) {
        use Value::*;
        let expected = [
            Byte(255),
            SByte(-128),
            Int16(-2),
            UInt16(65_534),
            Int32(i32::MIN),
            UInt32(u32::MAX),
            Int64(i64::MIN),
            UInt64(u64::MAX),
            Single(-1.5),
            Double(f64::MIN_POSITIVE),
            Boolean(true),
            Boolean(false),
        ];
        assert_eq!(below(table), expected);
        assert_eq!(table.value(0), Ok(List(12)));
    }
    let values = vec![
        (BYTE.into(), byte(255)),
        (SBYTE.into(), sbyte(-128)),
        (INT16.into(), int16(-2)),
        (UINT16.into(), uint16(65_534)),
        (INT32.into(), int32(i32::MIN)),
        (UINT32.into(), uint32(u32::MAX)),
        (INT64.into(), int64(i64::MIN)),
        (UINT64.into(), uint64(u64::MAX)),
        (SINGLE.into(), single(-1.5)),
        (DOUBLE.into(), double(f64::MIN_POSITIVE)),
        (BOOLEAN.into(), boolean(true)),
        (BOOLEAN.into(), boolean(false)),
    ];
    in_both_shapes!(objects(values), check);
}

#[test]
fn texts_times_and_decimals_are_as_they_were_written() {
    fn check<S: Shaped>(table: &Grid<S>) {
        let decimal = Decimal {
            negative: true,
            digits: 3 << 64 | 2 << 32 | 1,
            places: 28,
        };
        let moment = DateTime {
            ticks: 3_155_378_975_999_999_999,
            zone: Zone::Local,
        };
        let expected = [
            Value::Char('€'),
            Value::String("größer"),
            Value::String(""),
            Value::TimeSpan(TimeSpan { ticks: -1 }),
            Value::DateTime(moment),
            Value::Decimal(decimal),
        ];
        assert_eq!(below(table), expected);
        assert_eq!(table.value_bytes(1), Ok("€".as_bytes()));
        assert_eq!(table.value_bytes(2), Ok("größer".as_bytes()));
        assert_eq!(table.value_bytes(3), Ok(&[][..]));
    }
    let values = vec![
        (CHAR.into(), character('€')),
        (STRING.into(), text("größer")),
        (STRING.into(), text("")),
        (TIME_SPAN.into(), time_span(-1)),
        (DATE_TIME.into(), date_time(2, 3_155_378_975_999_999_999)),
        (DECIMAL.into(), decimal([1, 2, 3, 1 << 31 | 28 << 16])),
    ];
    in_both_shapes!(objects(values), check);
}

#[test]
fn places_and_colours_are_as_they_were_written() {
    fn check<S: Shaped>(table: &Grid<S>) {
        let sixteen = std::array::from_fn(|index| index as f32);
        let (x, y, width, height) = (-1, 2, 3, i32::MAX);
        let area = Rectangle {
            x,
            y,
            width,
            height,
        };
        let expected = [
            Value::Vector2([1.0, 2.0]),
            Value::Vector3([1.0, 2.0, 3.0]),
            Value::Vector4([1.0, 2.0, 3.0, 4.0]),
            Value::Matrix(sixteen),
            Value::Quaternion([0.0, 0.0, 0.0, 1.0]),
            Value::Color([1, 2, 3, 4]),
            Value::Point(Point { x, y }),
            Value::Rectangle(area),
        ];
        assert_eq!(below(table), expected);
    }
    let values = vec![
        (VECTOR2.into(), vector2([1.0, 2.0])),
        (VECTOR3.into(), vector3([1.0, 2.0, 3.0])),
        (VECTOR4.into(), vector4([1.0, 2.0, 3.0, 4.0])),
        (MATRIX.into(), matrix(std::array::from_fn(|it| it as f32))),
        (QUATERNION.into(), quaternion([0.0, 0.0, 0.0, 1.0])),
        (COLOR.into(), color([1, 2, 3, 4])),
        (POINT.into(), point([-1, 2])),
        (RECTANGLE.into(), rectangle([-1, 2, 3, i32::MAX])),
    ];
    in_both_shapes!(objects(values), check);
}

#[test]
fn values_that_hold_others_report_how_many() {
    fn check<S: Shaped>(table: &Grid<S>) {
        let nullable = table.children(0).nth(1).expect("the second value");
        let expected = [
            Value::Nullable(None),
            Value::Nullable(Some(nullable + 1)),
            Value::Array(3),
            Value::Dictionary(2),
            Value::Null,
        ];
        assert_eq!(below(table), expected);
        assert_eq!(table.value(nullable + 1), Ok(Value::Int32(7)));
        let array = table.children(0).nth(2).expect("the third value");
        assert_eq!(table.value_bytes(array), Ok(&[1, 2, 3][..]));
        assert_eq!(table.value_bytes(nullable), Ok(&[1, 7, 0, 0, 0][..]));
        assert_eq!(
            table.value_bytes(table.loaded().rows as u32 - 1),
            Ok(&[][..])
        );
    }
    let names = [
        list_of("System.Object"),
        nullable_of("System.Int32"),
        array_of("System.Byte"),
        dictionary_of("System.Int32", "System.Byte"),
    ];
    let pairs = vec![(int32(1), byte(1)), (int32(1), byte(2))];
    let elements = vec![
        object(2, nothing()),
        object(2, something(int32(7))),
        object(3, array([1, 2, 3].map(byte).into())),
        object(4, dictionary(pairs)),
        null(),
    ];
    let file = file(&names, object(1, list(elements)), vec![]);
    in_both_shapes!(file, check);
}

#[test]
fn an_enum_has_the_size_of_its_list() {
    let names = [list_of("Coach.Door"), enum_of("Coach.Seat")];
    let doors = list(vec![fixed(15, &[0xFE, 0xFF]), fixed(15, &[1, 0])]);
    let shared = vec![object(2, fixed(15, &[0xFE, 0xFF, 0xFF, 0xFF]))];
    let bytes = write(&file(&names, object(1, doors), shared)).bytes;
    let enums = xnb::EnumList::new([("Coach.Door", 2)]).expect("a lawful list");
    let table = Loader::new()
        .with_enums(&enums)
        .load(&bytes)
        .expect("a lawful file");
    let number = |row| match table.value(row) {
        Ok(Value::Enum(number)) => (number.size(), number.unsigned(), number.signed()),
        other => panic!("{other:?}"),
    };
    assert_eq!(number(1), (2, 0xFFFE, -2));
    assert_eq!(number(2), (2, 1, 1));
    assert_eq!(number(3), (4, 0xFFFF_FFFE, -2));
}

#[test]
fn a_font_has_its_glyphs() {
    fn check<S: Shaped>(table: &Grid<S>) {
        let font = table.font(0).expect("a font");
        assert_eq!((font.line_spacing, font.spacing), (12, 0.5));
        assert_eq!((font.default, font.texture), (Some('b'), 1));
        let characters: Vec<char> = font.glyphs().iter().map(|it| it.character).collect();
        assert_eq!(characters, ['a', 'b', 'ö']);
        let glyph = font.glyph('ö').expect("a glyph");
        assert_eq!((glyph.bounds.x, glyph.cropping.y), (2, 12));
        let kerning = glyph.kerning;
        assert_eq!(
            (kerning.left, kerning.width, kerning.right),
            (2.0, 12.0, 22.0)
        );
        assert_eq!(font.glyph_or_default('?'), font.glyph('b'));
        let picture = table.picture(font.texture).expect("its texture");
        assert_eq!(picture.texture().levels, 1);
        assert_eq!(table.font(1), refused(Refusal::OtherKind, 1));
    }
    let mut fields = font_fields("abö");
    let boxes = |y| (0..3).map(|x| rectangle([x, y + x, 1, 1])).collect();
    fields.glyphs = bound_object(3, list(boxes(0)));
    fields.cropping = bound_object(3, list(boxes(10)));
    let kerning = (0..3).map(|it| vector3([0.0, 10.0, 20.0].map(|distance| distance + it as f32)));
    fields.kerning = bound_object(5, list(kerning.collect()));
    fields.default_character = something(character('b'));
    in_both_shapes!(
        file(&font_readers(), object(1, font(fields)), vec![]),
        check
    );
}

#[test]
fn a_page_names_its_texture_and_the_next() {
    fn check<S: Shaped>(table: &Grid<S>) {
        let page = table.page(0).expect("a page");
        assert_eq!(page.title, Some("a"));
        assert_eq!((page.area.width, page.area.height), (64, 48));
        assert_eq!((page.texture_id, page.next_id), (Some(1), Some(2)));
        assert_eq!(
            (page.texture, page.next),
            (table.resource(1), table.resource(2))
        );
        let next = table.page(page.next.expect("a row")).expect("a page");
        assert_eq!(next.title, Some("b"));
        // A reference to a null resource names no row.
        assert_eq!((next.texture_id, next.texture), (Some(3), None));
        assert_eq!((next.next_id, next.next), (None, None));
        assert_eq!(table.page(1), refused(Refusal::OtherKind, 1));
        assert_eq!(table.page(99), refused(Refusal::NoSuchRow, 99));
    }
    let shared = vec![
        object(3, texture(0, 1, 1, 1)),
        object(1, page_to("b", 3, 0)),
        null(),
    ];
    in_both_shapes!(
        file(&PAGE_READERS, object(1, page_to("a", 1, 2)), shared),
        check
    );
}

#[test]
fn headers_and_readers_are_reported() {
    let names = [
        format!("{STRING}{XNA_TAIL}"),
        dictionary_of(
            "System.String",
            &list_target(&nullable_target("System.Char")),
        ),
        array_of("System.Object"),
        enum_of("Coach.Door"),
        OBJECT.to_string(),
        TEXTURE.to_string(),
        PAGE.to_string(),
    ];
    let mut file = file(&names, object(1, text("x")), vec![]);
    corpus::lawful::pad_file(4, &mut file);
    let mut bytes = write(&file).bytes;
    for (letter, platform) in [
        (b'w', Platform::Windows),
        (b'm', Platform::WindowsPhone),
        (b'x', Platform::Xbox360),
    ] {
        for (flags, profile) in [(0, Profile::Reach), (1, Profile::HiDef)] {
            (bytes[3], bytes[5]) = (letter, flags);
            let table = Table::load(&bytes).expect("a lawful file");
            let header = table.header();
            assert_eq!((header.platform, header.profile), (platform, profile));
            assert_eq!(header.platform.letter(), char::from(letter));
        }
    }
    let table = Table::load(&bytes).expect("a lawful file");
    let read: Vec<&str> = table.readers().map(|reader| reader.name).collect();
    assert_eq!(read, names);
    for reader in table.readers() {
        assert!(bytes[reader.first..].starts_with(reader.name.as_bytes()));
        assert_eq!(table.reader(reader.type_id), Some(reader));
    }
    let targets: Vec<_> = table.readers().map(|reader| reader.target()).collect();
    let reported: Vec<String> = targets.iter().map(|target| target.to_string()).collect();
    let dictionary = "System.Collections.Generic.Dictionary`2[[System.String],\
        [System.Collections.Generic.List`1[[System.Nullable`1[[System.Char]]]]]]";
    let texture = "Microsoft.Xna.Framework.Graphics.Texture";
    let expected = [
        "System.String",
        dictionary,
        "System.Object[]",
        "Coach.Door",
        "System.Object",
        texture,
        "Coach.Console.Page",
    ];
    assert_eq!(reported, expected);
    let kinds: Vec<_> = targets.iter().map(|target| target.kind).collect();
    let expected = [
        Some(Kind::String),
        Some(Kind::Dictionary),
        Some(Kind::Array),
        Some(Kind::Enum),
        None,
        None,
        Some(Kind::Page),
    ];
    assert_eq!(kinds, expected);
    assert_eq!((table.reader(0), table.reader(8)), (None, None));
}

/// Each target name of the documents is that of a kind, as an argument of a list.
#[test]
fn every_target_name_is_known() {
    let mut seen = Vec::new();
    for &name in TARGET_NAMES {
        let argument = match name {
            "System.Nullable" => nullable_target("System.Byte"),
            "System.Collections.Generic.List" => list_target("System.Byte"),
            "System.Collections.Generic.Dictionary" => {
                dictionary_target("System.Byte", "System.Byte")
            }
            _ => name.to_string(),
        };
        let bytes = write(&file(&[list_of(&argument)], null(), vec![])).bytes;
        let table = Table::load(&bytes).expect("a lawful file");
        let target = table.reader(1).expect("a reader").target();
        let element = &target.arguments[0];
        assert_eq!(element.name, name);
        assert_eq!(element.to_string(), argument);
        seen.extend(element.kind);
    }
    // All that readers read but arrays and enums; Object and Texture have no kind.
    assert_eq!(seen.len(), TARGET_NAMES.len() - 2);
}

/// A value agrees with the proved lookups, and its bytes with its row's part.
fn check_values<S: Shaped>(table: &Grid<S>) {
    let words = table.file();
    for row in table.rows() {
        let number = row.number;
        assert_eq!(table.row(number), Some(row));
        let value = table.value(number).expect("a value of each row");
        let bytes = table.value_bytes(number).expect("its bytes");
        let part = &words[row.first..row.first + row.length];
        assert!(part.ends_with(bytes) || row.kind == Kind::Null);
        if let Some(size) = row.kind.size() {
            assert_eq!(bytes.len(), size);
        }
        let signed = table.signed(number).ok();
        match value {
            Value::SByte(value) => assert_eq!(signed, Some(value.into())),
            Value::Int16(value) => assert_eq!(signed, Some(value.into())),
            Value::Int32(value) => assert_eq!(signed, Some(value.into())),
            Value::Int64(value) => assert_eq!(signed, Some(value)),
            Value::TimeSpan(value) => {
                assert_eq!(signed, Some(value.ticks));
                assert_eq!(table.time(number), Ok(value.time()));
            }
            Value::String(value) => assert_eq!(table.text(number), Ok(value)),
            _ => assert_eq!(signed, None),
        }
        match row.detail {
            Detail::TypeId(id) => {
                let target = table.reader(id).expect("a reader").target();
                assert_eq!(target.kind, Some(row.kind));
            }
            Detail::ResourceId(id) => {
                assert_eq!(value, Value::SharedReference(Some(id)));
                assert!(table.resource(id).is_some());
            }
            _ => {}
        }
        check_put_together(table, number, row.kind);
    }
    let none = table.loaded().rows as u32;
    assert_eq!(table.value(none), refused(Refusal::NoSuchRow, none));
}

/// A font, a page and a picture are there exactly for their rows.
fn check_put_together<S: Shaped>(table: &Grid<S>, number: u32, kind: Kind) {
    let is = |wanted| kind == wanted;
    assert_eq!(table.font(number).is_ok(), is(Kind::SpriteFont));
    assert_eq!(table.page(number).is_ok(), is(Kind::Page));
    let picture = table.picture(number);
    assert_eq!(picture.is_ok(), is(Kind::Texture2D));
    for level in picture.iter().flat_map(|it| it.levels()) {
        assert_eq!(table.value(level.row), Ok(Value::ImageLevel(level.data)));
        let pixels = level.width as usize * level.height as usize;
        assert_eq!(level.rgba8().map(|it| it.len()), Ok(4 * pixels));
    }
}

#[test]
fn values_of_kept_and_generated_files_agree_with_the_proved_lookups() {
    let mut kinds = [0_u32; 64];
    let mut check = |file: &[u8], enums: &[u8]| {
        let loader = Loader::new().with_enum_bytes(enums);
        let Ok(table) = loader.load(file) else {
            return;
        };
        check_values(&table);
        check_values(&loader.load_columns(file).expect("as by rows"));
        for row in table.rows() {
            kinds[row.kind.number() as usize] += 1;
        }
    };
    for sample in kept_files() {
        check(&sample.bytes, &[]);
    }
    for sample in kept_files_with_enums() {
        check(&sample.bytes, &sample.enums);
    }
    for seed in 0..FILES {
        check(&fuzz::case(seed).bytes, &[]);
        let case = fuzz::enums::case(seed);
        check(&case.case.bytes, &case.enums);
        check(&fuzz::meshes::case(seed).bytes, &[]);
    }
    for kind in Kind::all() {
        let count = kinds[kind.number() as usize];
        assert!(count >= 50, "only {count} values of kind {kind}");
    }
}

/// What the place of a refusal is, by its number.
#[test]
fn every_place_is_what_the_documents_say() {
    for refusal in Refusal::all() {
        let expected = match refusal.number() {
            21 => Place::BytesNeeded,
            52 => Place::StretchesNeeded,
            23 | 24 | 62 | 63 => Place::Row,
            32 => Place::EnumEntry,
            71 | 72 => Place::Zero,
            _ => Place::Byte,
        };
        assert_eq!(refusal.place(), expected, "{}", refusal.name());
    }
}
