//! The safe calls over files whose values are known.

use corpus::folder::kept_files;
use corpus::lawful::{file_a, file_b, page_to, PAGE_READERS};
use corpus::readers::{list_of, INT32, SBYTE, STRING, TIME_SPAN};
use corpus::values::*;
use corpus::writer::write;
use xnb::{
    ByColumns, ByRows, Columns, Detail, Grid, Kind, Refusal, Refused, Row, Shaped, Table, Time,
    WORDS_PER_ROW,
};

fn refused<T, E: From<Refused>>(refusal: Refusal, place: u32) -> Result<T, E> {
    Err(Refused { refusal, place }.into())
}

/// A list of a text and three numbers.
fn list_file() -> Vec<u8> {
    let names = [
        list_of("System.Object"),
        STRING.to_string(),
        SBYTE.to_string(),
        INT32.to_string(),
        TIME_SPAN.to_string(),
    ];
    let elements = vec![
        padded(3, object(2, text("größer"))),
        object(3, sbyte(-1)),
        object(4, int32(-70_000)),
        object(5, time_span(-1)),
    ];
    write(&file(&names, object(1, list(elements)), vec![])).bytes
}

#[test]
fn values_are_looked_up() {
    fn check<S: Shaped>() {
        let file = list_file();
        let table = Grid::<S>::load(&file).expect("a lawful file");
        assert_eq!(table.loaded().rows, 5);
        assert_eq!(table.loaded().readers, 5);
        assert_eq!(table.text(1), Ok("größer"));
        assert_eq!(table.signed(2), Ok(-1));
        assert_eq!(table.signed(3), Ok(-70_000));
        let (seconds, ticks) = (-1, 9_999_999);
        assert_eq!(table.time(4), Ok(Time { seconds, ticks }));
        assert_eq!(table.part(2), Ok(&[3, 0xFF][..]));
        assert_eq!(table.text(0), refused(Refusal::OtherKind, 0));
        assert_eq!(table.time(3), refused(Refusal::OtherKind, 3));
        assert_eq!(table.part(5), refused(Refusal::NoSuchRow, 5));
        assert_eq!(
            table.signed(u32::MAX),
            refused(Refusal::NoSuchRow, u32::MAX)
        );
    }
    check::<ByRows>();
    check::<ByColumns>();
}

#[test]
fn rows_are_typed() {
    fn check<S: Shaped>() {
        let file = list_file();
        let table = Grid::<S>::load(&file).expect("a lawful file");
        let kinds: Vec<Kind> = table.rows().map(|row| row.kind).collect();
        use Kind::*;
        assert_eq!(kinds, [List, String, SByte, Int32, TimeSpan]);
        let row = table.row(2).expect("a row");
        assert_eq!(row.parent, Some(0));
        assert_eq!(row.detail, Detail::TypeId(3));
        assert_eq!((row.children, row.length, row.rows), (0, 2, 1));
        assert_eq!(
            table.row(0).map(|row| (row.children, row.rows)),
            Some((4, 5))
        );
        assert_eq!(&file[row.first..row.first + row.length], [3, 0xFF]);
        assert_eq!(table.row(5), None);
    }
    check::<ByRows>();
    check::<ByColumns>();
}

#[test]
fn children_and_objects_are_found() {
    fn check<S: Shaped>() {
        let pages = vec![object(1, page_to("b", 0, 2)), null()];
        let file = write(&file(&PAGE_READERS, object(1, page_to("a", 0, 1)), pages)).bytes;
        let table = Grid::<S>::load(&file).expect("a lawful file");
        assert_eq!(table.objects().collect::<Vec<_>>(), [0, 5, 10]);
        assert_eq!(table.children(5).collect::<Vec<_>>(), [6, 7, 8, 9]);
        assert_eq!(table.children(10).count(), 0);
        assert_eq!(table.children(99).count(), 0);
        assert_eq!(table.children(u32::MAX).count(), 0);
        let next = [0, 1, 5, 10, 11, u32::MAX].map(|number| table.next(number));
        assert_eq!(next, [Some(5), Some(2), Some(10), Some(11), None, None]);
        let reference = table.row(9).expect("a row");
        assert_eq!(reference.kind, Kind::SharedReference);
        assert_eq!(reference.detail, Detail::ResourceId(2));
    }
    check::<ByRows>();
    check::<ByColumns>();
}

/// Going by `next` finds the rows that scanning finds.
#[test]
fn walks_find_what_scanning_finds() {
    fn check<S: Shaped>() {
        for sample in kept_files() {
            let Ok(table) = Grid::<S>::load(&sample.bytes) else {
                continue;
            };
            let rows: Vec<Row> = table.rows().collect();
            let named = |parent| {
                let named = (0..)
                    .zip(&rows)
                    .filter(move |(_, row)| row.parent == parent);
                named.map(|(number, _)| number)
            };
            assert!(table.objects().eq(named(None)), "{}", sample.name);
            for (number, row) in (0..).zip(&rows) {
                assert_eq!(table.row(number), Some(*row), "{}", sample.name);
                let children = table.children(number);
                assert!(
                    children.eq(named(Some(number))),
                    "{}: row {number}",
                    sample.name
                );
            }
        }
    }
    check::<ByRows>();
    check::<ByColumns>();
}

#[test]
fn words_may_be_lent() {
    let file = list_file();
    let mut words = [7; 5 * WORDS_PER_ROW + 10];
    let table = Table::load_into(&file, &mut words[..]).expect("room enough");
    let of_its_own = Table::load(&file).expect("lawful");
    assert_eq!(table.words(), of_its_own.words());
    assert_eq!(of_its_own.words().len(), 5 * WORDS_PER_ROW);
    assert_eq!(words[5 * WORDS_PER_ROW..], [0; 10]);
    let too_few = Table::load_into(&file, [7; 5 * WORDS_PER_ROW - 1]).map(|table| table.loaded());
    let last = Table::load(&file).expect("lawful").row(4).expect("a row");
    assert_eq!(too_few, refused(Refusal::NoRowLeft, last.first as u32));
}

/// Each column as it is given, in the order of a row's words.
fn columns_of<'c, W: AsRef<[u32]>>(columns: &'c Columns<W>) -> [&'c [u32]; WORDS_PER_ROW] {
    [
        columns.kinds(),
        columns.first_bytes(),
        columns.lengths(),
        columns.child_counts(),
        columns.parents(),
        columns.details(),
        columns.row_counts(),
    ]
}

/// The columns hold the words of the rows in use, whatever room the words have.
#[test]
fn columns_are_slices() {
    for sample in kept_files() {
        let Ok(table) = Table::load(&sample.bytes) else {
            continue;
        };
        let rows = table.loaded().rows;
        let words = table.words().iter();
        let expected: [Vec<u32>; WORDS_PER_ROW] = std::array::from_fn(|word| {
            let column = words.clone().skip(word).step_by(WORDS_PER_ROW);
            column.copied().collect()
        });
        let of_its_own = Columns::load(&sample.bytes).expect("as by rows");
        assert_eq!(columns_of(&of_its_own), expected, "{}", sample.name);
        for lent in [WORDS_PER_ROW * rows, WORDS_PER_ROW * (rows + 5) + 3] {
            let mut words = vec![0xAAAA_AAAA; lent];
            let columns = Columns::load_into(&sample.bytes, &mut words[..]).expect("room enough");
            assert_eq!(columns.loaded(), table.loaded(), "{}", sample.name);
            assert_eq!(columns_of(&columns), expected, "{}", sample.name);
        }
    }
}

#[test]
fn rows_are_found_by_kind() {
    let kinds = [Kind::String, Kind::Page, Kind::SharedReference, Kind::Null];
    let mut found = 0;
    for sample in kept_files() {
        let Ok(columns) = Columns::load(&sample.bytes) else {
            continue;
        };
        for kind in kinds {
            let rows = (0..).zip(columns.rows());
            let expected = rows.filter(|(_, row)| row.kind == kind);
            let expected = expected.map(|(number, _)| number);
            assert!(columns.of_kind(kind).eq(expected), "{}", sample.name);
            found += columns.of_kind(kind).count();
        }
    }
    assert!(found > 300, "only {found} rows");
}

#[test]
fn files_are_shortened() {
    let b = write(&file_b()).bytes;
    let mut padded_b = file_b();
    padded_b.objects = vec![object(1, padded(2, text("Hi")))];
    let padded_b = write(&padded_b).bytes;
    assert_eq!(xnb::shorten(&padded_b), Ok(b.clone()));
    assert_eq!(xnb::shorten(&b), Ok(b.clone()));
    let mut out = [0xEE; 64];
    let too_small = xnb::rewrite(&padded_b, &mut [7; WORDS_PER_ROW], &mut out);
    assert_eq!(too_small, refused(Refusal::OutputTooSmall, 65));
    assert_eq!(out, [0xEE; 64]);
}

#[test]
fn refusals_are_reported() {
    let mut file = write(&file_a()).bytes;
    assert_eq!(xnb::count_rows(&file), Ok(1));
    file.pop();
    assert_eq!(xnb::count_rows(&file), refused(Refusal::FileLength, 6));
    let answer = Table::load(&file).expect_err("a wrong length");
    let words = "the header's length is not the file's length, at byte 6";
    assert_eq!(answer.to_string(), words);
    assert_eq!(xnb::shorten(&file), Err(answer.into()));
    assert_eq!(xnb::shorten(&[]), refused(Refusal::PastEnd, 0));
}

/// As many rows as a table may have, and one more.
#[test]
fn a_table_of_its_own_words_has_all_the_room() {
    let bytes = |count| {
        let elements = vec![byte(1); count];
        let names = [list_of("System.Byte")];
        write(&file(&names, object(1, list(elements)), vec![])).bytes
    };
    fn check<S: Shaped>(most: &[u8], more: &[u8]) {
        let table = Grid::<S>::load(most).expect("room enough");
        assert_eq!(table.rows().count(), 65_536);
        assert_eq!(table.row(0).map(|row| row.rows), Some(65_536));
        assert_eq!(table.row(65_535).map(|row| row.parent), Some(Some(0)));
        let last = more.len() as u32 - 1;
        let answer = Grid::<S>::load(more).map(|table| table.loaded());
        assert_eq!(answer, refused(Refusal::NoRowLeft, last));
    }
    let (most, more) = (bytes(65_535), bytes(65_536));
    check::<ByRows>(&most, &more);
    check::<ByColumns>(&most, &more);
}
