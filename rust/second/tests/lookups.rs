//! Looking up parts, texts and signed numbers, in tables of both shapes.

use corpus::readers::{list_of, BYTE, INT16, INT32, INT64, SBYTE, STRING, TIME_SPAN};
use corpus::values::*;
use corpus::writer::write;
use second::{
    load_in, next, part, signed, text as text_of, time, Refusal, Shape, Table, Time, WORDS_PER_ROW,
};

fn refused<T>(number: u32, row: usize) -> Result<T, Refusal> {
    Err(Refusal { number, place: row })
}

/// A list of one text and signed numbers, loaded with room for two rows too many.
fn loaded(shape: Shape) -> (Vec<u8>, Vec<u32>) {
    let names = [
        list_of("System.Object"),
        STRING.to_string(),
        SBYTE.to_string(),
        INT16.to_string(),
        INT32.to_string(),
        INT64.to_string(),
        TIME_SPAN.to_string(),
        BYTE.to_string(),
    ];
    let elements = vec![
        padded(3, object(2, text("größer"))),
        padded(5, object(3, sbyte(-1))),
        object(4, int16(-2)),
        object(5, int32(i32::MIN)),
        object(6, int64(i64::MIN)),
        object(7, time_span(77)),
        object(8, byte(255)),
        null(),
    ];
    let file = write(&file(&names, object(1, list(elements)), vec![])).bytes;
    let mut words = vec![0; WORDS_PER_ROW * 11 + 6];
    load_in(shape, &file, &[], &mut words).expect("a lawful file");
    (file, words)
}

/// Looks up in the table of that list, in each shape.
fn in_both_shapes(look_up: fn(&[u8], Table)) {
    for shape in Shape::BOTH {
        let (file, words) = loaded(shape);
        look_up(&file, Table::new(shape, &words));
    }
}

/// A table of one row, whose words stand alike in both shapes.
fn alone(row: &[u32]) -> Table<'_> {
    Table::new(Shape::Columns, row)
}

#[test]
fn parts() {
    in_both_shapes(|file, table| {
        let padded = [0x83, 0x80, 0x80, 0x80, 0, 0xFF];
        assert_eq!(part(file, table, 2), Ok(&padded[..]));
        assert_eq!(part(file, table, 8), Ok(&[0][..]));
        let whole = part(file, table, 0).expect("the list");
        let first = table.row(0).expect("the list").first;
        assert_eq!(whole, &file[first as usize..]);
        assert_eq!(part(file, table, 9), refused(23, 9));
        assert_eq!(part(file, table, 11), refused(23, 11));
        assert_eq!(part(file, table, usize::MAX), refused(23, usize::MAX));
        let shorter = &file[..file.len() - 1];
        assert_eq!(part(shorter, table, 8), refused(23, 8));
    });
}

#[test]
fn parts_of_tables_that_no_load_left() {
    let file = [1, 2, 3, 4];
    let row = |first, length| [0, first, length, 0, 0, 0, 0];
    assert_eq!(part(&file, alone(&row(1, 3)), 0), Ok(&[2, 3, 4][..]));
    assert_eq!(part(&file, alone(&row(1, 4)), 0), refused(23, 0));
    assert_eq!(part(&file, alone(&row(4, 0)), 0), refused(23, 0));
    for (first, length) in [(u32::MAX, 1), (1, u32::MAX), (u32::MAX, u32::MAX)] {
        assert_eq!(part(&file, alone(&row(first, length)), 0), refused(23, 0));
    }
    assert_eq!(part(&file, alone(&row(0, 1)[..6]), 0), refused(23, 0));
    let many = vec![1; WORDS_PER_ROW * 65_537];
    for shape in Shape::BOTH {
        let many = Table::new(shape, &many);
        assert!(part(&file, many, 65_535).is_ok());
        assert_eq!(part(&file, many, 65_536), refused(23, 65_536));
    }
}

#[test]
fn texts() {
    in_both_shapes(|file, table| {
        assert_eq!(text_of(file, table, 1), Ok("größer".as_bytes()));
        assert_eq!(text_of(file, table, 0), refused(24, 0));
        assert_eq!(text_of(file, table, 8), refused(24, 8));
        assert_eq!(text_of(file, table, 9), refused(23, 9));
    });
    let of_length = |length| [13, 0, length, 0, 0, 1, 1];
    let text_in = |part: &'static [u8]| text_of(part, alone(&of_length(part.len() as u32)), 0);
    assert_eq!(text_in(&[0, 1, b'x']), Ok(&b"x"[..]));
    assert_eq!(text_in(&[9, 0]), Ok(&b""[..]));
    assert_eq!(text_in(&[1, 2, b'x']), refused(24, 0));
    assert_eq!(text_in(&[1, 0, b'x']), refused(24, 0));
    assert_eq!(text_in(&[1, 0x80]), refused(24, 0));
    assert_eq!(text_in(&[1]), refused(24, 0));
    assert_eq!(text_in(&[1, 0x80, 0x80, 0x80, 0x80, 0x10]), refused(24, 0));
    // The part ends inside the type id.
    assert_eq!(text_of(&[0x81, 0], alone(&of_length(1)), 0), refused(24, 0));
}

#[test]
fn signed_numbers() {
    in_both_shapes(|file, table| {
        assert_eq!(signed(file, table, 2), Ok(-1));
        assert_eq!(signed(file, table, 3), Ok(-2));
        assert_eq!(signed(file, table, 4), Ok(i64::from(i32::MIN)));
        assert_eq!(signed(file, table, 5), Ok(i64::MIN));
        assert_eq!(signed(file, table, 6), Ok(77));
        assert_eq!(signed(file, table, 7), refused(24, 7));
        assert_eq!(signed(file, table, 9), refused(23, 9));
    });
    let signed_in = |kind, length| signed(&[0x80; 8], alone(&[kind, 0, length, 0, 0, 0, 1]), 0);
    for (kind, length) in [(3, 1), (5, 3), (7, 7), (20, 7)] {
        assert_eq!(signed_in(kind, length), refused(24, 0));
    }
    assert_eq!(signed_in(2, 8), Ok(-128));
}

#[test]
fn times() {
    in_both_shapes(|file, table| {
        let (seconds, ticks) = (0, 77);
        assert_eq!(time(file, table, 6), Ok(Time { seconds, ticks }));
        assert_eq!(time(file, table, 5), refused(24, 5));
        assert_eq!(time(file, table, 7), refused(24, 7));
        assert_eq!(time(file, table, 9), refused(23, 9));
    });
    let time_in = |length| time(&[0xFF; 8], alone(&[20, 0, length, 0, 0, 0, 1]), 0);
    let (seconds, ticks) = (-1, 9_999_999);
    assert_eq!(time_in(8), Ok(Time { seconds, ticks }));
    assert_eq!(time_in(7), refused(24, 0));
}

#[test]
fn next_rows() {
    in_both_shapes(|_, table| {
        assert_eq!(next(table, 0), Some(9));
        for row in 1..9 {
            assert_eq!(next(table, row), Some(row + 1));
        }
        // Zero rows and rows past the room.
        for row in [9, 10, 11, 12, usize::MAX] {
            assert_eq!(next(table, row), None, "row {row}");
        }
    });
}

#[test]
fn next_rows_of_tables_that_no_load_left() {
    // The room, the row asked for, its seventh word and the answer.
    let cases = [
        (1, 0, 1, Some(1)),
        (1, 0, 2, None),
        (1, 0, 0, None),
        (3, 0, 3, Some(3)),
        (3, 2, 1, Some(3)),
        (3, 2, 2, None),
        (3, 2, u32::MAX, None),
        (3, 1, u32::MAX - 1, None),
    ];
    for shape in Shape::BOTH {
        for (room, row, count, expected) in cases {
            let mut words = vec![u32::MAX; WORDS_PER_ROW * room];
            words[shape.place(room, row, 6)] = count;
            let label = format!("{shape:?}: row {row} of {room} with count {count}");
            assert_eq!(next(Table::new(shape, &words), row), expected, "{label}");
            let shorter = Table::new(shape, &words[1..]);
            assert_eq!(next(shorter, room - 1), None, "{label}");
        }
        assert_eq!(next(Table::new(shape, &[]), 0), None);
    }
}
