//! The worked examples of 01 and its rules that no corpus file can show.

use second::{
    builder_answer, level_size, load, longest_chain, read_seven, shortest_seven, split_ticks,
    Loaded, Refusal, Seven, Time, WORDS_PER_ROW,
};

const A: [u8; 13] = [
    0x58, 0x4E, 0x42, 0x77, 0x05, 0x00, 0x0D, 0x00, 0x00, 0x00, 0x00, 0x00, 0x00,
];

fn b() -> Vec<u8> {
    let mut file = b"XNBw\x05\x00\x41\x00\x00\x00\x01\x2C".to_vec();
    file.extend_from_slice(b"Microsoft.Xna.Framework.Content.StringReader");
    file.extend_from_slice(&[0, 0, 0, 0, 0, 1, 2, 0x48, 0x69]);
    file
}

fn refused<T>(number: u32, place: usize) -> Result<T, Refusal> {
    Err(Refusal { number, place })
}

/// Loads with room for two rows and checks that a refusal leaves zeros.
fn answer(file: &[u8]) -> Result<Loaded, Refusal> {
    let mut words = [7; 15];
    let answer = load(file, &[], &mut words);
    if answer.is_err() {
        assert_eq!(words, [0; 15]);
    }
    answer
}

#[test]
fn p1_to_p3_rows() {
    let mut words = [7; 15];
    let loaded = load(&A, &[], &mut words);
    let expected = Loaded {
        rows: 1,
        readers: 0,
        shared: 0,
        padding: 0,
    };
    assert_eq!(loaded, Ok(expected));
    assert_eq!(words, [0, 12, 1, 0, 0, 0, 1, 0, 0, 0, 0, 0, 0, 0, 0]);

    let mut words = [7; 6];
    assert_eq!(load(&A, &[], &mut words), refused(19, 12));
    assert_eq!(words, [0; 6]);

    let mut words = [7; 7];
    assert!(load(&b(), &[], &mut words).is_ok());
    assert_eq!(words, [13, 61, 4, 0, 0, 1, 1]);
}

#[test]
fn p5_to_p10_refusals() {
    let changed = |place: usize, byte: u8| {
        let mut file = A.to_vec();
        file[place] = byte;
        file
    };
    assert_eq!(answer(&A[..12]), refused(7, 6));
    assert_eq!(answer(&A[..9]), refused(1, 0));
    assert_eq!(answer(&changed(5, 0x81)), refused(5, 5));
    assert_eq!(answer(&changed(5, 0x02)), refused(6, 5));
    assert_eq!(answer(&changed(12, 1)), refused(13, 12));
    assert_eq!(answer(&changed(11, 1)), refused(1, 13));
    let mut words = [7; 7];
    assert_eq!(load(&changed(11, 1), &[], &mut words), refused(19, 13));
    let mut longer = changed(6, 0x0E);
    longer.push(0);
    assert_eq!(answer(&longer), refused(20, 13));
}

#[test]
fn p11_seven_bit_numbers() {
    let value_of = |bytes: &[u8]| read_seven(bytes).map(|seven| seven.value);
    assert_eq!(value_of(&[0x82, 0x01]), Ok(130));
    assert_eq!(value_of(&[0x80, 0x00]), Ok(0));
    assert_eq!(value_of(&[0xFF, 0xFF, 0xFF, 0xFF, 0x0F]), Ok(u32::MAX));
    assert_eq!(value_of(&[0xFF, 0xFF, 0xFF, 0xFF, 0x10]), Err(8));
    assert_eq!(value_of(&[0xFF, 0xFF, 0xFF, 0xFF, 0x80]), Err(8));
    for cut in 0..5 {
        assert_eq!(value_of(&[0xFF; 4][..cut.min(4)]), Err(1));
    }
    for shift in 0..32 {
        for number in [1 << shift, (1 << shift) - 1, u32::MAX << shift] {
            let bytes = shortest_seven(number);
            let width = bytes.len();
            let read = Seven {
                value: number,
                width,
                padding: 0,
            };
            assert_eq!(read_seven(&bytes), Ok(read));
            let shorter_would_do = width > 1 && bytes[width - 1] == 0;
            assert!(!shorter_would_do);
        }
    }
}

#[test]
fn p12_ticks() {
    let time = |seconds, ticks| Time { seconds, ticks };
    assert_eq!(split_ticks(-1), time(-1, 9_999_999));
    assert_eq!(split_ticks(i64::MIN), time(-922_337_203_686, 5_224_192));
    assert_eq!(split_ticks(i64::MAX), time(922_337_203_685, 4_775_807));
    assert_eq!(split_ticks(0), time(0, 0));
    assert_eq!(split_ticks(-10_000_000), time(-1, 0));
    assert_eq!(split_ticks(10_000_001), time(1, 1));
}

#[test]
fn p13_levels() {
    assert_eq!(longest_chain(5, 3), 3);
    assert_eq!(longest_chain(1, 1), 1);
    assert_eq!(longest_chain(1, 4096), 13);
    let sizes = |format| [0, 1, 2].map(|level| level_size(format, 5, 3, level).unwrap());
    assert_eq!(sizes(0), [60, 8, 4]);
    assert_eq!(sizes(4), [16, 8, 8]);
    assert_eq!(level_size(19, 1, 1, 0), None);
}

#[test]
fn every_header_byte() {
    for byte in 0..=255 {
        let expected = [
            (0, byte == b'X', 2, 0),
            (1, byte == b'N', 2, 0),
            (2, byte == b'B', 2, 0),
            (3, b"wmx".contains(&byte), 3, 3),
            (4, byte == 5, 4, 4),
            (5, byte <= 1, if byte >= 0x80 { 5 } else { 6 }, 5),
            (6, byte == 13, 7, 6),
            (7, byte == 0, 7, 6),
            (8, byte == 0, 7, 6),
            (9, byte == 0, 7, 6),
        ];
        for (place, lawful, number, refusal_place) in expected {
            let mut file = A;
            file[place] = byte;
            if lawful {
                assert!(answer(&file).is_ok(), "byte {byte} at {place}");
            } else {
                assert_eq!(answer(&file), refused(number, refusal_place));
            }
        }
    }
}

#[test]
fn the_header_is_judged_in_table_order() {
    let mut file = [0xFF; 13];
    let steps: [(usize, &[u8], u32, usize); 5] = [
        (0, b"XNB", 2, 0),
        (3, b"m", 3, 3),
        (4, &[5], 4, 4),
        (5, &[0x7F], 5, 5),
        (5, &[1], 6, 5),
    ];
    for (place, bytes, number, refusal_place) in steps {
        assert_eq!(answer(&file), refused(number, refusal_place));
        file[place..place + bytes.len()].copy_from_slice(bytes);
    }
    assert_eq!(answer(&file), refused(7, 6));
}

/// File B with a text so long that the file has this many bytes.
fn long_file(length: usize) -> Vec<u8> {
    let mut file = b();
    file.truncate(62);
    let count = length - 62 - 4;
    for shift in [0, 7, 14] {
        file.push((count >> shift & 0x7F) as u8 | 0x80);
    }
    file.push((count >> 21) as u8);
    file.resize(length, b'x');
    file[6..10].copy_from_slice(&(length as u32).to_le_bytes());
    file
}

#[test]
fn the_longest_file() {
    let mut words = [7; 7];
    let longest = long_file(16_777_216);
    assert!(load(&longest, &[], &mut words).is_ok());
    assert_eq!(words, [13, 61, 16_777_216 - 61, 0, 0, 1, 1]);
    assert_eq!(answer(&long_file(16_777_217)), refused(9, 0));
    assert_eq!(answer(&vec![0; 16_777_217]), refused(9, 0));
}

#[test]
fn room_is_at_most_65536_rows() {
    let file = |count: usize| {
        let name = b"Microsoft.Xna.Framework.Content.ListReader`1[[System.Byte]]";
        let mut file = b"XNBw\x05\x00....\x01".to_vec();
        file.push(name.len() as u8);
        file.extend_from_slice(name);
        file.extend_from_slice(&[0, 0, 0, 0, 0, 1]);
        file.extend_from_slice(&(count as u32).to_le_bytes());
        file.resize(file.len() + count, 0);
        let length = file.len() as u32;
        file[6..10].copy_from_slice(&length.to_le_bytes());
        file
    };
    let mut words = vec![7; WORDS_PER_ROW * 65_600];
    let loaded = load(&file(65_535), &[], &mut words).expect("it fits");
    assert_eq!(loaded.rows, 65_536);
    assert_eq!(words[6], 65_536);
    assert!(words[WORDS_PER_ROW * 65_536..]
        .iter()
        .all(|&word| word == 0));
    let too_many = file(65_536);
    let last = too_many.len() - 1;
    assert_eq!(load(&too_many, &[], &mut words), refused(19, last));
    assert!(words.iter().all(|&word| word == 0));
}

#[test]
fn builder_numbers() {
    assert_eq!(builder_answer(&A), 1);
    assert_eq!(builder_answer(&b()), 1);
    assert_eq!(builder_answer(&A[..12]), (7 << 32) + 6);
    assert_eq!(builder_answer(&[]), 1 << 32);
}

#[test]
fn char_examples() {
    let file = |bytes: &[u8]| {
        let name = b"Microsoft.Xna.Framework.Content.CharReader";
        let mut file = b"XNBw\x05\x00....\x01".to_vec();
        file.push(name.len() as u8);
        file.extend_from_slice(name);
        file.extend_from_slice(&[0, 0, 0, 0, 0, 1]);
        file.extend_from_slice(bytes);
        let length = file.len() as u32;
        file[6..10].copy_from_slice(&length.to_le_bytes());
        file
    };
    let place = file(&[]).len();
    assert!(answer(&file(&[0xE2, 0x82, 0xAC])).is_ok());
    assert_eq!(answer(&file(&[0xED, 0xA0, 0x80])), refused(15, place));
    assert_eq!(answer(&file(&[0xF0, 0x9F, 0x98, 0x80])), refused(15, place));
    for lead in 0..=255 {
        let expected = match lead {
            0x00..=0x7F => None,
            0xC2..=0xEF => Some(1),
            _ => Some(15),
        };
        let refusal = answer(&file(&[lead])).err();
        assert_eq!(refusal.map(|it| it.number), expected, "lead byte {lead}");
    }
}
