//! Packs through the second program: the samples, and the words of Req 01 one by one.

use corpus::packs::{stored, write_pack, NO_MARK};
use second::pack::{find, read};
use second::Refusal;

/// Start and length of a part in the pack.
fn span(pack: &[u8], part: &[u8]) -> (u64, u64) {
    let start = part.as_ptr().addr() - pack.as_ptr().addr();
    (start as u64, part.len() as u64)
}

#[test]
fn kept_packs_give_their_answers() {
    for sample in corpus::packs::folder::kept_packs() {
        let answers = sample.answers_of(
            |pack, table| read(pack, table).map_err(|it| (it.number, it.place as u64)),
            |pack, table, path| find(pack, table, path).map(|data| span(pack, data)),
        );
        assert_eq!(answers, sample.answers, "{}", sample.name);
    }
}

/// Tables of any length and paths of any length, typed with their answers.
#[test]
fn typed_lookups_give_their_answers() {
    let samples = corpus::packs::lookups::samples();
    assert!(samples.len() >= 11, "only {} lookups", samples.len());
    for sample in samples {
        let found = find(&sample.pack, &sample.table, &sample.path);
        let answer = found.map(|data| span(&sample.pack, data));
        assert_eq!(answer, sample.answer, "{}", sample.name);
    }
}

#[test]
fn the_words_of_a_small_pack() {
    let pack = b"\x02\0\0\0\x03One\x02\0\0\0hi\x82\0\xC3\x84\0\0\0\0";
    let mut table = [7; 10];
    assert_eq!(read(pack, &mut table), Ok(2));
    assert_eq!(table, [5, 3, 12, 2, 16, 2, 22, 0, 0, 0]);
    assert_eq!(find(pack, &table, b"oNE"), Some(&b"hi"[..]));
    assert_eq!(find(pack, &table, "Ä".as_bytes()), Some(&b""[..]));
    assert_eq!(find(pack, &table, "ä".as_bytes()), None);
    let no_room = Refusal {
        number: 31,
        place: 14,
    };
    assert_eq!(read(pack, &mut table[..7]), Err(no_room));
    assert_eq!(table, [0; 10]);
}

/// Entries that no reader leaves, and tables that are not whole.
#[test]
fn any_words_are_a_table() {
    let pack = b"abcABC";
    let whole = |entry: [u64; 4]| find(pack, &entry, b"ABC");
    assert_eq!(whole([0, 3, 3, 3]), Some(&b"ABC"[..]));
    assert_eq!(whole([3, 3, 6, 0]), Some(&b""[..]));
    assert_eq!(whole([3, 4, 0, 1]), None, "a path past the pack");
    assert_eq!(whole([0, 3, 6, 1]), None, "data past the pack");
    assert_eq!(whole([0, 3, 7, 0]), None, "empty data past the pack");
    assert_eq!(whole([0, 3, u64::MAX, 1]), None, "a sum of 0");
    assert_eq!(whole([0, 3, u64::MAX - 1, 5]), None, "a sum of 3");
    assert_eq!(whole([1 << 32, 3, 0, 1]), None, "a start past 32 bits");
    assert_eq!(find(pack, &[0, 0, 0, 1], b""), None, "an empty path");
    let table = [[0, 3, 9, 9], [0, 0, 0, 0], [3, 3, 1, 2], [0, 3, 4, 1]].concat();
    assert_eq!(find(pack, &table, b"abc"), Some(&b"bc"[..]));
    assert_eq!(find(pack, &table[..11], b"abc"), None, "a part of an entry");
}

#[test]
fn the_most_files_are_taken() {
    let files: Vec<_> = (0..4096).map(|it| stored(format!("{it}"), "")).collect();
    let written = write_pack(NO_MARK, &files);
    let mut table = vec![7; 4 * 4096];
    assert_eq!(read(&written.bytes, &mut table), Ok(4096));
    assert_eq!(table, written.table());
}
