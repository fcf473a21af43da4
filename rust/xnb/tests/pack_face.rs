//! The safe face of packs over packs whose files are known.

use corpus::lawful::{file_a, file_b};
use corpus::packs::marked::MARKED;
use corpus::packs::{stored, write_pack, Stored, NO_MARK};
use corpus::writer::write;
use xnb::pack::{PackFile, PackRefused};
use xnb::{Pack, Refusal, Refused};

fn files() -> Vec<Stored> {
    let mut broken = write(&file_a()).bytes;
    broken.pop();
    vec![
        stored("Fonts\\Größe", write(&file_b()).bytes),
        stored("fonts\\größe", "the second is not found"),
        stored("broken", broken),
        stored("empty", ""),
    ]
}

fn refused<T, E: From<PackRefused>>(refusal: Refusal, place: u64) -> Result<T, E> {
    Err(PackRefused { refusal, place }.into())
}

#[test]
fn files_are_listed_in_order() {
    let files = files();
    let bytes = write_pack(NO_MARK, &files).bytes;
    let pack = Pack::read(&bytes).expect("a lawful pack");
    assert_eq!((pack.len(), pack.is_empty()), (4, false));
    assert_eq!(pack.files().len(), 4);
    for (file, stored) in pack.files().zip(&files) {
        let path = std::str::from_utf8(&stored.path).expect("text");
        let data = &stored.data[..];
        assert_eq!(file, PackFile { path, data });
    }
    let none = Pack::read(&[0; 4]).expect("a pack of no file");
    assert_eq!((none.len(), none.is_empty()), (0, true));
    assert_eq!(none.files().count(), 0);
}

#[test]
fn paths_are_found() {
    let files = files();
    let bytes = write_pack(NO_MARK, &files).bytes;
    let pack = Pack::read(&bytes).expect("a lawful pack");
    assert_eq!(pack.find("FONTS\\größe"), Some(&files[0].data[..]));
    assert_eq!(pack.find("fonts\\GRÖSSE"), None);
    assert_eq!(pack.find(b"EMPTY"), Some(&[][..]));
    assert_eq!(pack.find(b"\xFF"), None);
    assert_eq!(pack.find(""), None);
}

#[test]
fn a_file_is_loaded_as_a_part() {
    let bytes = write_pack(NO_MARK, &files()).bytes;
    let pack = Pack::read(&bytes).expect("a lawful pack");
    let table = pack.load("fonts\\GRößE").expect("it is there");
    assert_eq!(table.expect("a lawful file").text(0), Ok("Hi"));
    let (refusal, place) = (Refusal::FileLength, 6);
    let answer = pack.load("Broken").expect("it is there");
    assert_eq!(answer.err(), Some(Refused { refusal, place }));
    assert!(pack.load("none").is_none());
}

#[test]
fn words_may_be_lent() {
    let written = write_pack(NO_MARK, &files());
    let mut words = [7; 19];
    let pack = Pack::read_into(&written.bytes, &mut words[..]).expect("room enough");
    assert_eq!(pack.words(), written.table());
    assert_eq!(pack.bytes(), written.bytes);
    assert_eq!(words[16..], [0; 3]);
    let too_few = Pack::read_into(&written.bytes, [7; 15]).map(|pack| pack.len());
    let place = written.places[3].start as u64;
    assert_eq!(too_few, refused(Refusal::NoTableRoom, place));
}

#[test]
fn a_pack_of_its_own_words_has_all_the_room() {
    let many = |count| {
        let files: Vec<Stored> = (0..count).map(|it| stored(format!("{it}"), "")).collect();
        write_pack(NO_MARK, &files).bytes
    };
    assert_eq!(Pack::read(&many(4096)).map(|pack| pack.len()), Ok(4096));
    let answer = Pack::read(&many(4097)).map(|pack| pack.len());
    assert_eq!(answer, refused(Refusal::TooLarge, 0));
}

#[test]
fn refusals_are_reported() {
    let bytes = write_pack(NO_MARK, &files()).bytes;
    let reported = |bytes: &[u8]| Pack::read(bytes).map(|_| ()).unwrap_err().to_string();
    let longer = [&bytes[..], b"\0"].concat();
    let left_over = format!(
        "bytes are left over behind the last file, at byte {}",
        bytes.len()
    );
    assert_eq!(reported(&longer), left_over);
    assert_eq!(
        reported(&[]),
        "a field runs past the end of the pack, at byte 0"
    );
    assert_eq!(
        reported(b"\x01\0\0\0\x01\xFF"),
        "a path is not UTF-8, at byte 4"
    );
    let broken = "a seven-bit number has a wrong fifth byte, at byte 4";
    assert_eq!(reported(b"\x01\0\0\0\xFF\xFF\xFF\xFF\xFF"), broken);
    let empty = "a path is empty or longer than 260 bytes, at byte 4";
    assert_eq!(reported(b"\x01\0\0\0\0"), empty);
    let many = "the pack claims more than 4,096 files, at byte 0";
    assert_eq!(reported(b"\x01\x10\0\0"), many);
}

#[test]
fn marked_packs_have_the_same_files() {
    let plain = write_pack(NO_MARK, &files()).bytes;
    let marked = xnb::marks::mark(&plain).expect("a lawful pack");
    assert_eq!(marked, write_pack(MARKED.mark, &files()).bytes);
    assert_eq!(xnb::marks::unmark(&marked), Ok(plain.clone()));
    let pack = Pack::read(&plain).expect("a lawful pack");
    let twin = Pack::read_marked(&marked).expect("a lawful pack");
    assert!(twin.files().eq(pack.files()));
    assert_eq!(twin.find("EMPTY"), pack.find("empty"));
    let no_mark = Pack::read_marked(&plain).map(|pack| pack.len());
    assert_eq!(no_mark, refused(Refusal::MissingMark, 4));
    let refusal = xnb::marks::unmark(&plain).expect_err("no marks");
    let words = "a file's record does not begin with a mark, at byte 4";
    assert_eq!(refusal.to_string(), words);
}

#[test]
fn outputs_may_be_lent() {
    let plain = write_pack(NO_MARK, &[stored("a", "hi")]).bytes;
    let mut out = [0xEE; 15];
    assert_eq!(xnb::marks::mark_into(&plain, &mut out), Ok(14));
    assert_eq!(out[14], 0xEE);
    let refusal = xnb::marks::mark_into(&plain, &mut out[..13]).expect_err("too small");
    let words = "the output is too small for the new pack, which takes 14 bytes";
    assert_eq!(refusal.to_string(), words);
    let marked = out[..14].to_vec();
    assert_eq!(xnb::marks::unmark_into(&marked, &mut out), Ok(12));
    assert_eq!(out[..12], plain);
}
