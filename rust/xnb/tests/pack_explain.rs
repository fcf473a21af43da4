//! What a refusal of a pack found.

use corpus::packs::folder::{kept_marked_packs, kept_packs};
use fuzz::packs;
use xnb::pack::{explain, PackError};
use xnb::Pack;

const MARK: &[u8] = &xnb::marks::MARK;

/// What the refusal of a pack found, by its form.
fn found(pack: &[u8], marked: bool) -> Option<String> {
    let read = match marked {
        true => Pack::read_marked(pack),
        false => Pack::read(pack),
    };
    explain(pack, read.err()?.refused()?, marked)
}

#[test]
fn each_refusal_names_the_file_and_what_was_found() {
    let long = [&b"\x01\0\0\0\x85\x02"[..], &[b'a'; 261]].concat();
    let plain: [(&[u8], &str); 13] = [
        (
            b"\x01\0\0",
            "the pack has 3 bytes, its file count alone takes 4",
        ),
        (
            b"\x01\x10\0\0",
            "the pack claims 4097 files, the limit is 4096",
        ),
        (b"\x01\0\0\0", "file 1 of 1: its path's length is cut"),
        (
            b"\x01\0\0\0\x80\x80",
            "file 1 of 1: its path's length is cut",
        ),
        (
            b"\x01\0\0\0\x80\x80\x80\x80\x10",
            "file 1 of 1: the fifth byte of its path's length is 10, 0F is the largest",
        ),
        (
            b"\x01\0\0\0\0",
            "file 1 of 1: its path has 0 bytes; only 1 to 260 are taken",
        ),
        (
            &long,
            "file 1 of 1: its path has 261 bytes; only 1 to 260 are taken",
        ),
        (
            b"\x01\0\0\0\x05Doo",
            "file 1 of 1: its path has 5 bytes, the pack only 3 more",
        ),
        (
            b"\x02\0\0\0\x01a\0\0\0\0\x03D\xFFo\0\0\0\0",
            "file 2 of 2: byte 1 of its path, FF, is not UTF-8",
        ),
        (
            b"\x01\0\0\0\x04Door\x01\0",
            "file 1 of 1, Door: its size has 4 bytes, the pack only 2 more",
        ),
        (
            b"\x02\0\0\0\x01a\x01\0\0\0a\x04Door\x09\0\0\0hi",
            "file 2 of 2, Door: its data has 9 bytes, the pack only 2 more",
        ),
        (
            b"\x01\0\0\0\x01a\0\0\0\0xyz",
            "the last file, number 1, ends at byte 10 of 13",
        ),
        (
            b"\x03\0\0\0\x01a\0\0\0\0\x01b\0\0\0\0",
            "file 3 of 3: its path's length is cut",
        ),
    ];
    for (pack, words) in plain {
        assert_eq!(found(pack, false).as_deref(), Some(words), "{pack:?}");
    }
    let marked: [(&[u8], &str); 3] = [
        (
            b"\x01\0\0\0\xFD",
            "file 1 of 1: its mark has 2 bytes, the pack only 1 more",
        ),
        (
            b"\x01\0\0\0\x01a\0\0\0\0",
            "file 1 of 1: found 01 61, the mark is FD FE",
        ),
        (
            b"\x01\0\0\0\xFD\xFE\x04Door\x09\0\0\0hi",
            "file 1 of 1, Door: its data has 9 bytes, the pack only 2 more",
        ),
    ];
    for (pack, words) in marked {
        assert_eq!(found(pack, true).as_deref(), Some(words), "{pack:?}");
    }
}

/// Every refusal of a generated or a kept pack has its words, and names a file of the pack where it is in one.
#[test]
fn every_refused_pack_is_explained() {
    let generated = |mark| (0..20_000).map(move |seed| packs::case(mark, seed).bytes);
    let plain = kept_packs().into_iter().map(|it| it.bytes);
    let plain = plain.chain(generated(&[])).map(|it| (it, false));
    let marked = kept_marked_packs().into_iter().map(|it| it.bytes);
    let marked = marked.chain(generated(MARK)).map(|it| (it, true));
    let mut in_files = 0;
    for (pack, is_marked) in plain.chain(marked) {
        let read = match is_marked {
            true => Pack::read_marked(&pack),
            false => Pack::read(&pack),
        };
        let Some(refused) = read.err().and_then(PackError::refused) else {
            continue;
        };
        let words = explain(&pack, refused, is_marked).unwrap_or_default();
        assert!(!words.is_empty(), "{refused} {pack:?}");
        in_files += usize::from(words.starts_with("file "));
    }
    assert!(in_files > 10_000, "only {in_files}");
}

/// A refusal that is not this pack's is no reason to stop.
#[test]
fn any_place_may_be_asked_for() {
    for seed in 0..2_000 {
        let pack = packs::case(&[], seed).bytes;
        let refused = Pack::read(&pack).err().and_then(PackError::refused);
        let Some(mut refused) = refused else {
            continue;
        };
        for place in [0, 1, 4, 5, pack.len() as u64, u64::MAX] {
            refused.place = place;
            let _ = explain(&pack, refused, false);
            let _ = explain(&pack, refused, true);
        }
    }
}
