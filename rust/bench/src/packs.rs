//! Packs of 4,096 files: reading them, and looking up in them.

use crate::inputs::Input;
use crate::tasks::Lent;
use corpus::packs::{stored, write_pack, Stored, NO_MARK};
use std::hint::black_box;

const FILES: usize = 4096;

/// So many files with paths of 23 bytes and data of one size.
fn pack(files: usize, size: usize) -> Vec<u8> {
    let file = |number: usize| {
        let path = format!("Levels\\Coach\\Door{number:06}");
        stored(path, vec![0; size])
    };
    let files: Vec<Stored> = (0..files).map(file).collect();
    write_pack(NO_MARK, &files).bytes
}

/// A pack of so many files; the data is skipped, so its size must not matter.
pub fn pack_of(files: usize, size: usize) -> Input {
    let (kib, rest) = (size / 1024, size % 1024);
    let data = if rest == 0 {
        format!("{kib} KiB")
    } else {
        format!("{size} bytes")
    };
    Input {
        group: "packs",
        name: format!("{files} files with data of {data}"),
        bytes: pack(files, size),
        enums: vec![],
        rows: files,
        is_refused: false,
    }
}

/// 4,096 files each.
pub fn inputs() -> Vec<Input> {
    [16, 4 << 10, 64 << 10]
        .map(|size| pack_of(FILES, size))
        .into()
}

/// Paths to be looked up in the first of these packs; they are lent in the place of a list of enum types.
pub fn lookups() -> Vec<Input> {
    let paths = [
        ("the first", "levels\\coach\\door000000"),
        ("the last, in other case", "LEVELS\\COACH\\DOOR004095"),
        (
            "absent, other in its last byte",
            "Levels\\Coach\\Door00000x",
        ),
        (
            "absent, other in its first byte",
            "xevels\\Coach\\Door000000",
        ),
        ("absent, of another length", "Levels\\Coach\\Door"),
    ];
    let lookup = |(name, path): (&str, &str)| Input {
        name: name.to_string(),
        enums: path.into(),
        ..pack_of(FILES, 16)
    };
    paths.map(lookup).into()
}

/// A pack with its table.
pub fn lend_table(input: Input) -> Lent {
    let mut lent = Lent::just(input);
    second::pack::read(&lent.file, &mut lent.table).expect("lawful");
    lent
}

pub fn find(lent: &mut Lent) {
    let (pack, table) = (black_box(&lent.file), black_box(&lent.table));
    black_box(xnb::pack::find(pack, table, black_box(&lent.enums)));
}

pub fn second_find(lent: &mut Lent) {
    let (pack, table) = (black_box(&lent.file), black_box(&lent.table));
    black_box(second::pack::find(pack, table, black_box(&lent.enums)));
}
