//! Req 02: lists of enum types by name and size, and loads with them.

use corpus::enums::{entry, list_bytes, SIZES, TARGET_NAMES};
use corpus::folder::kept_files_with_enums;
use second::printed_rows_with;
use std::collections::HashMap;
use xnb::{
    EnumFault, EnumList, EnumsRefused, Loader, Refusal, Refused, Shape, Table, WORDS_PER_ROW,
};

const LISTS: u64 = 20_000;
const LONG_LISTS: u64 = 500;

/// The refusal of a list of these names and sizes: entry, name and fault.
fn refused(types: &[(&str, u8)]) -> (usize, String, Option<EnumFault>) {
    let refused = EnumList::new(types.iter().copied()).expect_err("a refused list");
    (refused.entry, refused.name, refused.fault)
}

#[test]
fn lists_have_the_bytes_of_document_02() {
    let types = [("Coach.Door", 1), ("A", 2), ("_9.+z", 4), ("E", 8)];
    let list = EnumList::new(types).expect("a lawful list");
    assert_eq!(
        list.as_bytes(),
        b"\x0ACoach.Door\x01\x01A\x02\x05_9.+z\x04\x01E\x08"
    );
    assert_eq!(list.as_bytes(), list_bytes(&types));
    assert!(list.types().eq(types));
    assert_eq!((list.len(), list.is_empty()), (4, false));
    assert_eq!(list.size_of("A"), Some(2));
    assert_eq!(list.size_of("a"), None);
    assert_eq!(EnumList::from_bytes(list.as_bytes()), Ok(list));

    let empty = EnumList::default();
    assert_eq!((empty.len(), empty.is_empty()), (0, true));
    assert_eq!(EnumList::from_bytes([]), Ok(empty.clone()));
    assert_eq!(EnumList::new::<&str>([]), Ok(empty));
}

#[test]
fn names_of_1_to_255_bytes_are_listed() {
    for length in [1, 254, 255] {
        let name = "x".repeat(length);
        let list = EnumList::new([(&name, 1)]).expect("a lawful list");
        assert_eq!(list.types().next(), Some((&*name, 1)));
    }
    let long = "x".repeat(256);
    let fault = Some(EnumFault::NameTooLong(256));
    assert_eq!(refused(&[("A", 1), (&long, 1)]), (1, long.clone(), fault));
    // An entry before it comes first.
    let fault = Some(EnumFault::Size(3));
    assert_eq!(refused(&[("A", 3), (&long, 1)]), (0, "A".into(), fault));
}

#[test]
fn each_fault_is_found() {
    for size in 0..=255 {
        let list = EnumList::new([("A", 1), ("B", size)]);
        match SIZES.contains(&size) {
            true => assert_eq!(list.expect("a lawful list").size_of("B"), Some(size)),
            false => {
                let fault = list.expect_err("a wrong size").fault;
                assert_eq!(fault, Some(EnumFault::Size(size)));
            }
        }
    }
    for byte in 0..=255 {
        let name = [b'A', byte, b'z'];
        let list = EnumList::new([(&name, 1)]);
        let lawful = byte.is_ascii_alphanumeric() || b"._+".contains(&byte);
        let fault = list.map_err(|it| it.fault).err();
        let expected = (!lawful).then_some(Some(EnumFault::NameByte(byte)));
        assert_eq!(fault, expected, "{byte:02X}");
    }
    for name in TARGET_NAMES {
        let fault = Some(EnumFault::KnownType);
        assert_eq!(
            refused(&[("A", 1), (name, 1)]),
            (1, name.to_string(), fault)
        );
    }
    let fault = Some(EnumFault::EmptyName);
    assert_eq!(refused(&[("", 1)]), (0, String::new(), fault));
    let fault = Some(EnumFault::Listed(1));
    let twice = [("A", 1), ("B", 2), ("C", 4), ("B", 2)];
    assert_eq!(refused(&twice), (3, "B".into(), fault));
}

#[test]
fn bytes_that_are_cut_are_refused_at_the_entry() {
    let list = list_bytes(&[("Coach.Door", 1), ("Coach.Seat", 2)]);
    for end in 0..list.len() {
        let answer = EnumList::from_bytes(&list[..end]);
        if [0, 12].contains(&end) {
            assert_eq!(answer.map(|it| it.len()), Ok(end / 12));
            continue;
        }
        let refused = answer.expect_err("a cut list");
        assert_eq!(refused.entry, end / 12, "{end}");
        assert_eq!(refused.fault, Some(EnumFault::CutShort), "{end}");
        assert!("Coach.Door Coach.Seat".contains(&refused.name), "{refused}");
    }
}

#[test]
fn faults_are_reported() {
    let reported = |types: &[(&str, u8)]| {
        let refused = EnumList::new(types.iter().copied());
        refused.expect_err("a refused list").to_string()
    };
    let expected =
        "entry 1 of the enum list, Coach.Seat: the size is 3; only 1, 2, 4 and 8 are taken";
    assert_eq!(reported(&[("Coach.Door", 1), ("Coach.Seat", 3)]), expected);
    let expected = "entry 0 of the enum list: the name is empty";
    assert_eq!(reported(&[("", 1)]), expected);
    let expected = "entry 0 of the enum list, Coach Door: the name has the byte 20; \
        only letters, digits, ., _ and + are taken";
    assert_eq!(reported(&[("Coach Door", 1)]), expected);
    let expected = "entry 0 of the enum list, System.Byte: a type of this name is known already";
    assert_eq!(reported(&[("System.Byte", 1)]), expected);
    let expected = "entry 2 of the enum list, A: the name is listed before, as entry 0";
    assert_eq!(reported(&[("A", 1), ("B", 1), ("A", 1)]), expected);
    let long = "x".repeat(300);
    let expected =
        format!("entry 0 of the enum list, {long}: the name has 300 bytes, the limit 255");
    assert_eq!(reported(&[(&long, 1)]), expected);
    let refused = EnumList::from_bytes(*b"\x05Coac").expect_err("a cut list");
    let expected = "entry 0 of the enum list, Coac: the list ends in it";
    assert_eq!(refused.to_string(), expected);
}

/// A list that is refused is refused by every call, before all else of the file.
#[test]
fn a_refused_list_refuses_every_file() {
    let list = [entry(b"Coach.Door", 1), entry(b"Coach.Door", 1)].concat();
    let refused = Refused {
        refusal: Refusal::EnumEntry,
        place: 1,
    };
    let loader = Loader::new().with_enum_bytes(&list);
    for sample in kept_files_with_enums() {
        let file = &sample.bytes;
        assert_eq!(loader.load(file).map(|it| it.loaded()), Err(refused));
        assert_eq!(
            loader.load_columns(file).map(|it| it.loaded()),
            Err(refused)
        );
        assert_eq!(loader.shorten(file), Err(refused.into()));
        assert_eq!(loader.rewrite(file, &mut [], &mut []), Err(refused));
        let explanation = loader.explain(file, refused, 0).expect("an explanation");
        let words = "entry 1 of the enum list, Coach.Door: the name is listed before, as entry 0";
        assert_eq!(explanation.found, words);
    }
}

/// What `rows` would print for a file, with a list lent.
fn printed(loader: Loader, file: &[u8]) -> String {
    let mut words = vec![7; WORDS_PER_ROW * 1024];
    let loaded = match loader.load_words(Shape::Rows, file, &mut words) {
        Ok(loaded) => loaded,
        Err(Refused { refusal, place }) => {
            return format!("refused {} at {place}\n", refusal.number())
        }
    };
    let (rows, readers, shared) = (loaded.rows, loaded.readers, loaded.shared);
    let mut lines = format!("rows {rows} readers {readers} shared {shared}\n");
    for (number, row) in words.chunks_exact(WORDS_PER_ROW).take(rows).enumerate() {
        let words: Vec<String> = row.iter().map(|word| word.to_string()).collect();
        lines += &format!("{number} {}\n", words.join(" "));
    }
    lines
}

#[test]
fn kept_files_give_their_rows_with_their_lists() {
    let (mut lawful, mut refused_lists) = (0, 0);
    for sample in kept_files_with_enums() {
        let loader = Loader::new().with_enum_bytes(&sample.enums);
        let reported = printed(loader, &sample.bytes);
        assert_eq!(reported, sample.rows, "{}", sample.name);
        let second = printed_rows_with(&sample.enums, &sample.bytes);
        assert_eq!(reported, second, "{}", sample.name);
        match EnumList::from_bytes(sample.enums.clone()) {
            Ok(list) => {
                let loader = Loader::new().with_enums(&list);
                assert_eq!(printed(loader, &sample.bytes), reported, "{}", sample.name);
                lawful += 1;
            }
            Err(EnumsRefused { entry, fault, .. }) => {
                assert_eq!(
                    reported,
                    format!("refused 32 at {entry}\n"),
                    "{}",
                    sample.name
                );
                assert!(fault.is_some(), "{}", sample.name);
                refused_lists += 1;
            }
        }
    }
    println!("{lawful} lists are lawful, {refused_lists} refused");
    assert!(lawful > 50 && refused_lists > 40);
}

/// Tables of their own words, in both shapes, shortest forms and padding agree.
#[test]
fn loaders_agree_on_kept_files() {
    let mut taken = 0;
    for sample in kept_files_with_enums() {
        let loader = Loader::new().with_enum_bytes(&sample.enums);
        let Ok(table) = loader.load(&sample.bytes) else {
            continue;
        };
        let columns = loader.load_columns(&sample.bytes).expect("as by rows");
        assert!(columns.rows().eq(table.rows()), "{}", sample.name);
        assert_eq!(columns.loaded(), table.loaded(), "{}", sample.name);
        assert_eq!(table.padding(), sample.padding, "{}", sample.name);
        let just = vec![7; table.words().len()];
        let lent: Table<_> = loader.load_into(&sample.bytes, just).expect("room enough");
        assert_eq!(lent.words(), table.words(), "{}", sample.name);
        let shortest = loader.shorten(&sample.bytes).expect("a lawful file");
        let length = sample.bytes.len() - table.padding();
        assert_eq!(shortest.len(), length, "{}", sample.name);
        taken += 1;
    }
    assert!(taken > 40, "only {taken} files are taken");
}

/// The entry that a list is refused at is the one that the second program refuses, and its fault is found.
#[test]
fn generated_lists_are_refused_as_by_the_second_program() {
    let (mut lawful, mut faults) = (0, HashMap::new());
    for seed in 0..LISTS {
        let bytes = fuzz::enums::case(seed).enums;
        // An empty file is refused after every list.
        let second = second::load(&[], &bytes, &mut []).expect_err("an empty file");
        match EnumList::from_bytes(bytes.clone()) {
            Ok(list) => {
                assert_eq!(second.number, 1, "seed {seed}");
                assert_eq!(EnumList::new(list.types()), Ok(list), "seed {seed}");
                lawful += 1;
            }
            Err(refused) => {
                let expected = (32, refused.entry);
                assert_eq!((second.number, second.place), expected, "seed {seed}");
                let fault = refused.fault.expect("a fault");
                *faults.entry(std::mem::discriminant(&fault)).or_insert(0) += 1;
            }
        }
    }
    println!("{lawful} lists are lawful; faults: {:?}", faults.values());
    // All faults but the name that is too long for bytes.
    assert_eq!((lawful > LISTS / 2, faults.len()), (true, 6));
}

/// What a load of the empty file is refused with under a list, by the library and by the second program.
fn both_refusals(enums: &[u8]) -> [(u32, usize); 2] {
    let second = second::load(&[], enums, &mut []).expect_err("an empty file");
    let loader = Loader::new().with_enum_bytes(enums);
    let mut words = [7; WORDS_PER_ROW];
    let library = loader.load_words(Shape::Rows, &[], &mut words);
    let Refused { refusal, place } = library.expect_err("an empty file");
    [
        (refusal.number(), place as usize),
        (second.number, second.place),
    ]
}

/// Lists of up to 20,000 entries, with and without a repeat or another fault, at the end and elsewhere.
#[test]
fn long_lists_are_judged_as_by_the_second_program() {
    let (mut lawful, mut refused, mut entries) = (0, 0, 0);
    for seed in 0..LONG_LISTS {
        let list = fuzz::enums::long_list(seed);
        let expected = list.refused.map_or((1, 0), |entry| (32, entry));
        assert_eq!(both_refusals(&list.enums), [expected; 2], "seed {seed}");
        match list.refused {
            None => lawful += 1,
            Some(entry) => (refused, entries) = (refused + 1, entries + entry),
        }
    }
    println!("{lawful} lists are lawful, {refused} refused after {entries} entries");
    assert!(lawful > 100 && refused > 200 && entries > 100_000);
}

/// Marks that are all the same decide nothing: each name is looked for among the earlier ones.
#[test]
fn names_with_the_same_marks_are_told_apart() {
    let names = fuzz::enums::alike(3_000);
    assert_eq!(names.len(), 3_000);
    let mut list = Vec::new();
    for name in &names {
        list.extend(entry(name.as_bytes(), 1));
    }
    assert_eq!(both_refusals(&list), [(1, 0); 2]);
    for again in [0, 1_500, 2_999] {
        let twice = [list.clone(), entry(names[again].as_bytes(), 1)].concat();
        assert_eq!(both_refusals(&twice), [(32, 3_000); 2], "{again}");
    }
}
