//! Req 06: the library's padding beside the padding that is known, and beside the lengths of its own rewritten files.

use corpus::folder::kept_files;
use fuzz::{Case, Known};
use xnb::raw::{self, LoadAnswer};
use xnb::{Columns, Shape, Table, WORDS_PER_ROW};

const FILES: u64 = 30_000;

/// The padding of a file that is taken, which both shapes report; after a refusal both report 0.
fn padding(name: &str, file: &[u8], words: usize) -> Option<usize> {
    let answer = |shape, garbage| raw::load_table(shape, file, &[], &mut vec![garbage; words]);
    let by_rows = answer(Shape::Rows, 0xAAAA_AAAA);
    let columns = answer(Shape::Columns, 0x5555_5555);
    assert_eq!(columns, by_rows, "{name} with {words} words");
    let LoadAnswer {
        packed, padding, ..
    } = by_rows;
    if packed >> 32 > 0 {
        assert_eq!(padding, 0, "{name}: refused with {words} words");
        return None;
    }
    Some(padding as usize)
}

/// The rewritten file, unless the file is refused.
fn rewritten(file: &[u8], words: usize) -> Option<Vec<u8>> {
    let mut out = vec![0; file.len()];
    let length = xnb::rewrite(file, &mut vec![0; words], &mut out).ok()?;
    out.truncate(length);
    Some(out)
}

/// "Equal to the file's length less the rewritten file's length", and 0 exactly if the file is already shortest;
/// answers the padding of a file that is taken.
fn check(name: &str, file: &[u8], words: usize) -> Option<usize> {
    let reported = padding(name, file, words);
    let shortest = rewritten(file, words);
    let expected = shortest.as_ref().map(|it| file.len() - it.len());
    assert_eq!(reported, expected, "{name} with {words} words");
    let shortest = shortest?;
    assert_eq!(reported == Some(0), shortest == file, "{name}");
    let again = padding(name, &shortest, words);
    assert_eq!(again, Some(0), "{name}, rewritten");
    reported
}

/// The same with the words given, with just enough and with one less.
fn check_rooms(name: &str, file: &[u8], words: usize) -> Option<usize> {
    let reported = check(name, file, words);
    if let Ok(table) = Table::load(file) {
        let just = WORDS_PER_ROW * table.loaded().rows;
        assert_eq!(reported.is_some(), words >= just, "{name}");
        assert_eq!(check(name, file, just - 1), None, "{name}");
        assert_eq!(check(name, file, just), Some(table.padding()), "{name}");
        let columns = Columns::load(file).expect("as by rows");
        assert_eq!(columns.padding(), table.padding(), "{name}");
    }
    reported
}

/// The same, and what is known of the case.
fn check_case(name: &str, case: &Case) -> Option<usize> {
    let reported = check_rooms(name, &case.bytes, case.words);
    match case.known {
        Some(Known::Accepted { padding, .. }) => assert_eq!(reported, Some(padding), "{name}"),
        Some(Known::Refused { .. }) => assert_eq!(reported, None, "{name}"),
        None => {}
    }
    reported
}

/// Checks the case of each seed; a good part of the files pads, and a good part does not.
fn check_seeds(case: fn(u64) -> Case) {
    let (mut taken, mut padded) = (0, 0);
    for seed in 0..FILES {
        let reported = check_case(&format!("seed {seed}"), &case(seed));
        taken += u32::from(reported.is_some());
        padded += u32::from(reported > Some(0));
    }
    println!("{taken} taken, {padded} of them padded");
    let plain = taken - padded;
    assert!(padded > 2_000 && plain > 2_000, "{padded} of {taken}");
}

#[test]
fn generated_files() {
    check_seeds(fuzz::case);
}

#[test]
fn files_padded_by_chosen_amounts() {
    check_seeds(fuzz::padding::case);
}

#[test]
fn files_at_every_limit() {
    for limit in fuzz::limits::cases() {
        check_case(&limit.name, &limit.case);
    }
}

#[test]
fn corpus_files() {
    let mut padded = 0;
    for file in kept_files() {
        for words in [0, WORDS_PER_ROW, 100, WORDS_PER_ROW * 65_536] {
            let reported = check_rooms(&file.name, &file.bytes, words);
            if let Some(reported) = reported {
                assert_eq!(reported, file.padding, "{}", file.name);
            }
        }
        padded += u32::from(file.padding > 0);
    }
    assert!(padded > 20, "only {padded} files pad");
}

/// A row and all below it have so many bytes more than in the rewritten file as they pad.
#[test]
fn each_row_pads_as_the_rewritten_file_tells() {
    let mut padded = 0;
    for sample in kept_files() {
        let Ok(table) = Table::load(&sample.bytes) else {
            continue;
        };
        let name = &sample.name;
        let shortest = xnb::shorten(&sample.bytes).expect("a file that is taken");
        let shortest = Table::load(&shortest).expect("it is taken rewritten");
        let own: Vec<usize> = (0..table.loaded().rows as u32)
            .map(|row| table.row_padding(row).expect("a row"))
            .collect();
        for (long, short) in table.rows().zip(shortest.rows()) {
            let below: usize = own[long.number as usize..][..long.rows].iter().sum();
            assert_eq!(
                long.length - short.length,
                below,
                "{name}: row {}",
                long.number
            );
        }
        padded += own.iter().filter(|it| **it > 0).count();
        let refused = table.row_padding(own.len() as u32).unwrap_err();
        assert_eq!(refused.refusal, xnb::Refusal::NoSuchRow, "{name}");
    }
    assert!(padded > 10, "only {padded} rows that pad");
}
