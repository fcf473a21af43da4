//! The driver's profile in the second program: the samples, and its rules over plain files.

use corpus::folder::{kept_files, kept_files_with_enums};
use second::driver;
use second::{load, refusal_line, WORDS_PER_ROW};
use std::collections::BTreeSet;

/// Room for 1,024 rows.
const WORDS: usize = 1024 * WORDS_PER_ROW;

#[test]
fn kept_files_give_the_drivers_answer() {
    let mut numbers = BTreeSet::new();
    for file in kept_files() {
        let Some(expected) = &file.driver else {
            continue;
        };
        let mut words = vec![7; WORDS];
        let (line, number) = match driver::load(&file.bytes, &file.enums, &mut words) {
            Ok(_) => ("passed\n".to_string(), 0),
            Err(refusal) => (refusal_line(refusal), refusal.number),
        };
        assert_eq!(line, *expected, "{}", file.name);
        numbers.insert(number);
    }
    assert_eq!(numbers, BTreeSet::from([0, 41, 42, 43, 44, 45, 46, 47]));
}

/// "Its rows are then the plain loader's; after any refusal the table is zero", and "all of 01's first".
#[test]
fn every_kept_file_has_the_plain_loaders_rows_or_none() {
    let (mut passed, mut stricter, mut refused) = (0, 0, 0);
    for file in kept_files().into_iter().chain(kept_files_with_enums()) {
        let (mut plain, mut words) = (vec![7; WORDS], vec![7; WORDS]);
        let loaded = load(&file.bytes, &file.enums, &mut plain);
        let answer = driver::load(&file.bytes, &file.enums, &mut words);
        match answer {
            Ok(_) => {
                assert_eq!(answer, loaded, "{}", file.name);
                assert!(words == plain, "{}", file.name);
                passed += 1;
            }
            Err(refusal) if loaded.is_ok() => {
                assert!((41..=47).contains(&refusal.number), "{}", file.name);
                assert!(words == [0; WORDS], "{}", file.name);
                stricter += 1;
            }
            Err(_) => {
                assert_eq!(answer, loaded, "{}", file.name);
                assert!(words == [0; WORDS], "{}", file.name);
                refused += 1;
            }
        }
    }
    println!("{passed} passed, {stricter} refused by the profile, {refused} by 01");
    assert!(passed >= 5 && stricter > 100 && refused > 300);
}
