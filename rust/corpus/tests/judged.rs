//! The program `reader_names` is run on all names of the table, and must write the table's numbers and places.

use corpus::folder::root;
use corpus::names::{all, files, lines, of_wrong_length, printed};

fn kept(name: &str) -> Vec<u8> {
    std::fs::read(root().join("crates/reader_names").join(name)).expect(name)
}

#[test]
fn every_name_is_judged() {
    let mut judged = 0;
    for (file, names) in files() {
        let found = kept(&format!("data/{file}"));
        assert!(
            found == lines(&names).as_bytes(),
            "data/{file} is not the table's: run the program corpus with `names`"
        );
        judged += names.len();
    }
    assert_eq!(judged, all().len() + of_wrong_length().len());
}

#[test]
fn every_number_and_place_is_the_tables() {
    assert!(
        kept("stdout") == printed().as_bytes(),
        "stdout is not the table's: run the program corpus with `names`"
    );
}

#[test]
fn no_name_ends_a_line() {
    assert!(all().iter().all(|judged| !judged.name.contains('\n')));
}
