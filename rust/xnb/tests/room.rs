//! How much a load may take: of the stack, for the driver's screen; and of rows, as a report lends them.

use corpus::folder::{kept_files, kept_files_with_enums};
use std::thread;
use xnb::raw::{load_driver, load_table};
use xnb::{Shape, MOST_ROWS, WORDS_PER_ROW};

/// What crates/builder/xnb.h says beside the stack of a plain load, and some for the thread itself.
const STACK: usize = 386 * 1024;

/// Loads in a thread with so much stack; too little ends the whole test.
#[test]
fn the_drivers_loader_needs_no_more_stack_than_the_header_says() {
    let files: Vec<Vec<u8>> = fuzz::driver::limits()
        .into_iter()
        .map(|limit| limit.case.case.bytes)
        .chain(kept_files().into_iter().map(|sample| sample.bytes))
        .collect();
    let all = files.len();
    let loads = move || {
        let mut words = vec![0; WORDS_PER_ROW * MOST_ROWS];
        let loads = files.iter().map(|file| load_driver(file, &[], &mut words));
        loads.filter(|answer| answer.packed >> 32 == 0).count()
    };
    let thread = thread::Builder::new().stack_size(STACK).spawn(loads);
    let passed = thread.expect("a thread").join().expect("an end");
    assert!(passed > 10 && passed < all, "{passed} files pass");
}

/// A row for each byte is enough: a report lends no more at first, and loads again only after 19.
#[test]
fn no_file_has_more_rows_than_bytes() {
    let kept = kept_files().into_iter().chain(kept_files_with_enums());
    let kept = kept.map(|sample| (sample.name, sample.bytes, sample.enums));
    let generated = (0..20_000).map(|seed| {
        let file = fuzz::case(seed).bytes;
        (format!("file {seed}"), file, Vec::new())
    });
    let meshes = (0..5_000).map(|seed| {
        let file = fuzz::meshes::case(seed).bytes;
        (format!("meshes {seed}"), file, Vec::new())
    });
    let mut accepted = 0;
    let mut words = vec![0; WORDS_PER_ROW * MOST_ROWS];
    for (name, file, enums) in kept.chain(generated).chain(meshes) {
        let rows = file.len().min(MOST_ROWS);
        let few = load_table(
            Shape::Rows,
            &file,
            &enums,
            &mut words[..WORDS_PER_ROW * rows],
        );
        let all = load_table(Shape::Rows, &file, &enums, &mut words);
        assert_eq!(few, all, "{name}");
        accepted += u32::from(all.packed >> 32 == 0);
    }
    assert!(accepted > 5_000, "{accepted} files are accepted");
}
