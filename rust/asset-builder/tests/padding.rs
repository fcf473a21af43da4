//! The padding that `check` reports, and the files that pad, most first.

mod common;

use common::{run, run_in, sample, scratch, shell};
use corpus::folder::kept_files;
use serde_json::{json, Value as Json};
use std::fs;
use std::path::{Path, PathBuf};

/// Each line as JSON.
fn lines(text: &str) -> Vec<Json> {
    let json = |line| serde_json::from_str(line).expect("JSON");
    text.lines().map(json).collect()
}

/// Folders of two suppliers, of which the second pads more in fewer files, and one that does not pad.
fn depot(name: &str) -> PathBuf {
    let top = scratch(name);
    let files = [
        ("north/a.xnb", "ok-type-id-1-in-4-bytes.xnb"),
        ("north/b/b.xnb", "ok-text-count-in-2-bytes.xnb"),
        ("north/c.xnb", "ok-kind-13-string.xnb"),
        ("south/a.xnb", "ok-every-number-in-2-bytes.xnb"),
        ("south/b.xnb", "ok-kind-00-null.xnb"),
        ("west/a.xnb", "ok-kind-34-page.xnb"),
    ];
    for (place, sample_name) in files {
        put(&top.join(place), &sample(sample_name));
    }
    top
}

fn put(path: &Path, bytes: &[u8]) {
    fs::create_dir_all(path.parent().expect("a folder")).expect("a folder");
    fs::write(path, bytes).expect("a file");
}

#[test]
fn each_accepted_file_has_its_padding_and_the_last_line_the_total() {
    let ran = run(&[
        "check",
        "ok-type-id-1-in-4-bytes.xnb",
        "ok-kind-13-string.xnb",
        "ok-text-count-in-2-bytes.xnb",
    ]);
    let expected = "\
ok-type-id-1-in-4-bytes.xnb: rows 1 readers 1 shared 0 padding 3
ok-kind-13-string.xnb: rows 1 readers 1 shared 0 padding 0
ok-text-count-in-2-bytes.xnb: rows 1 readers 1 shared 0 padding 1
3 files: 3 accepted, 0 refused, 0 unread; padding 4 in 2 files
";
    assert_eq!((ran.out.as_str(), ran.status), (expected, Some(0)));
}

#[test]
fn programs_get_the_padding_and_the_length() {
    let ran = run(&["check", "--json", "ok-text-count-in-2-bytes.xnb"]);
    let accepted = json!({"rows": 1, "readers": 1, "shared": 0, "padding": 1, "bytes": 66});
    let expected = [
        json!({"schema": 1, "file": "ok-text-count-in-2-bytes.xnb", "answer": 1, "accepted": accepted}),
        json!({"schema": 1, "summary": {"files": 1, "accepted": 1, "refused": 0, "unread": 0, "padding": 1, "padded": 1}}),
    ];
    assert_eq!(lines(&ran.out), expected);
}

/// The padding is what `shorten` leaves out.
#[test]
fn shortened_files_are_shorter_by_their_padding() {
    let top = scratch("shorter");
    let mut total = 0;
    for file in kept_files() {
        let Ok(shortest) = xnb::shorten(&file.bytes) else {
            continue;
        };
        let checked = run_in(&top, &["check", "--json", "--rows=65536", "-"], &file.bytes);
        let accepted = &lines(&checked.out)[0]["accepted"];
        let padding = file.bytes.len() - shortest.len();
        assert_eq!(accepted["padding"], padding, "{}", file.name);
        assert_eq!(accepted["bytes"], file.bytes.len(), "{}", file.name);
        total += padding;
    }
    assert!(total > 300, "{total}");
}

#[test]
fn files_that_pad_are_listed_most_first_and_folders_summed() {
    let top = depot("by-padding");
    let line = ["check", "--by-padding", "north", "south", "west"];
    let ran = run_in(&top, &line, &[]);
    let expected = "\
south/a.xnb: padding 29 of 751 bytes
north/a.xnb: padding 3 of 64 bytes
north/b/b.xnb: padding 1 of 66 bytes
south: padding 29 in 1 of 2 files
north: padding 4 in 2 of 3 files
6 files: 6 accepted, 0 refused, 0 unread; padding 33 in 3 files
";
    assert_eq!((ran.out.as_str(), ran.status), (expected, Some(0)));
    // A shell names a folder for each supplier.
    let by_shell = shell(&top, "asset-builder check --by-padding */");
    let expected = expected.replace("th:", "th/:");
    assert_eq!((by_shell.out, by_shell.status), (expected, Some(0)));
}

#[test]
fn programs_get_the_files_that_pad_the_folders_and_the_summary() {
    let ran = run_in(
        &depot("by-padding-json"),
        &["check", "--by-padding", "--json", "west", "north", "south"],
        &[],
    );
    let reported = lines(&ran.out);
    let files: Vec<&Json> = reported.iter().map(|it| &it["file"]).collect();
    let expected = ["south/a.xnb", "north/a.xnb", "north/b/b.xnb"];
    assert_eq!(files[..3], expected);
    assert_eq!(reported[0]["accepted"]["padding"], 29);
    assert_eq!(reported[0]["accepted"]["bytes"], 751);
    let expected = [
        json!({"schema": 1, "folder": "south", "accepted": 2, "padding": 29, "padded": 1}),
        json!({"schema": 1, "folder": "north", "accepted": 3, "padding": 4, "padded": 2}),
        json!({"schema": 1, "summary": {"files": 6, "accepted": 6, "refused": 0, "unread": 0, "padding": 33, "padded": 3}}),
    ];
    assert_eq!(reported[3..], expected);
}

/// Of equal padding the file named first stands first; a file that is named has no folder.
#[test]
fn equal_files_stay_in_order() {
    let names = [
        "ok-type-id-1-in-2-bytes.xnb",
        "ok-type-id-0-in-3-bytes.xnb",
        "ok-type-id-0-in-2-bytes.xnb",
        "ok-kind-00-null.xnb",
        "ok-text-count-in-2-bytes.xnb",
    ];
    let ran = run(&[&["check", "--by-padding"], &names[..]].concat());
    let expected = "\
ok-type-id-0-in-3-bytes.xnb: padding 2 of 15 bytes
ok-type-id-1-in-2-bytes.xnb: padding 1 of 62 bytes
ok-type-id-0-in-2-bytes.xnb: padding 1 of 14 bytes
ok-text-count-in-2-bytes.xnb: padding 1 of 66 bytes
5 files: 5 accepted, 0 refused, 0 unread; padding 5 in 4 files
";
    assert_eq!((ran.out.as_str(), ran.status), (expected, Some(0)));
}

#[test]
fn files_without_padding_are_not_listed() {
    let ran = run(&["check", "--by-padding", "ok-kind-13-string.xnb"]);
    let expected = "1 file: 1 accepted, 0 refused, 0 unread; padding 0 in 0 files\n";
    assert_eq!((ran.out.as_str(), ran.status), (expected, Some(0)));
}

/// What is refused or unread is reported, and has no padding.
#[test]
fn refusals_are_reported_beside_the_list() {
    let top = depot("by-padding-refused");
    // Padded and cut: the last byte of a padded file lacks.
    let mut cut = sample("ok-text-count-in-2-bytes.xnb");
    cut.pop();
    put(&top.join("north/cut.xnb"), &cut);
    let ran = run_in(&top, &["check", "--by-padding", "north", "none.xnb"], &[]);
    let (refusal, list) = ran
        .out
        .split_once("north/a.xnb: ")
        .expect("a file that pads");
    assert!(
        refusal.starts_with("north/cut.xnb: refused 7 at 6: "),
        "{refusal}"
    );
    let expected = "\
padding 3 of 64 bytes
north/b/b.xnb: padding 1 of 66 bytes
north: padding 4 in 2 of 3 files
5 files: 3 accepted, 1 refused, 1 unread; padding 4 in 2 files
";
    assert_eq!((list, ran.status), (expected, Some(2)));
    assert!(ran.err.starts_with("none.xnb: "), "{}", ran.err);
    let ran = run_in(
        &top,
        &["check", "--by-padding", "--json", "north/cut.xnb"],
        &[],
    );
    let reported = lines(&ran.out);
    assert_eq!(reported[0]["refused"]["number"], 7);
    assert_eq!(reported[0].get("accepted"), None);
    let padding = &reported[1]["summary"]["padding"];
    assert_eq!((padding, ran.status), (&json!(0), Some(1)));
}

#[test]
fn standard_input_is_listed() {
    let file = sample("ok-text-count-in-2-bytes.xnb");
    let ran = run_in(
        &scratch("by-padding-input"),
        &["check", "--by-padding", "-"],
        &file,
    );
    let expected = "\
-: padding 1 of 66 bytes
1 file: 1 accepted, 0 refused, 0 unread; padding 1 in 1 file
";
    assert_eq!((ran.out.as_str(), ran.status), (expected, Some(0)));
}
