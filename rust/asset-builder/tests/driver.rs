//! `check --driver`: the rules of the driver's own screen.

mod common;

use common::{has_control, run, run_in, sample, scratch, Ran};
use corpus::folder::{folder, kept_files, kept_files_with_enums};
use corpus::readers::{dictionary_of, list_of, PAGE, STRING, TEXTURE2D};
use corpus::values::*;
use corpus::writer::{write, Value};
use serde_json::Value as Json;
use std::collections::BTreeSet;
use std::fs;

/// The lines that are reported of one file from standard input.
fn reported(file: &[u8]) -> Vec<String> {
    let Ran { out, err, status } = run_in(&folder(), &["check", "--driver", "-"], file);
    assert_eq!((err.as_str(), status), ("", Some(1)), "{out}");
    assert!(!has_control(&out), "{out}");
    out.lines().map(str::to_string).collect()
}

/// A page with this title, no picture and this next page.
fn page_to(title: Value, next: u32) -> Value {
    page(title, rectangle([0; 4]), reference(0), reference(next))
}

#[test]
fn kept_files_have_their_answers() {
    let mut numbers = BTreeSet::new();
    let files = kept_files().into_iter().chain(kept_files_with_enums());
    for file in files {
        // A list as bytes is no text of the command.
        let (Some(driver), true) = (file.driver, file.enums.is_empty()) else {
            continue;
        };
        let name = format!("{}.xnb", file.name);
        let ran = run(&["check", "--driver", &name]);
        let line = ran.out.lines().next().expect("a line");
        match driver.trim_end() {
            "passed" => {
                assert!(line.starts_with(&format!("{name}: rows ")), "{line}");
                assert!(line.ends_with(" padding 0"), "{line}");
                assert_eq!(ran.status, Some(0), "{name}");
            }
            refused => {
                assert!(line.starts_with(&format!("{name}: {refused}: ")), "{line}");
                assert_eq!(ran.status, Some(1), "{name}");
                // The plain check takes the file.
                assert_eq!(run(&["check", &name]).status, Some(0), "{name}");
                let number = refused.split(' ').nth(1).expect("a number");
                numbers.insert(number.parse::<u32>().expect("a number"));
            }
        }
    }
    assert_eq!(numbers, (41..=47).collect());
}

/// The offending reader, key or page is named, with the earlier one that it repeats and where that stands.
#[test]
fn what_breaks_a_rule_is_named() {
    let readers = [PAGE, STRING];
    let lines = reported(&write(&file(&readers, object(1, page_to(null(), 0)), vec![])).bytes);
    assert!(
        lines[0].contains(": a listed reader is used by no type id"),
        "{lines:?}"
    );
    assert_eq!(lines[1], "  no type id names reader 2");
    assert_eq!(lines[2], format!("  {STRING}"));

    let readers = [format!("{PAGE},a tail"), PAGE.to_string()];
    let first = object(1, page_to(null(), 1));
    let second = object(2, page_to(null(), 1));
    let lines = reported(&write(&file(&readers, first, vec![second])).bytes);
    assert!(
        lines[0].contains(" a reader has the target of an earlier one"),
        "{lines:?}"
    );
    let found = "  reader 2 reads Coach.Console.Page, as reader 1 does, whose name is at byte 12";
    assert_eq!(lines[1], found);
    assert_eq!(lines[2], format!("  {PAGE}"));

    let readers = [
        PAGE.to_string(),
        dictionary_of("System.String", "System.Int32"),
        STRING.to_string(),
    ];
    let key = |name: &str| bound_object(3, text(name));
    let entries = vec![
        (key("Doors"), int32(1)),
        (key("Steps"), int32(2)),
        (key("Doors"), int32(3)),
    ];
    let page = object(1, page_to(null(), 1));
    let shared = vec![
        object(1, page_to(null(), 1)),
        object(2, dictionary(entries)),
    ];
    let written = write(&file(&readers, page, shared));
    let lines = reported(&written.bytes);
    let (earlier, later) = (written.rows[11][1], written.rows[15][1]);
    assert!(
        lines[0].starts_with(&format!("-: refused 45 at {later}: ")),
        "{lines:?}"
    );
    let found = format!(
        "  the key \"Doors\" of row 15 repeats that of row 11 at byte {earlier}, in the dictionary of row 10"
    );
    assert_eq!(lines[1], found);

    let readers = [PAGE, STRING];
    let first = object(1, page_to(bound_object(2, text("Doors")), 1));
    let second = object(1, page_to(bound_object(2, text("Steps\n")), 0));
    let lines = reported(&write(&file(&readers, first, vec![second])).bytes);
    assert!(
        lines[0].ends_with(": the next of a page has resource id 0"),
        "{lines:?}"
    );
    assert_eq!(
        lines[1],
        "  the page \"Steps\\n\" of row 5 has no next page"
    );

    let lines = reported(&sample("ok-kind-13-string.xnb"));
    assert_eq!(lines[1], "  the first object is of kind String");
    let lines = reported(&sample("ok-header-phone-reach.xnb"));
    assert_eq!(lines[1], "  the platform is m, w is taken");
}

#[test]
fn padded_numbers_are_named() {
    let of = |name: &str| reported(&sample(name))[1].trim_start().to_string();
    assert_eq!(
        of("ok-padded-reader-count-of-0.xnb"),
        "the reader count is 0 in 2 bytes, 1 would do"
    );
    let page = of("ok-padded-page-reference.xnb");
    assert!(page.starts_with("the resource id of row 4 is "), "{page}");
    // The text count of the first row.
    let text = of("ok-text-count-in-2-bytes.xnb");
    assert_eq!(text, "the text count of row 0 is 2 in 2 bytes, 1 would do");
    let id = of("ok-type-id-1-in-4-bytes.xnb");
    assert_eq!(id, "the type id of row 0 is 1 in 4 bytes, 1 would do");
}

#[test]
fn the_driver_is_asked_in_json_and_with_enums_and_rows() {
    let top = scratch("driver-json");
    let readers = [
        PAGE.to_string(),
        list_of("Coach.Door"),
        TEXTURE2D.to_string(),
    ];
    let first = object(
        1,
        page(null(), rectangle([0; 4]), reference(3), reference(1)),
    );
    let shared = vec![
        object(1, page_to(null(), 1)),
        object(2, list(vec![fixed(15, &[7])])),
        object(3, texture(0, 1, 1, 1)),
    ];
    let bytes = write(&file(&readers, first, shared)).bytes;
    fs::write(top.join("page.xnb"), &bytes).expect("a file");
    fs::write(top.join("enums.txt"), "Coach.Door 1\n").expect("a list");
    let words = [
        "check",
        "--driver",
        "--json",
        "page.xnb",
        "--enums",
        "enums.txt",
    ];
    let ran = run_in(&top, &words, &[]);
    assert_eq!((ran.err.as_str(), ran.status), ("", Some(0)), "{}", ran.out);
    let first: Json = serde_json::from_str(ran.out.lines().next().expect("a line")).expect("JSON");
    assert_eq!(first["accepted"]["rows"], 14);

    // The plain loader's refusals come first.
    let ran = run_in(&top, &words[..4], &[]);
    let first: Json = serde_json::from_str(ran.out.lines().next().expect("a line")).expect("JSON");
    assert_eq!(first["refused"]["number"], 11);
    let ran = run_in(&top, &[&words[..], &["--rows", "13"]].concat(), &[]);
    let first: Json = serde_json::from_str(ran.out.lines().next().expect("a line")).expect("JSON");
    assert_eq!(first["refused"]["number"], 19);

    let ran = run(&["check", "--driver", "--json", "ok-driver-equal-readers.xnb"]);
    let first: Json = serde_json::from_str(ran.out.lines().next().expect("a line")).expect("JSON");
    let refused = &first["refused"];
    assert_eq!(
        first["answer"],
        (44_u64 << 32) + refused["place"].as_u64().expect("a place")
    );
    assert_eq!(refused["reader"]["number"], 2);
    assert_eq!(refused["reader"]["first"], refused["place"]);
}
