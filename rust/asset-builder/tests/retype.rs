//! `retype`: another text of the same length in a file.

mod common;

use common::{names, run, run_in, sample, scratch, shell, Ran};
use corpus::folder::kept_files;
use corpus::readers::{enum_of, list_of, STRING};
use corpus::values::*;
use corpus::writer::write;
use std::fs;
use xnb::{Kind, Table};

/// Its primary object is the text "Hi" in row 0.
const TEXT: &str = "ok-kind-13-string.xnb";

fn reported(ran: &Ran) -> (&str, &str, Option<i32>) {
    (&ran.out, &ran.err, ran.status)
}

#[test]
fn the_text_takes_the_place_of_the_old_one() {
    let top = scratch("retype");
    fs::write(top.join("in.xnb"), sample(TEXT)).expect("a file");
    let words = |text, output| {
        [
            "retype", "in.xnb", "--row", "0", "--text", text, "-o", output,
        ]
    };
    let ran = run_in(&top, &words("no", "out.xnb"), &[]);
    let line = "in.xnb: row 0: \"Hi\", now \"no\"; 1 row as before\n";
    assert_eq!(reported(&ran), (line, "", Some(0)));
    let mut expected = sample(TEXT);
    let end = expected.len();
    expected[end - 2..].copy_from_slice(b"no");
    assert_eq!(fs::read(top.join("out.xnb")).expect("a file"), expected);
    assert_eq!(fs::read(top.join("in.xnb")).expect("a file"), sample(TEXT));

    // Standard input and standard output, with nothing else printed.
    let ran = shell(
        &top,
        "asset-builder retype - --row 0 --text no -o - < in.xnb | cmp - out.xnb",
    );
    assert_eq!(reported(&ran), ("", "", Some(0)));
    // A text may begin with a hyphen, and a character may have two bytes.
    for text in ["-o", "--", "é"] {
        // A file that is there stays without -f, the input apart.
        let ran = run_in(&top, &words(text, "out.xnb"), &[]);
        assert_eq!((ran.out.as_str(), ran.status), ("", Some(2)), "{}", ran.err);
        assert_eq!(fs::read(top.join("out.xnb")).expect("a file"), expected);
        let forced = [&words(text, "out.xnb")[..], &["-f"]].concat();
        for (words, name) in [
            (&forced[..], "out.xnb"),
            (&words(text, "./in.xnb")[..], "in.xnb"),
        ] {
            let ran = run_in(&top, words, &[]);
            assert_eq!(ran.status, Some(0), "{}", ran.err);
            let file = fs::read(top.join(name)).expect("a file");
            assert_eq!(file[file.len() - 2..], *text.as_bytes());
        }
        fs::write(top.join("out.xnb"), &expected).expect("a file");
    }
    assert_eq!(names(&top), ["in.xnb", "out.xnb"]);
}

/// Every text of every kept file is retyped; every other byte stays, and so do the rows.
#[test]
fn every_text_of_the_kept_files_is_retyped() {
    let top = scratch("retype-kept");
    let mut texts = 0;
    for file in kept_files() {
        let Ok(table) = Table::load(&file.bytes) else {
            continue;
        };
        let is_string = |row: &u32| table.row(*row).is_some_and(|it| it.kind == Kind::String);
        let strings = (0..table.loaded().rows as u32).filter(is_string);
        // A file of many texts shows as much with two of them.
        for row in strings.take(2) {
            let old = table.text(row).expect("a text");
            if old.len() > 1_000 {
                continue;
            }
            let new = "~".repeat(old.len());
            let row = row.to_string();
            let words = [
                "retype", "-", "--row", &row, "--text", &new, "-fo", "out.xnb",
            ];
            let ran = run_in(&top, &words, &file.bytes);
            assert_eq!(
                (ran.err.as_str(), ran.status),
                ("", Some(0)),
                "{}",
                file.name
            );
            let written = fs::read(top.join("out.xnb")).expect("a file");
            let again = Table::load(&written).expect("a file that is taken");
            assert_eq!(again.words(), table.words(), "{}", file.name);
            let row = row.parse().expect("a number");
            assert_eq!(again.text(row).expect("a text"), new);
            let differing = file.bytes.iter().zip(&written).filter(|(a, b)| a != b);
            let changed = old.bytes().filter(|byte| *byte != b'~').count();
            assert_eq!(differing.count(), changed, "{}", file.name);
            texts += 1;
        }
    }
    assert!(texts > 30, "only {texts} texts");
}

#[test]
fn a_text_of_another_length_is_reported_with_both_lengths() {
    let top = scratch("retype-length");
    fs::write(top.join("out.xnb"), "kept").expect("a file");
    let cases = [
        ("Ho!", "its text has 2 bytes, the one given has 3 bytes"),
        ("", "its text has 2 bytes, the one given has 0 bytes"),
        ("x", "its text has 2 bytes, the one given has 1 byte"),
        // Two characters, three bytes.
        ("né", "its text has 2 bytes, the one given has 3 bytes"),
    ];
    for (text, why) in cases {
        let words = [
            "retype", "-", "--row", "0", "--text", text, "-fo", "out.xnb",
        ];
        let ran = run_in(&top, &words, &sample(TEXT));
        let line = format!("-: row 0: {why}\n");
        assert_eq!(reported(&ran), ("", line.as_str(), Some(2)));
    }
    assert_eq!(fs::read(top.join("out.xnb")).expect("a file"), b"kept");
}

#[test]
fn a_row_without_a_text_is_reported() {
    let of = |file: &str, row: &str| {
        let ran = run(&["retype", file, "--row", row, "--text", "Hi", "-o", "-"]);
        assert_eq!(
            (ran.out.as_str(), ran.status),
            ("", Some(1)),
            "{file} {row}"
        );
        ran.err
    };
    let no_row = format!("{TEXT}: refused 23 at 1: there is no such row\n  the file has 1 row\n");
    assert_eq!(of(TEXT, "1"), no_row);
    let last = u32::MAX.to_string();
    assert!(of(TEXT, &last).contains("refused 23 at 4294967295: "));
    let other = "ok-kind-00-null.xnb: refused 24 at 0: the row is not of the kind asked for\n  \
        row 0 is of kind Null, not String\n";
    assert_eq!(of("ok-kind-00-null.xnb", "0"), other);
}

#[test]
fn a_refused_file_leaves_the_output() {
    let top = scratch("retype-refused");
    fs::write(top.join("out.xnb"), "kept").expect("a file");
    let words = [
        "retype", "-", "--row", "0", "--text", "Hi", "-fo", "out.xnb",
    ];
    let ran = run_in(&top, &words, &sample("bad-06-flags.xnb"));
    let start = "-: refused 6 at 5: a flag other than the profile is set\n";
    assert!(ran.err.starts_with(start), "{}", ran.err);
    assert_eq!((ran.out.as_str(), ran.status), ("", Some(1)));
    let ran = run_in(
        &top,
        &[
            "retype", "none.xnb", "--row", "0", "--text", "Hi", "-fo", "out.xnb",
        ],
        &[],
    );
    assert!(ran.err.starts_with("none.xnb: "), "{}", ran.err);
    assert_eq!((ran.out.as_str(), ran.status), ("", Some(2)));
    assert_eq!(fs::read(top.join("out.xnb")).expect("a file"), b"kept");
    assert_eq!(names(&top), ["out.xnb"]);
}

#[test]
fn the_list_of_enum_types_is_lent() {
    let readers = [
        list_of("System.Object"),
        enum_of("Coach.Door"),
        STRING.to_string(),
    ];
    let elements = vec![object(2, fixed(15, &[7])), object(3, text("North"))];
    let bytes = write(&file(&readers, object(1, list(elements)), vec![])).bytes;
    let top = scratch("retype-enums");
    fs::write(top.join("doors.xnb"), bytes).expect("a file");
    fs::write(top.join("enums.txt"), "Coach.Door 1\n").expect("a list");
    let words = [
        "retype",
        "doors.xnb",
        "--row",
        "2",
        "--text",
        "South",
        "-o",
        "doors.xnb",
        "--enums",
        "enums.txt",
    ];
    let ran = run_in(&top, &words, &[]);
    let line = "doors.xnb: row 2: \"North\", now \"South\"; 3 rows as before\n";
    assert_eq!(reported(&ran), (line, "", Some(0)));
    let ran = run_in(&top, &words[..8], &[]);
    assert_eq!((ran.out.as_str(), ran.status), ("", Some(1)), "{}", ran.err);
}
