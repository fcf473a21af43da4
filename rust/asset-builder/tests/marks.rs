//! `mark` and `unmark`.

mod common;

use common::{names, run, run_in, sample, scratch, shell};
use corpus::folder::folder;
use corpus::packs::folder::{kept_marked_packs, kept_packs};
use std::collections::BTreeSet;
use std::fs;

const PLAIN: &str = "ok-pack-mixed-case.pak";
const MARKED: &str = "ok-marked-mixed-case.marked";
const NO_MARKS: &str = "bad-51-marked-no-marks.marked";

/// Every kept pack: converted and back it is its own bytes, or its refusal is reported.
#[test]
fn kept_packs_are_converted_and_back_or_refused() {
    let plain = kept_packs()
        .into_iter()
        .map(|it| (it, "pak", "mark", "unmark"));
    let marked = kept_marked_packs()
        .into_iter()
        .map(|it| (it, "marked", "unmark", "mark"));
    let mut numbers = BTreeSet::new();
    let mut converted = 0;
    let top = scratch("kept");
    for (pack, extension, there, back) in plain.chain(marked) {
        // A conversion lends no table, so it never meets 31.
        if pack.name.starts_with("bad-31") {
            continue;
        }
        let name = format!("{}.{extension}", pack.name);
        let input = folder().join(&name);
        let input = input.to_str().expect("a plain path");
        let ran = run_in(&top, &[there, input, "-f", "-o", "there"], &[]);
        if let Some(refused) = pack
            .answers
            .lines()
            .nth(1)
            .and_then(|it| it.strip_prefix("refused "))
        {
            let start = format!("{input}: refused {refused}: ");
            assert!(ran.err.starts_with(&start), "{}", ran.err);
            assert_eq!((ran.out.as_str(), ran.status), ("", Some(1)), "{name}");
            let number = refused.split(' ').next().expect("a number");
            numbers.insert(number.parse::<u32>().expect("a number"));
            continue;
        }
        let new = fs::read(top.join("there")).expect("a file").len();
        let reported = format!("{input}: {} bytes, now {new}\n", pack.bytes.len());
        assert_eq!(
            (ran.out, ran.err.as_str(), ran.status),
            (reported, "", Some(0)),
            "{name}"
        );
        let ran = run_in(&top, &[back, "there", "-f", "-o", "back"], &[]);
        assert_eq!((ran.err.as_str(), ran.status), ("", Some(0)), "{name}");
        assert!(
            fs::read(top.join("back")).expect("a file") == pack.bytes,
            "{name}"
        );
        converted += 1;
    }
    assert!(converted >= 20, "only {converted} packs");
    assert_eq!(numbers, BTreeSet::from([1, 8, 9, 15, 20, 51]));
}

#[test]
fn a_conversion_writes_the_other_form() {
    let top = scratch("forms");
    for (command, input, output) in [("mark", PLAIN, MARKED), ("unmark", MARKED, PLAIN)] {
        fs::write(top.join("in"), sample(input)).expect("a file");
        let line = format!("asset-builder {command} - -o - < in > out");
        let ran = shell(&top, &line);
        assert_eq!((ran.err.as_str(), ran.status), ("", Some(0)), "{command}");
        assert_eq!(fs::read(top.join("out")).expect("a file"), sample(output));
        // The output may be the input.
        let ran = run_in(&top, &[command, "in", "-o", "./in"], &[]);
        assert_eq!((ran.err.as_str(), ran.status), ("", Some(0)), "{command}");
        assert_eq!(fs::read(top.join("in")).expect("a file"), sample(output));
        assert_eq!(names(&top), ["in", "out"]);
    }
}

#[test]
fn a_refused_pack_leaves_the_output() {
    let top = scratch("refused");
    fs::write(top.join("out"), "kept").expect("a file");
    let cases = [
        (
            "unmark",
            NO_MARKS,
            "refused 51 at 4: a file's record does not begin with a mark\n",
        ),
        (
            "unmark",
            "bad-01-marked-half-a-mark.marked",
            "refused 1 at ",
        ),
        (
            "mark",
            "bad-20-pack-one-byte-more.pak",
            "refused 20 at 29: ",
        ),
        // A mark is no path.
        (
            "mark",
            MARKED,
            "refused 9 at 4: a path is empty or longer than 260 bytes\n",
        ),
    ];
    for (command, name, why) in cases {
        fs::write(top.join("in"), sample(name)).expect("a file");
        for output in ["out", "in", "new"] {
            let ran = run_in(&top, &[command, "in", "-f", "-o", output], &[]);
            assert!(ran.err.starts_with(&format!("in: {why}")), "{}", ran.err);
            assert_eq!((ran.out.as_str(), ran.status), ("", Some(1)), "{name}");
        }
        assert_eq!(fs::read(top.join("out")).expect("a file"), b"kept");
        assert_eq!(fs::read(top.join("in")).expect("a file"), sample(name));
        assert_eq!(names(&top), ["in", "out"]);
    }
}

#[test]
fn a_missing_mark_is_shown_at_its_place() {
    let ran = run(&["unmark", NO_MARKS, "-o", "-"]);
    let lines: Vec<&str> = ran.err.lines().collect();
    let found = "  file 1 of 2: found 03 6F, the mark is FD FE";
    assert_eq!(lines[1], found);
    assert!(
        lines[2].starts_with("  00000000  02 00 00 00 03 "),
        "{}",
        ran.err
    );
    assert_eq!(lines[3].find("^^"), Some(12 + 3 * 4), "{}", ran.err);
    assert_eq!((ran.out.as_str(), ran.status), ("", Some(1)));
}

#[test]
fn what_cannot_be_read_or_written_is_reported() {
    let top = scratch("unwritten");
    fs::write(top.join("in"), sample(PLAIN)).expect("a file");
    fs::create_dir(top.join("folder")).expect("a folder");
    for words in [
        ["mark", "no-such-file", "-o", "out"],
        ["mark", "in", "-o", "no-such-folder/out"],
        ["mark", "in", "-o", "folder"],
        ["mark", "in", "-o", "/dev/full"],
    ] {
        let ran = run_in(&top, &words, &[]);
        assert_eq!((ran.out.as_str(), ran.status), ("", Some(2)), "{words:?}");
        assert!(!ran.err.is_empty(), "{words:?}");
    }
    assert_eq!(names(&top), ["folder", "in"]);
}
