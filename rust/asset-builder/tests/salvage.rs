//! `salvage`.

mod common;

use common::{names, on_terminal, run, run_in, sample, scratch, shell, Ran, AT_ONCE, NEVER};
use corpus::folder::folder;
use corpus::packs::folder::{kept_damaged_packs, kept_marked_packs};
use corpus::packs::salvage::SalvageSample;
use serde_json::{json, Value as Json};
use std::fs;

const BETWEEN: &str = "salvage-bytes-between-records.damaged";
const THREE_BYTES: &str = "salvage-three-bytes.damaged";

/// The start and the length of each line of a sample's answers that begins with this word.
fn answers(sample: &SalvageSample, word: &str) -> Vec<[u64; 2]> {
    let lines = sample
        .answers
        .lines()
        .filter_map(|it| it.strip_prefix(word));
    let numbers = |line: &str| {
        let (start, length) = line.trim().split_once(' ').expect("two numbers");
        [start, length].map(|it| it.parse().expect("a number"))
    };
    lines.map(numbers).collect()
}

fn sum(pieces: &[[u64; 2]]) -> u64 {
    pieces.iter().map(|[_, length]| length).sum()
}

/// What is printed of a sample: the lines, the list and the JSON.
fn printed(name: &str, sample: &SalvageSample) -> [String; 3] {
    let (kept, skipped) = (answers(sample, "kept"), answers(sample, "skipped"));
    let records = counted(kept.len() as u64, "record", "records");
    let stretches = counted(skipped.len() as u64, "stretch", "stretches");
    let [kept_bytes, skipped_bytes] = [&kept, &skipped].map(|it| counted(sum(it), "byte", "bytes"));
    let mut lines =
        format!("{name}: kept {records}, {kept_bytes}; skipped {stretches}, {skipped_bytes}\n");
    let (mut list, mut stretches) = (String::new(), Vec::new());
    for [start, length] in &skipped {
        lines += &format!("  skipped at {start}, length {length}\n");
        list += &format!("{start} {length}\n");
        stretches.push(json!({ "start": start, "length": length }));
    }
    let json = json!({
        "schema": 1,
        "file": name,
        "bytes": sample.bytes.len(),
        "kept": {"records": kept.len(), "bytes": sum(&kept)},
        "skipped": stretches,
    });
    [lines, list, json.to_string()]
}

fn counted(count: u64, one: &str, many: &str) -> String {
    let what = [many, one][usize::from(count == 1)];
    format!("{count} {what}")
}

/// Whether two texts are the same JSON.
fn same_json(one: &str, other: &str) -> bool {
    let value = |text| serde_json::from_str::<Json>(text).expect("JSON");
    value(one) == value(other)
}

fn taken(ran: &Ran) -> bool {
    (ran.err.as_str(), ran.status) == ("", Some(0))
}

#[test]
fn kept_damaged_packs_are_salvaged() {
    let top = scratch("salvaged");
    let mut salvaged = 0;
    for damaged in kept_damaged_packs() {
        let Ok((expected, _)) = damaged.expected() else {
            continue;
        };
        let name = "in.damaged";
        fs::write(top.join(name), &damaged.bytes).expect("a file");
        let [lines, list, json] = printed(name, &damaged);

        let ran = run_in(&top, &["salvage", name, "-f", "--list"], &[]);
        assert!(taken(&ran) && ran.out == list, "{}: {ran:?}", damaged.name);
        let ran = run_in(&top, &["salvage", name, "-f", "--json", "--list"], &[]);
        assert!(taken(&ran) && same_json(&ran.out, &json), "{ran:?}");
        assert_eq!(names(&top), [name], "a list needs no output");

        let ran = run_in(&top, &["salvage", name, "-f", "-o", "out"], &[]);
        assert!(taken(&ran) && ran.out == lines, "{}: {ran:?}", damaged.name);
        assert_eq!(fs::read(top.join("out")).expect("a file"), expected);
        // Salvaging twice is salvaging once; by force the output may be the input.
        let ran = run_in(
            &top,
            &["salvage", "out", "--list", "-f", "-o", "./out"],
            &[],
        );
        assert!(taken(&ran) && ran.out.is_empty(), "{ran:?}");
        assert_eq!(fs::read(top.join("out")).expect("a file"), expected);
        fs::remove_file(top.join("out")).expect("the output is there");
        salvaged += 1;
    }
    assert!(salvaged >= 15, "only {salvaged} packs");
}

#[test]
fn an_accepted_pack_comes_out_byte_for_byte() {
    let top = scratch("whole");
    let accepted = kept_marked_packs();
    let accepted = accepted.iter().filter(|it| it.name.starts_with("ok-"));
    let mut packs = 0;
    for pack in accepted {
        fs::write(top.join("in"), &pack.bytes).expect("a file");
        let ran = run_in(&top, &["salvage", "in", "-f", "-o", "out"], &[]);
        assert!(taken(&ran), "{}: {ran:?}", pack.name);
        let nothing = "; skipped 0 stretches, 0 bytes\n";
        assert!(ran.out.ends_with(nothing), "{}", ran.out);
        assert!(fs::read(top.join("out")).expect("a file") == pack.bytes);
        packs += 1;
    }
    assert!(packs >= 10, "only {packs} packs");
}

/// A pack without marks, which holds none of the records that salvage looks for, is not taken for a damaged one.
#[test]
fn a_pack_without_marks_is_not_overwritten() {
    let top = scratch("salvage-without-marks");
    let plain = sample("ok-pack-mixed-case.pak");
    fs::write(top.join("good.pak"), &plain).expect("a file");
    let why = "good.pak: it is a pack without marks, which are what salvage goes by; \
        nothing is written\n";
    for words in [
        &["-o", "good.pak", "-f"][..],
        &["-o", "new"],
        &["-o", "new", "-f"],
        &["-o", "-"],
        &["--list"],
    ] {
        let ran = run_in(&top, &[&["salvage", "good.pak"], words].concat(), &[]);
        let reported = (ran.out.as_str(), ran.err.as_str(), ran.status);
        assert_eq!(reported, ("", why, Some(1)), "{words:?}");
    }
    assert_eq!(names(&top), ["good.pak"]);
    assert_eq!(fs::read(top.join("good.pak")).expect("a file"), plain);
    let ran = run_in(&top, &["salvage", "good.pak", "--list", "--json"], &[]);
    let reported: Json = serde_json::from_str(&ran.out).expect("JSON");
    let words = reported["unwritten"]["why"].as_str().expect("a text");
    assert!(words.starts_with("it is a pack without marks"), "{words}");
}

#[test]
fn a_salvage_that_keeps_nothing_writes_nothing_without_force() {
    let top = scratch("salvage-nothing");
    fs::write(top.join("in"), b"\x01\0\0\0no record at all").expect("a file");
    fs::write(top.join("old"), "old").expect("a file");
    let ran = run_in(&top, &["salvage", "in", "-o", "out"], &[]);
    let why = "in: no record is kept, so nothing is written; -f writes a pack without files\n";
    assert_eq!((ran.err.as_str(), ran.status), (why, Some(1)));
    let lines =
        "in: kept 0 records, 0 bytes; skipped 1 stretch, 16 bytes\n  skipped at 4, length 16\n";
    assert_eq!(ran.out, lines);
    assert_eq!(names(&top), ["in", "old"]);
    let ran = run_in(&top, &["salvage", "in", "--list"], &[]);
    assert_eq!((ran.out.as_str(), ran.status), ("4 16\n", Some(1)));
    let ran = run_in(&top, &["salvage", "in", "-f", "-o", "old"], &[]);
    assert_eq!(
        (ran.out.as_str(), ran.err.as_str(), ran.status),
        (lines, "", Some(0))
    );
    assert_eq!(fs::read(top.join("old")).expect("a file"), [0; 4]);
}

#[test]
fn the_report_leaves_standard_output_to_the_pack() {
    let top = scratch("standard");
    fs::write(top.join("in"), sample(BETWEEN)).expect("a file");
    let reports = [
        (
            "",
            "-: kept 2 records, 29 bytes; skipped 3 stretches, 4 bytes\n\
            \x20 skipped at 4, length 1\n\
            \x20 skipped at 19, length 2\n\
            \x20 skipped at 36, length 1\n",
        ),
        ("--list", "4 1\n19 2\n36 1\n"),
        (
            "--json",
            "{\"schema\":1,\"file\":\"-\",\"bytes\":37,\
            \"kept\":{\"records\":2,\"bytes\":29},\"skipped\":[\
            {\"start\":4,\"length\":1},\
            {\"start\":19,\"length\":2},\
            {\"start\":36,\"length\":1}],\"written\":{\"file\":\"-\",\"bytes\":33}}\n",
        ),
    ];
    let whole = sample("salvage-whole.damaged");
    for (flag, report) in reports {
        let ran = shell(
            &top,
            &format!("asset-builder salvage - {flag} -o - < in > out"),
        );
        assert_eq!((ran.err.as_str(), ran.status), (report, Some(0)), "{flag}");
        assert_eq!(fs::read(top.join("out")).expect("a file"), whole);
    }
}

#[test]
fn a_refused_pack_leaves_the_output() {
    let top = scratch("salvage-refused");
    fs::write(top.join("out"), "kept").expect("a file");
    fs::write(top.join("in"), sample(THREE_BYTES)).expect("a file");
    let rule = "a field runs past the end of the pack";
    for output in [
        &["-f", "-o", "out"][..],
        &["-f", "-o", "in"],
        &["-o", "new"],
        &["--list"],
    ] {
        let ran = run_in(&top, &[&["salvage", "in"], output].concat(), &[]);
        let start = format!("in: refused 1 at 0: {rule}\n");
        assert!(ran.err.starts_with(&start), "{}", ran.err);
        assert_eq!((ran.out.as_str(), ran.status), ("", Some(1)));
    }
    assert_eq!(fs::read(top.join("out")).expect("a file"), b"kept");
    assert_eq!(names(&top), ["in", "out"]);

    let ran = run(&["salvage", "--json", "--list", THREE_BYTES]);
    let reported: Json = serde_json::from_str(&ran.out).expect("JSON");
    assert_eq!((ran.err.as_str(), ran.status), ("", Some(1)));
    assert_eq!(reported["file"], THREE_BYTES);
    assert_eq!(reported["refused"]["number"], 1);
    assert_eq!(reported["refused"]["place"], 0);
    assert_eq!(reported["refused"]["rule"], rule);
}

#[test]
fn what_cannot_be_read_or_written_is_reported() {
    let top = scratch("salvage-unwritten");
    fs::write(top.join("in"), sample(BETWEEN)).expect("a file");
    fs::create_dir(top.join("folder")).expect("a folder");
    for words in [
        ["no-such-file", "-o", "out"],
        ["in", "-o", "no-such-folder/out"],
        ["in", "-o", "folder"],
        ["in", "-o", "/dev/full"],
    ] {
        let ran = run_in(&top, &[&["salvage"], &words[..]].concat(), &[]);
        assert_eq!((ran.out.as_str(), ran.status), ("", Some(2)), "{words:?}");
        assert!(!ran.err.is_empty(), "{words:?}");
    }
    assert_eq!(names(&top), ["folder", "in"]);
}

#[test]
fn long_work_shows_progress_on_a_terminal() {
    let top = scratch("salvage-progress");
    fs::write(top.join("in"), sample(BETWEEN)).expect("a file");
    // Nobody reads the pipe for a while.
    let slow =
        "mkfifo pipe; { sleep 0.5; cat pipe > out; } & asset-builder salvage in -o pipe; wait";
    let shown = on_terminal(&top, slow, &AT_ONCE);
    assert!(shown.contains("writing for "), "{shown:?}");
    assert!(shown.contains("in: kept 2 records, "), "{shown:?}");
    assert_eq!(
        fs::read(top.join("out")).expect("a file"),
        sample("salvage-whole.damaged")
    );
    let quick = on_terminal(
        &folder(),
        &format!("asset-builder salvage --list {BETWEEN}"),
        &NEVER,
    );
    assert!(quick.starts_with("4 1\r\n"), "{quick:?}");
    assert!(!quick.contains(" for "), "{quick:?}");
}
