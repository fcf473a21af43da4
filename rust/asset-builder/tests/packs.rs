//! `pack list`, `pack find` and `pack extract`.

mod common;

use common::{
    has_control, names, on_terminal, run, run_in, sample, scratch, shell, shell_with, AT_ONCE,
    NEVER,
};
use corpus::folder::folder;
use corpus::packs::folder::kept_packs;
use corpus::packs::{stored, write_pack, NO_MARK};
use serde_json::Value as Json;
use std::collections::BTreeMap;
use std::fs;
use std::os::unix::fs::symlink;
use std::path::Path;

const MIXED: &str = "ok-pack-mixed-case.pak";
const LEFT_OVER: &str = "bad-20-pack-one-byte-more.pak";

/// A pack of files with these paths and data.
fn pack_of(files: &[(&str, &str)]) -> Vec<u8> {
    let files: Vec<_> = files
        .iter()
        .map(|(path, data)| stored(*path, *data))
        .collect();
    write_pack(NO_MARK, &files).bytes
}

/// The files below a folder and what they hold, by path; a folder ends in `/`, a link in `@`.
fn tree(folder: &Path) -> BTreeMap<String, String> {
    let mut found = BTreeMap::new();
    for name in names(folder) {
        let path = folder.join(&name);
        if path.is_symlink() {
            found.insert(name + "@", String::new());
        } else if path.is_dir() {
            for (below, data) in tree(&path) {
                found.insert(format!("{name}/{below}"), data);
            }
            found.insert(name + "/", String::new());
        } else {
            let data = fs::read(&path).expect("a file");
            found.insert(name, String::from_utf8_lossy(&data).into_owned());
        }
    }
    found
}

/// A tree of these files and folders.
fn expected(files: &[(&str, &str)]) -> BTreeMap<String, String> {
    let of_pair = |(path, data): &(&str, &str)| (path.to_string(), data.to_string());
    files.iter().map(of_pair).collect()
}

fn json(line: &str) -> Json {
    serde_json::from_str(line).expect("JSON")
}

#[test]
fn files_are_listed_in_their_order() {
    let ran = run(&["pack", "list", MIXED]);
    let lines = "         3 Fonts\\Door\n         3 fonts\\door\n         5 FONTS\\DOORS\n";
    assert_eq!((ran.out.as_str(), ran.err.as_str()), (lines, ""));
    assert_eq!(ran.status, Some(0));
    let ran = run(&["pack", "list", MIXED, "ok-pack-of-no-file.pak"]);
    let both = format!("==> {MIXED} <==\n{lines}==> ok-pack-of-no-file.pak <==\n");
    assert_eq!((ran.out, ran.status), (both, Some(0)));
    let ran = run_in(&folder(), &["pack", "list", "-"], &sample(MIXED));
    assert_eq!((ran.out.as_str(), ran.status), (lines, Some(0)));
}

#[test]
fn a_list_is_reported_to_programs() {
    let ran = run(&["pack", "list", "--json", MIXED, LEFT_OVER]);
    assert_eq!((ran.status, ran.err.as_str()), (Some(1), ""));
    let lines: Vec<Json> = ran.out.lines().map(json).collect();
    let files = serde_json::json!([
        {"path": "Fonts\\Door", "first": 19, "length": 3},
        {"path": "fonts\\door", "first": 37, "length": 3},
        {"path": "FONTS\\DOORS", "first": 56, "length": 5},
    ]);
    let listed = serde_json::json!({
        "schema": 1, "file": MIXED, "bytes": 61, "marked": false, "files": files,
    });
    assert_eq!(lines[0], listed);
    let refused = &lines[1]["refused"];
    assert_eq!(
        (&refused["number"], &refused["place"]),
        (&20.into(), &29.into())
    );
    let rule = "bytes are left over behind the last file";
    assert_eq!(refused["rule"], rule);
    assert_eq!(lines.len(), 2);
}

/// Every kept pack: the paths of its answers where it is accepted, else its refusal.
#[test]
fn kept_packs_are_listed_or_refused() {
    let mut numbers = BTreeMap::new();
    for pack in kept_packs() {
        let name = format!("{}.pak", pack.name);
        let ran = run(&["pack", "list", &name]);
        let answers: Vec<&str> = pack.answers.lines().collect();
        // The command has room for every file.
        if pack.name.starts_with("bad-31") {
            continue;
        }
        if let Some(refused) = answers[1].strip_prefix("refused ") {
            let start = format!("{name}: refused {refused}: ");
            assert!(ran.err.starts_with(&start), "{}", ran.err);
            assert_eq!((ran.out.as_str(), ran.status), ("", Some(1)), "{name}");
            let number = refused.split(' ').next().expect("a number").to_string();
            *numbers.entry(number).or_insert(0) += 1;
        } else {
            assert_eq!((ran.err.as_str(), ran.status), ("", Some(0)), "{name}");
            let read = xnb::Pack::read(&pack.bytes).expect("a lawful pack");
            assert_eq!(ran.out.lines().count(), read.len(), "{name}");
        }
    }
    let reported: Vec<&str> = numbers.keys().map(String::as_str).collect();
    assert_eq!(reported, ["1", "15", "20", "8", "9"]);
}

#[test]
fn a_refusal_shows_the_bytes() {
    let expected = "\
bad-20-pack-one-byte-more.pak: refused 20 at 29: bytes are left over behind the last file
  the last file, number 2, ends at byte 29 of 30
  00000000  02 00 00 00 03 6F 6E 65 04 00 00 00 31 31 31 31  .....one....1111
  00000010  03 74 77 6F 05 00 00 00 32 32 32 32 32 00        .two....22222.
                                                   ^^                     ^
";
    let top = scratch("pack-refused");
    let out = top.join("out");
    let out = out.to_str().expect("a plain path");
    for words in [
        &["pack", "list", LEFT_OVER][..],
        &["pack", "find", LEFT_OVER, "one"],
        &["pack", "find", LEFT_OVER, "one", "-o", out],
        &["pack", "extract", LEFT_OVER, "-o", out],
    ] {
        let ran = run(words);
        assert_eq!(ran.err, expected, "{words:?}");
        assert_eq!((ran.out.as_str(), ran.status), ("", Some(1)), "{words:?}");
    }
    assert_eq!(names(&top), [""; 0]);
}

#[test]
fn packs_are_found_below_folders() {
    let top = scratch("pack-folders");
    fs::create_dir_all(top.join("depot/deep")).expect("a folder");
    for name in ["deep/two.PAK", "one.pak", "none.xnb"] {
        fs::write(
            top.join("depot").join(name),
            sample("ok-pack-of-one-file.pak"),
        )
        .expect("a pack");
    }
    let ran = run_in(&top, &["pack", "list", "depot"], &[]);
    let lines = "==> depot/deep/two.PAK <==\n         4 a\n==> depot/one.pak <==\n         4 a\n";
    assert_eq!((ran.out.as_str(), ran.status), (lines, Some(0)));
    fs::create_dir(top.join("empty")).expect("a folder");
    let ran = run_in(&top, &["pack", "list", "empty"], &[]);
    assert_eq!(ran.err, "empty: no .pak file is in it\n");
    assert_eq!(ran.status, Some(2));
}

#[test]
fn data_is_found_by_its_path() {
    let ran = run(&["pack", "find", MIXED, "FONTS\\door"]);
    assert_eq!((ran.out.as_str(), ran.err.as_str()), ("one", ""));
    assert_eq!(ran.status, Some(0));
    let ran = run_in(
        &folder(),
        &["pack", "find", "-", "fonts\\doors"],
        &sample(MIXED),
    );
    assert_eq!((ran.out.as_str(), ran.status), ("three", Some(0)));

    let top = scratch("pack-found");
    fs::write(top.join("mixed.pak"), sample(MIXED)).expect("a pack");
    let words = ["pack", "find", "mixed.pak", "fonts\\doors", "-o", "out"];
    let ran = run_in(&top, &words, &[]);
    assert_eq!((ran.out.as_str(), ran.err.as_str()), ("", ""));
    assert_eq!(ran.status, Some(0));
    assert_eq!(names(&top), ["mixed.pak", "out"]);
    assert_eq!(fs::read(top.join("out")).expect("a file"), b"three");
}

#[test]
fn an_absent_path_is_reported_and_nothing_is_written() {
    let top = scratch("pack-absent");
    fs::write(top.join("out"), "old").expect("a file");
    let pack = folder().join(MIXED);
    let pack = pack.to_str().expect("a plain path");
    for path in ["fonts/door", "", "fonts", "Fonts\\Door "] {
        let ran = run_in(&top, &["pack", "find", pack, path, "-o", "out"], &[]);
        let near = match path {
            "fonts/door" | "Fonts\\Door " => "; Fonts\\Door is near",
            _ => "",
        };
        let why = format!("{pack}: {path}: no file has this path{near}\n");
        assert_eq!((ran.err, ran.status), (why, Some(1)), "{path:?}");
        let ran = run_in(&top, &["pack", "find", pack, path], &[]);
        assert_eq!((ran.out.as_str(), ran.status), ("", Some(1)), "{path:?}");
    }
    assert_eq!(fs::read(top.join("out")).expect("a file"), b"old");
    // A path of any bytes may be asked for.
    let line = format!("asset-builder pack find '{pack}' $'\\xFF\\e'");
    let ran = shell(&top, &line);
    assert!(
        ran.err
            .ends_with(": \"\\xFF\\u{1b}\": no file has this path\n"),
        "{}",
        ran.err
    );
    assert_eq!(ran.status, Some(1));
}

#[test]
fn files_are_written_below_a_folder() {
    let top = scratch("extracted");
    let pack = pack_of(&[
        ("Door", "door"),
        ("fonts/small\\größe", "small"),
        ("fonts\\large", ""),
        ("...", "dots"),
    ]);
    let ran = run_in(&top, &["pack", "extract", "-", "-o", "new/out"], &pack);
    assert_eq!(ran.out, "-: 4 of 4 files written to new/out\n");
    assert_eq!((ran.err.as_str(), ran.status), ("", Some(0)));
    let files = [
        ("new/", ""),
        ("new/out/", ""),
        ("new/out/Door", "door"),
        ("new/out/fonts/", ""),
        ("new/out/fonts/small/", ""),
        ("new/out/fonts/small/größe", "small"),
        ("new/out/fonts/large", ""),
        ("new/out/...", "dots"),
    ];
    assert_eq!(tree(&top), expected(&files));

    // A second time the files are written anew by force only, and others stay.
    fs::write(top.join("new/out/Door"), "another door, and longer").expect("a file");
    fs::write(top.join("new/out/other"), "other").expect("a file");
    let ran = run_in(
        &top,
        &["pack", "extract", "-", "-f", "-o", "new/out"],
        &pack,
    );
    assert_eq!((ran.err.as_str(), ran.status), ("", Some(0)));
    let mut both = expected(&files);
    both.insert("new/out/other".into(), "other".into());
    assert_eq!(tree(&top), both);
}

#[test]
fn paths_that_name_no_place_are_reported() {
    let top = scratch("no-place");
    let bad = [
        ("../out", "a part of it is .."),
        ("a\\..\\..\\out", "a part of it is .."),
        ("..", "a part of it is .."),
        (".", "a part of it is ."),
        ("a/./b", "a part of it is ."),
        ("a//b", "a part of it is empty"),
        ("a\\/b", "a part of it is empty"),
        ("a/", "a part of it is empty"),
        ("/etc/out", "it begins with a separator"),
        ("\\out", "it begins with a separator"),
        ("\\\\host\\out", "it begins with a separator"),
        ("C:\\out", "it has a drive letter"),
        ("c:out", "it has a drive letter"),
        ("a\nb", "it has a byte below 20 hex"),
        ("\0", "it has a byte below 20 hex"),
        ("a\x1F", "it has a byte below 20 hex"),
    ];
    let mut files = vec![("first", "1")];
    files.extend(bad.map(|(path, _)| (path, "bad")));
    files.push(("last", "2"));
    let pack = pack_of(&files);
    let ran = run_in(&top, &["pack", "extract", "-", "-o", "deep/out"], &pack);
    assert_eq!(ran.status, Some(1));
    assert_eq!(ran.out, "-: 2 of 18 files written to deep/out\n");
    assert!(!has_control(&ran.err), "{:?}", ran.err);
    let lines: Vec<&str> = ran.err.lines().collect();
    assert_eq!(lines.len(), bad.len());
    for (line, (path, why)) in lines.iter().zip(bad) {
        assert!(line.ends_with(&format!(": not written, {why}")), "{line}");
        if !path.contains(char::is_control) {
            assert!(line.starts_with(&format!("-: {path}: ")), "{line}");
        }
    }
    let written = [
        ("deep/", ""),
        ("deep/out/", ""),
        ("deep/out/first", "1"),
        ("deep/out/last", "2"),
    ];
    assert_eq!(tree(&top), expected(&written));
}

#[test]
fn of_paths_that_match_the_first_is_written() {
    let top = scratch("matching");
    let pack = pack_of(&[
        ("Fonts\\Door", "one"),
        ("fonts\\door", "two"),
        ("Fonts\\Door", "three"),
        ("Fonts/Door", "four"),
        ("fonts/door", "five"),
        ("TÜR", "six"),
        ("tür", "seven"),
    ]);
    let ran = run_in(&top, &["pack", "extract", "-", "-o", "out"], &pack);
    let matches = "not written, a file before it has a path that matches\n";
    // The lookup takes the two separators for different bytes, a folder does not.
    let place = "not written, a file before it has the same place\n";
    let reported = format!(
        "-: fonts\\door: {matches}-: Fonts\\Door: {matches}-: Fonts/Door: {place}-: fonts/door: {matches}"
    );
    assert_eq!((ran.err, ran.status), (reported, Some(1)));
    assert_eq!(ran.out, "-: 3 of 7 files written to out\n");
    let written = [
        ("out/", ""),
        ("out/Fonts/", ""),
        ("out/Fonts/Door", "one"),
        ("out/TÜR", "six"),
        ("out/tür", "seven"),
    ];
    assert_eq!(tree(&top), expected(&written));
}

#[test]
fn nothing_is_written_through_a_link() {
    let top = scratch("linked");
    for folder in ["out/real", "outside"] {
        fs::create_dir_all(top.join(folder)).expect("a folder");
    }
    fs::write(top.join("outside/kept"), "kept").expect("a file");
    symlink("../outside", top.join("out/folder")).expect("a link");
    symlink("../outside/kept", top.join("out/file")).expect("a link");
    symlink("../outside/new", top.join("out/nowhere")).expect("a link");
    symlink("../../outside", top.join("out/real/deep")).expect("a link");
    symlink("real", top.join("out/inside")).expect("a link");
    let before = tree(&top);
    let paths = [
        "folder/kept",
        "folder\\new",
        "folder/below/new",
        "file",
        "nowhere",
        "real/deep/new",
        "inside/new",
    ];
    let pack = pack_of(&paths.map(|path| (path, "bad")));
    let ran = run_in(&top, &["pack", "extract", "-", "-o", "out"], &pack);
    assert_eq!(ran.status, Some(2));
    assert_eq!(ran.out, "-: 0 of 7 files written to out\n");
    let lines: Vec<&str> = ran.err.lines().collect();
    assert_eq!(lines.len(), paths.len());
    for (line, path) in lines.iter().zip(paths) {
        assert!(line.starts_with(&format!("-: {path}: ")), "{line}");
        assert!(
            line.ends_with(" is a link, which is not followed"),
            "{line}"
        );
    }
    assert_eq!(tree(&top), before);

    // The folder itself may be a link: it is the one that was asked for.
    symlink("outside", top.join("asked")).expect("a link");
    let ran = run_in(
        &top,
        &["pack", "extract", "-", "-o", "asked"],
        &pack_of(&[("new", "new")]),
    );
    assert_eq!((ran.err.as_str(), ran.status), ("", Some(0)));
    assert_eq!(fs::read(top.join("outside/new")).expect("a file"), b"new");
}

#[test]
fn what_cannot_be_written_is_reported_and_the_rest_is_written() {
    let top = scratch("pack-unwritten");
    fs::create_dir_all(top.join("out/folder/deep")).expect("a folder");
    let long = "n".repeat(256);
    let pack = pack_of(&[
        ("a", "1"),
        ("a/b", "2"),
        ("folder", "3"),
        (&long, "4"),
        ("z", "5"),
    ]);
    let ran = run_in(&top, &["pack", "extract", "-", "-o", "out"], &pack);
    assert_eq!(
        (ran.out.as_str(), ran.status),
        ("-: 2 of 5 files written to out\n", Some(2))
    );
    let starts = ["-: a/b: ", "-: folder: ", &format!("-: {long}: ")];
    let lines: Vec<&str> = ran.err.lines().collect();
    assert_eq!(lines.len(), starts.len(), "{}", ran.err);
    for (line, start) in lines.iter().zip(starts) {
        assert!(line.starts_with(start), "{line}");
    }
    let written = [
        ("out/", ""),
        ("out/a", "1"),
        ("out/folder/", ""),
        ("out/folder/deep/", ""),
        ("out/z", "5"),
    ];
    assert_eq!(tree(&top), expected(&written));

    // No folder can be made where a file stands.
    let ran = run_in(&top, &["pack", "extract", "-", "-o", "out/a/out"], &pack);
    assert_eq!((ran.out.as_str(), ran.status), ("", Some(2)));
    assert!(ran.err.starts_with("out/a/out: "), "{}", ran.err);
    for words in [
        &["pack", "list", "missing"][..],
        &["pack", "find", "missing", "a"],
        &["pack", "find", "out", "a"],
        &["pack", "extract", "missing", "-o", "new"],
    ] {
        let ran = run_in(&top, words, &[]);
        assert_eq!((ran.out.as_str(), ran.status), ("", Some(2)), "{words:?}");
    }
    assert_eq!(names(&top), ["out"]);
}

/// The system stops the writing at 8 KB: the old file stays whole, and the next is written.
#[test]
fn a_file_that_cannot_be_whole_is_not_placed() {
    let top = scratch("pack-stopped");
    let long = "long".repeat(20_000);
    fs::write(top.join("a.pak"), pack_of(&[("one", &long), ("two", "2")])).expect("a pack");
    fs::create_dir(top.join("out")).expect("a folder");
    fs::write(top.join("out/one"), "old").expect("a file");
    let line = "trap '' XFSZ; ulimit -f 8; asset-builder pack extract a.pak -o out";
    let ran = shell(&top, line);
    assert_eq!(ran.out, "a.pak: 1 of 2 files written to out\n");
    assert!(
        ran.err.starts_with("a.pak: one: File too large"),
        "{}",
        ran.err
    );
    assert_eq!(ran.status, Some(2));
    let written = [("one", "old"), ("two", "2")];
    assert_eq!(tree(&top.join("out")), expected(&written));
}

#[test]
fn no_control_byte_of_a_path_is_printed() {
    let top = scratch("pack-control");
    let pack = pack_of(&[("a\x1B[2J\n", "1"), ("\u{9B}b", "2"), ("c\u{202E}", "3")]);
    fs::write(top.join("a.pak"), pack).expect("a pack");
    for words in [
        &["pack", "list", "a.pak"][..],
        &["pack", "list", "--json", "a.pak"],
        &["pack", "find", "a.pak", "\x1B[2J"],
        &["pack", "extract", "a.pak", "-o", "out"],
    ] {
        let ran = run_in(&top, words, &[]);
        assert!(!has_control(&ran.out), "{words:?}: {:?}", ran.out);
        assert!(!has_control(&ran.err), "{words:?}: {:?}", ran.err);
    }
    let ran = run_in(&top, &["pack", "list", "a.pak"], &[]);
    assert!(
        ran.out.starts_with("         1 \"a\\u{1b}[2J\\n\"\n"),
        "{}",
        ran.out
    );
}

#[test]
fn long_work_on_packs_shows_progress_on_a_terminal() {
    let top = scratch("pack-progress");
    let long = "data".repeat(2_000_000);
    fs::write(top.join("long.pak"), pack_of(&[("long", &long)])).expect("a pack");
    fs::write(top.join("some.pak"), sample(MIXED)).expect("a pack");
    let extract = "asset-builder pack extract long.pak -f -o out";
    let shown = on_terminal(&top, extract, &AT_ONCE);
    assert!(shown.contains(" of 7.63 MiB, "), "{shown:?}");
    let find = "asset-builder pack find long.pak long -f -o long";
    let shown = on_terminal(&top, find, &AT_ONCE);
    assert!(shown.contains(" of 7.63 MiB, "), "{shown:?}");
    for (line, environment) in [
        (format!("{extract} --no-progress"), AT_ONCE),
        (extract.to_string(), NEVER),
    ] {
        let shown = on_terminal(&top, &line, &environment);
        assert!(!shown.contains("MiB"), "{shown:?}");
    }
    let piped = shell_with(&top, extract, &AT_ONCE);
    assert_eq!(piped.err, "");
}
