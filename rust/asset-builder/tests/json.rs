//! docs/JSON.md is what the commands print for programs.

mod common;

use common::{run_in, sample, scratch, shell};
use corpus::folder::{folder, kept_files};
use corpus::packs::folder::{kept_damaged_packs, kept_marked_packs, kept_packs};
use serde_json::{json, Value as Json};
use std::collections::BTreeSet;
use std::ffi::OsStr;
use std::fs;
use std::os::unix::ffi::OsStrExt;
use std::os::unix::fs::symlink;
use std::path::{Path, PathBuf};

fn json_of(text: &str) -> Json {
    serde_json::from_str(text).expect("JSON")
}

/// Adds the names of all fields of a value.
fn add_fields(value: &Json, fields: &mut BTreeSet<String>) {
    match value {
        Json::Object(object) => {
            for (name, value) in object {
                fields.insert(name.clone());
                add_fields(value, fields);
            }
        }
        Json::Array(values) => values.iter().for_each(|it| add_fields(it, fields)),
        _ => {}
    }
}

/// The fields in the first column of a table of the page.
fn fields_of_page(page: &str) -> BTreeSet<String> {
    let rows = page.lines().filter_map(|line| line.strip_prefix("| `"));
    let columns = rows.filter_map(|row| row.split(" | ").next());
    let names = columns.flat_map(|column| column.split('`'));
    let is_name = |it: &&str| it.chars().all(char::is_alphanumeric) && !it.is_empty();
    names.filter(is_name).map(str::to_string).collect()
}

/// A folder with every kept file, every pack, a name that is no text, and a link that leads nowhere.
fn depot(name: &str) -> PathBuf {
    let top = scratch(name);
    fs::create_dir(top.join("xnb")).expect("a folder");
    for file in kept_files() {
        let path = top.join("xnb").join(format!("{}.xnb", file.name));
        fs::write(path, &file.bytes).expect("a file");
    }
    fs::create_dir(top.join("pak")).expect("a folder");
    let packs = kept_packs().into_iter().chain(kept_marked_packs());
    for pack in packs {
        let path = top.join("pak").join(format!("{}.pak", pack.name));
        fs::write(path, &pack.bytes).expect("a pack");
    }
    let no_text = Path::new(OsStr::from_bytes(b"xnb/\xFF.xnb"));
    fs::write(top.join(no_text), sample("ok-text-count-in-2-bytes.xnb")).expect("a file");
    let no_text = Path::new(OsStr::from_bytes(b"south\xFF"));
    fs::create_dir(top.join(no_text)).expect("a folder");
    let file = top.join(no_text).join("a.xnb");
    fs::write(file, sample("ok-text-count-in-2-bytes.xnb")).expect("a file");
    symlink("nowhere", top.join("xnb/dangling.xnb")).expect("a link");
    symlink("nowhere", top.join("pak/dangling.pak")).expect("a link");
    top
}

#[test]
fn the_page_names_every_field_and_no_other() {
    let top = depot("json-page");
    let kept = folder().to_str().expect("a plain path").to_string();
    let mut fields = BTreeSet::new();
    let mut lines = 0;
    let mut add = |out: &str| {
        for line in out.lines() {
            let value = json_of(line);
            assert_eq!(value["schema"], 1, "{line}");
            let named = ["file", "folder", "summary", "packs"];
            assert!(named.iter().any(|it| value.get(it).is_some()), "{line}");
            add_fields(&value, &mut fields);
            lines += 1;
        }
    };
    for words in [
        "check --json xnb",
        "check --json --by-padding xnb south*",
        "rows --json xnb no-such-file",
        "tree --json xnb",
        "shorten --json xnb -o short",
        "shorten --json xnb -o short",
        "shorten --json -i - < /dev/null",
        "check --json --driver xnb",
        "retype --json xnb/ok-kind-13-string.xnb --row 0 --text no -o typed",
        "retype --json xnb/ok-kind-13-string.xnb --row 0 --text yes -o longer",
        "retype --json xnb/ok-kind-13-string.xnb --row 1 --text no -o other",
        "export --json xnb/ok-texts-entities.xnb -o texts.xml",
        "export --json xnb/ok-texts-second-null.xnb -o other",
        "import --json texts.xml -o texts.xnb",
        "import --json xnb/ok-texts-entities.xnb -o other",
        "image --json xnb/ok-format-13-single.xnb -o pictures",
        "image --json xnb/ok-kind-13-string.xnb -o pictures",
        "image --json xnb/ok-kind-32-texture.xnb --level 1 -o pictures",
        "pack list --json pak",
        "mark --json pak/ok-pack-mixed-case.pak -o new",
        "mark --json pak/ok-pack-mixed-case.pak -o new",
        "unmark --json pak/ok-pack-mixed-case.pak -o other",
        "unmark --json no-such-file -o other",
        "pack extract --json pak/ok-pack-mixed-case.pak -o out",
        "pack extract --json pak/ok-marked-mixed-case.pak -o south*",
        "salvage --json pak/ok-pack-mixed-case.pak -o other",
        "report --json pak",
    ] {
        let ran = shell(&top, &format!("mkdir -p short; asset-builder {words}"));
        assert!(!ran.out.is_empty(), "{words}: {}", ran.err);
        add(&ran.out);
    }
    for damaged in kept_damaged_packs() {
        let name = format!("{kept}/{}.damaged", damaged.name);
        add(&run_in(&top, &["salvage", "--json", &name, "-o", "saved"], &[]).out);
        let _ = fs::remove_file(top.join("saved"));
    }
    assert!(lines > 1_000, "only {lines} lines");
    let page = Path::new(env!("CARGO_MANIFEST_DIR")).join("../../docs/JSON.md");
    let page = fields_of_page(&fs::read_to_string(page).expect("the page"));
    assert_eq!(fields, page);
}

#[test]
fn what_cannot_be_read_is_an_object_in_every_command() {
    let top = depot("json-unread");
    for words in [
        &["check", "xnb"][..],
        &["rows", "xnb"],
        &["tree", "xnb"],
        &["shorten", "-i", "xnb"],
        &["pack", "list", "pak"],
    ] {
        let ran = run_in(&top, &[words, &["--json"]].concat(), &[]);
        let lines: Vec<Json> = ran.out.lines().map(json_of).collect();
        let unread: Vec<&Json> = lines
            .iter()
            .filter(|it| it.get("unread").is_some())
            .collect();
        let [unread] = unread[..] else {
            panic!("{words:?}: {unread:?}");
        };
        let file = unread["file"].as_str().expect("a name");
        assert!(file.contains("/dangling."), "{words:?}: {file}");
        assert!(unread["unread"]["why"].is_string(), "{words:?}: {unread}");
        assert_eq!(ran.status, Some(2), "{words:?}");
    }
    for words in [
        &["pack", "extract", "missing", "-o", "out"][..],
        &[
            "retype", "missing", "--row", "0", "--text", "a", "-o", "out",
        ],
        &["export", "missing", "-o", "out"],
        &["import", "missing", "-o", "out"],
        &["image", "missing", "-o", "out"],
        &["mark", "missing", "-o", "out"],
        &["unmark", "missing", "-o", "out"],
        &["salvage", "missing", "-o", "out"],
    ] {
        let ran = run_in(&top, &[words, &["--json"]].concat(), &[]);
        let why = "No such file or directory (os error 2)";
        let expected = json!({"schema": 1, "file": "missing", "unread": {"why": why}});
        assert_eq!(json_of(&ran.out), expected, "{words:?}");
        assert_eq!(ran.status, Some(2), "{words:?}");
    }
}

#[test]
fn a_name_that_is_no_text_is_given_without_loss() {
    let top = depot("json-names");
    let ran = shell(&top, "asset-builder rows --json xnb/$'\\xFF'.xnb");
    let line = json_of(&ran.out);
    assert_eq!(line["file"], "xnb/\u{FFFD}.xnb");
    assert_eq!(line["fileBytes"], "eG5iL/8ueG5i");
    // A name that is text has no such field.
    let ran = shell(&top, "asset-builder rows --json xnb/ok-kind-13-string.xnb");
    assert!(json_of(&ran.out).get("fileBytes").is_none());
}

#[test]
fn what_is_written_or_not_is_reported_to_programs() {
    let top = depot("json-written");
    let name = "xnb/ok-text-count-in-2-bytes.xnb";
    let words = ["shorten", "--json", name, "-o", "out"];
    let written = json!({"file": "out", "bytes": 65});
    let expected = json!({"schema": 1, "file": name, "bytes": 66, "written": written});
    assert_eq!(json_of(&run_in(&top, &words, &[]).out), expected);
    let ran = run_in(&top, &words, &[]);
    let why = "it is there already; -f overwrites it";
    let expected = json!({"schema": 1, "file": name, "bytes": 66, "unwritten": {"why": why}});
    assert_eq!((json_of(&ran.out), ran.status), (expected, Some(2)));
    // Beside a new file on standard output, the line goes to standard error.
    let line = format!("asset-builder shorten --json {name} -o - | cmp - out");
    let ran = shell(&top, &line);
    assert_eq!(
        json_of(&ran.err)["written"],
        json!({"file": "-", "bytes": 65})
    );

    let name = "xnb/ok-kind-13-string.xnb";
    let words = ["retype", "--json", name, "--row", "0", "--text"];
    let ran = run_in(&top, &[&words[..], &["no", "-o", "no"]].concat(), &[]);
    let written = json!({"file": "no", "bytes": 65});
    let expected = json!({"schema": 1, "file": name, "bytes": 65, "written": written});
    assert_eq!((json_of(&ran.out), ran.status), (expected, Some(0)));
    let ran = run_in(&top, &[&words[..], &["yes", "-o", "yes"]].concat(), &[]);
    let why = "its text has 2 bytes, the one given has 3 bytes";
    let expected = json!({"schema": 1, "file": name, "bytes": 65, "unwritten": {"why": why}});
    assert_eq!((json_of(&ran.out), ran.status), (expected, Some(2)));
    let name = "xnb/ok-texts-second-null.xnb";
    let ran = run_in(&top, &["export", "--json", name, "-o", "xml"], &[]);
    let refused = &json_of(&ran.out)["refused"];
    let reported = (&refused["number"], &refused["place"], &refused["found"]);
    let found = json!("the 2nd text is null");
    assert_eq!(reported, (&json!(62), &json!(2), &found));
    assert_eq!((ran.err.as_str(), ran.status), ("", Some(1)));

    let pack = "pak/ok-pack-mixed-case.pak";
    let ran = run_in(
        &top,
        &["pack", "extract", "--json", pack, "-o", "doors"],
        &[],
    );
    let why = "a file before it has a path that matches";
    let expected = json!({
        "schema": 1, "file": pack, "bytes": 61, "marked": false, "folder": "doors", "files": [
            {"path": "Fonts\\Door", "bytes": 3,
                "written": {"file": "doors/Fonts/Door", "bytes": 3}},
            {"path": "fonts\\door", "bytes": 3, "unwritten": {"why": why}},
            {"path": "FONTS\\DOORS", "bytes": 5,
                "written": {"file": "doors/FONTS/DOORS", "bytes": 5}},
        ],
    });
    assert_eq!((json_of(&ran.out), ran.status), (expected, Some(1)));
}
