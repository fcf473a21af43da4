//! `check`, `rows` and `tree` on corpus files and on files written for them.

mod common;

use common::{run, run_in, sample, scratch, Ran};
use corpus::folder::{folder, kept_files};
use corpus::readers::*;
use corpus::values::*;
use corpus::writer::{write, Value};
use serde_json::Value as Json;
use std::fs;

/// The tree of a list of objects, each with a reader of its own, but for its first line.
fn tree_of(name: &str, readers: &[&str], values: Vec<Value>) -> String {
    let file = list_file(readers, values);
    let ran = run_in(&scratch(name), &["tree", "-"], &file);
    assert_eq!((ran.status, ran.err.as_str()), (Some(0), ""));
    let lines = ran.out.split_once('\n').expect("a first line").1;
    lines.to_string()
}

/// A list of objects, each with a reader of its own.
fn list_file(readers: &[&str], values: Vec<Value>) -> Vec<u8> {
    let mut names = vec![list_of("System.Object")];
    names.extend(readers.iter().map(|reader| reader.to_string()));
    let objects = (2..).zip(values).map(|(id, value)| object(id, value));
    let list = object(1, list(objects.collect()));
    write(&file(&names, list, vec![])).bytes
}

/// A line of JSON.
fn json(line: &str) -> Json {
    serde_json::from_str(line).expect("JSON")
}

#[test]
fn rows_prints_what_the_program_prints() {
    for file in kept_files() {
        let ran = run(&["rows", &format!("{}.xnb", file.name)]);
        // The program has room for fewer rows and fewer bytes.
        if !file.name.starts_with("bad-19") && file.bytes.len() <= 32_768 {
            assert_eq!(ran.out, file.rows, "{}", file.name);
        }
        let refused = ran.out.starts_with("refused");
        assert_eq!(ran.status, Some(i32::from(refused)), "{}", file.name);
        assert_eq!(ran.err, "");
    }
}

#[test]
fn rows_may_have_the_room_of_the_program() {
    let ran = run(&["rows", "--rows", "1024", "bad-19-1025-rows.xnb"]);
    let printed = fs::read_to_string(folder().join("bad-19-1025-rows.rows")).expect("a sample");
    assert_eq!((ran.out, ran.status), (printed, Some(1)));
    let ran = run(&["rows", "bad-19-1025-rows.xnb"]);
    assert!(
        ran.out.starts_with("rows 1025 readers 1 shared 0\n"),
        "{}",
        ran.out
    );
    assert_eq!(ran.status, Some(0));
    for rows in ["65537", "-1", "many"] {
        let ran = run(&["rows", "--rows", rows, "ok-kind-13-string.xnb"]);
        assert_eq!((ran.status, ran.out.as_str()), (Some(2), ""), "{rows}");
    }
}

#[test]
fn several_files_are_told_apart() {
    let expected = "==> ok-kind-00-null.xnb <==\nrows 1 readers 0 shared 0\n0 0 12 1 0 0 0 1\n\
        ==> bad-06-flags.xnb <==\nrefused 6 at 5\n";
    let ran = run(&["rows", "ok-kind-00-null.xnb", "bad-06-flags.xnb"]);
    assert_eq!((ran.out.as_str(), ran.status), (expected, Some(1)));
    let expected = "==> ok-kind-00-null.xnb <==\nprimary: Null\n\
        ==> ok-kind-01-byte.xnb <==\nprimary: Byte ";
    let ran = run(&["tree", "ok-kind-00-null.xnb", "ok-kind-01-byte.xnb"]);
    assert!(ran.out.starts_with(expected), "{}", ran.out);
}

/// The number that 01's asset builder gets, by the entry that it calls.
#[test]
fn check_answers_what_the_asset_builder_gets() {
    let files = kept_files();
    let mut words = vec!["check".to_string(), "--json".to_string()];
    words.extend(files.iter().map(|file| format!("{}.xnb", file.name)));
    let ran = run(&words);
    for (file, line) in files.iter().zip(ran.out.lines()) {
        let checked = json(line);
        assert_eq!(checked["file"], format!("{}.xnb", file.name));
        assert_eq!(
            checked["answer"],
            xnb::raw::load(&file.bytes),
            "{}",
            file.name
        );
    }
    assert_eq!(ran.out.lines().count(), files.len() + 1);
    let accepted = files
        .iter()
        .filter(|it| xnb::raw::load(&it.bytes) >> 32 == 0);
    let summary = &json(ran.out.lines().last().expect("a summary"))["summary"];
    assert_eq!(summary["files"], files.len());
    assert_eq!(summary["accepted"], accepted.count());
    assert_eq!(summary["unread"], 0);
    assert_eq!((ran.status, ran.err.as_str()), (Some(1), ""));
}

#[test]
fn check_has_room_for_1024_rows_unless_asked() {
    let refused = "bad-19-1025-rows.xnb: refused 19 at 1104: no row is left for a value\n  \
        the table has room for 1024 rows, this value needs one more; --rows N gives more, up to 65536\n";
    let ran = run(&["check", "bad-19-1025-rows.xnb"]);
    assert!(ran.out.starts_with(refused), "{}", ran.out);
    assert_eq!(ran.status, Some(1));
    let ran = run(&["check", "--rows", "1025", "bad-19-1025-rows.xnb"]);
    let taken = "bad-19-1025-rows.xnb: rows 1025 readers 1 shared 0 padding 0\n\
        1 file: 1 accepted, 0 refused, 0 unread; padding 0 in 0 files\n";
    assert_eq!((ran.out.as_str(), ran.status), (taken, Some(0)));
    let ran = run(&["check", "--rows=0", "ok-kind-00-null.xnb"]);
    assert!(ran.out.contains("refused 19 at 12: "), "{}", ran.out);
}

#[test]
fn check_reports_each_file_and_sums_up() {
    let files = kept_files();
    let names: Vec<String> = files.iter().map(|it| format!("{}.xnb", it.name)).collect();
    let mut words = vec!["check"];
    words.extend(names.iter().map(String::as_str));
    let ran = run(&words);
    // The lines of a refusal behind its first are indented.
    let lines: Vec<&str> = ran.out.lines().filter(|it| !it.starts_with(' ')).collect();
    assert_eq!(lines.len(), files.len() + 1);
    for (file, line) in files.iter().zip(&lines) {
        let rows = run(&["rows", "--rows=1024", &format!("{}.xnb", file.name)]).out;
        let first = rows.lines().next().expect("a line");
        let start = format!("{}.xnb: {first}", file.name);
        assert!(line.starts_with(&start), "{line}");
    }
    let refused = lines.iter().filter(|it| it.contains(": refused ")).count();
    let (all, accepted) = (files.len(), files.len() - refused);
    let summary = format!("{all} files: {accepted} accepted, {refused} refused, 0 unread; ");
    assert!(
        lines[files.len()].starts_with(&summary),
        "{}",
        lines[files.len()]
    );
    assert_eq!((ran.status, ran.err.as_str()), (Some(1), ""));
    assert_eq!(run(&["check", "ok-kind-13-string.xnb"]).status, Some(0));
}

#[test]
fn folders_are_walked() {
    let top = scratch("walked");
    let string = sample("ok-kind-13-string.xnb");
    fs::create_dir_all(top.join("depot/b/deep")).expect("a folder");
    for name in ["b/deep/two.XNB", "b/one.xnb", "a.xnb", "b/one.txt", "xnb"] {
        fs::write(top.join("depot").join(name), &string).expect("a file");
    }
    let line = |name| format!("depot/{name}: rows 1 readers 1 shared 0 padding 0\n");
    let expected = ["a.xnb", "b/deep/two.XNB", "b/one.xnb"].map(line).concat()
        + "3 files: 3 accepted, 0 refused, 0 unread; padding 0 in 0 files\n";
    let ran = run_in(&top, &["check", "depot"], &[]);
    assert_eq!((ran.out, ran.status), (expected, Some(0)));
    let ran = run_in(&top, &["rows", "depot/b/deep"], &[]);
    assert!(
        ran.out.starts_with("==> depot/b/deep/two.XNB <==\n"),
        "{}",
        ran.out
    );

    fs::create_dir(top.join("empty")).expect("a folder");
    let ran = run_in(&top, &["check", "empty"], &[]);
    assert_eq!(ran.err, "empty: no .xnb file is in it\n");
    assert_eq!(ran.status, Some(2));
}

#[test]
fn links_are_followed_but_not_in_circles() {
    let top = scratch("links");
    fs::create_dir(top.join("depot")).expect("a folder");
    fs::write(top.join("kept"), sample("ok-kind-13-string.xnb")).expect("a file");
    std::os::unix::fs::symlink("../kept", top.join("depot/link.xnb")).expect("a link");
    std::os::unix::fs::symlink("..", top.join("depot/up")).expect("a link");
    let ran = run_in(&top, &["check", "depot"], &[]);
    assert!(ran.out.contains("depot/link.xnb: rows 1 "), "{}", ran.out);
    assert!(ran.err.contains("a link that leads back"), "{}", ran.err);
    assert_eq!(ran.status, Some(2));
}

#[test]
fn standard_input_is_a_file() {
    let string = sample("ok-kind-13-string.xnb");
    let folder = folder();
    let ran = run_in(&folder, &["rows", "-"], &string);
    assert_eq!(ran.out, "rows 1 readers 1 shared 0\n0 13 61 4 0 0 1 1\n");
    let ran = run_in(&folder, &["check", "-", "ok-kind-00-null.xnb"], &string);
    let expected = "-: rows 1 readers 1 shared 0 padding 0\n\
        ok-kind-00-null.xnb: rows 1 readers 0 shared 0 padding 0\n\
        2 files: 2 accepted, 0 refused, 0 unread; padding 0 in 0 files\n";
    assert_eq!((ran.out.as_str(), ran.status), (expected, Some(0)));
    let ran = run_in(&folder, &["check", "-", "-"], &string);
    assert_eq!(ran.err, "-: standard input is read once only\n");
    assert_eq!(ran.status, Some(2));
    assert_eq!(run_in(&folder, &["tree", "-"], &[]).status, Some(1));
}

#[test]
fn files_past_the_limit_are_refused() {
    let top = scratch("longest");
    let file = fs::File::create(top.join("long.xnb")).expect("a file");
    file.set_len(16_777_217).expect("a long file");
    let ran = run_in(&top, &["check", "long.xnb"], &[]);
    let expected = "long.xnb: refused 9 at 0: ";
    assert!(ran.out.starts_with(expected), "{}", ran.out);
    assert!(
        ran.out
            .contains("\n  the file has more than 16777216 bytes\n"),
        "{}",
        ran.out
    );
}

#[test]
fn tree_shows_texts_and_numbers() {
    let readers = [
        STRING, BYTE, SBYTE, INT16, UINT16, INT32, UINT32, INT64, UINT64, SINGLE, DOUBLE, BOOLEAN,
        CHAR,
    ];
    let values = vec![
        text("größer \"x\"\n\u{1B}"),
        byte(200),
        sbyte(-56),
        int16(-300),
        uint16(65_000),
        int32(i32::MIN),
        uint32(u32::MAX),
        int64(i64::MIN),
        uint64(u64::MAX),
        single(0.1),
        double(-1e300),
        boolean(true),
        character('€'),
    ];
    let expected = r#"  String "größer \"x\"\n\u{1b}"
  Byte 200
  SByte -56
  Int16 -300
  UInt16 65000
  Int32 -2147483648
  UInt32 4294967295
  Int64 -9223372036854775808
  UInt64 18446744073709551615
  Single 0.1
  Double -1e300
  Boolean true
  Char '€'
"#;
    assert_eq!(tree_of("numbers", &readers, values.clone()), expected);

    let file = list_file(&readers, values);
    let ran = run_in(&scratch("numbers-json"), &["tree", "--json", "-"], &file);
    let tree = json(&ran.out);
    let list = &tree["objects"][0];
    assert_eq!(
        (&list["name"], &list["kind"]),
        (&"primary".into(), &"List".into())
    );
    assert_eq!(list["value"]["count"], 13);
    let reported: Vec<&Json> = (0..13)
        .map(|index| &list["children"][index]["value"])
        .collect();
    let expected = serde_json::json!([
        "größer \"x\"\n\u{1B}",
        200,
        -56,
        -300,
        65_000,
        i32::MIN,
        u32::MAX,
        "-9223372036854775808",
        "18446744073709551615",
        0.1,
        -1e300,
        true,
        "€"
    ]);
    assert_eq!(
        reported,
        expected
            .as_array()
            .expect("a list")
            .iter()
            .collect::<Vec<_>>()
    );
    assert_eq!(list["children"][1]["typeId"], 3);
    assert_eq!(list["children"][12]["row"], 13);
}

#[test]
fn tree_shows_structures() {
    let number = nullable_of("System.Int32");
    let door = enum_of("Coach.Door");
    let table = dictionary_of("System.Byte", "Microsoft.Xna.Framework.Point");
    let readers = [
        number.as_str(),
        &number,
        &door,
        &table,
        TIME_SPAN,
        DATE_TIME,
        DECIMAL,
        DECIMAL,
        VECTOR3,
        COLOR,
        RECTANGLE,
        TEXTURE2D,
    ];
    let values = vec![
        something(int32(7)),
        nothing(),
        enumeration(-3),
        dictionary(vec![(byte(1), point([-2, 3]))]),
        time_span(-1),
        date_time(2, 10),
        decimal([1234, 0, 0, 0x8003_0000]),
        decimal([5, 0, 0, 0x0002_0000]),
        vector3([1.0, -2.5, f32::NAN]),
        color([255, 128, 0, 1]),
        rectangle([1, 2, 30, -40]),
        texture(4, 5, 3, 2),
    ];
    let expected = "  Nullable
    Int32 7
  Nullable nothing
  Enum -3
  Dictionary of 1
    key: Byte 1
    value: Point -2 3
  TimeSpan -1 s and 9999999 ticks
  DateTime 10 ticks, zone 2
  Decimal -1.234
  Decimal 0.05
  Vector3 1.0 -2.5 NaN
  Color 255 128 0 1
  Rectangle 1 2 30 -40
  Texture2D 5 by 3, format 4
    ImageLevel of 16 bytes
    ImageLevel of 8 bytes
";
    assert_eq!(tree_of("structures", &readers, values.clone()), expected);

    let file = list_file(&readers, values);
    let ran = run_in(&scratch("structures-json"), &["tree", "--json", "-"], &file);
    let tree = json(&ran.out);
    let children = &tree["objects"][0]["children"];
    assert_eq!(children[1]["value"]["present"], false);
    assert_eq!(children[3]["children"][1]["name"], "value");
    assert_eq!(children[4]["value"]["ticks"], "9999999");
    assert_eq!(children[5]["value"]["ticks"], "10");
    assert_eq!(children[6]["value"], "-1.234");
    assert_eq!(children[8]["value"], serde_json::json!([1.0, -2.5, "NaN"]));
    assert_eq!(children[11]["children"][1]["value"]["bytes"], 8);
}

#[test]
fn tree_names_shared_objects_and_fields() {
    let expected = "primary: Page
  title: String \"first\"
  area: Rectangle 0 0 64 48
  picture: SharedReference to shared 2
  next: SharedReference to shared 1
shared 1: Page
";
    let ran = run(&["tree", "ok-kind-35-ring-of-pages-with-pictures.xnb"]);
    assert!(ran.out.starts_with(expected), "{}", ran.out);
    let font = run(&["tree", "ok-kind-33-font.xnb"]).out;
    assert!(font.contains("\n  default character: Nullable"), "{font}");
}

#[test]
fn refused_files_have_no_tree() {
    let ran = run(&["tree", "bad-01-no-byte.xnb", "ok-kind-00-null.xnb"]);
    assert_eq!(ran.status, Some(1));
    let start = "bad-01-no-byte.xnb: refused 1 at 0: ";
    assert!(ran.err.starts_with(start), "{}", ran.err);
    assert_eq!(ran.out, "==> ok-kind-00-null.xnb <==\nprimary: Null\n");
    for command in ["tree", "rows"] {
        let ran = run(&[command, "--json", "bad-06-flags.xnb"]);
        let reported = json(&ran.out);
        assert_eq!(reported["refused"]["number"], 6);
        assert_eq!(
            reported["refused"]["found"],
            "the flags are 02; only 00 and 01 are taken"
        );
        assert_eq!((ran.status, ran.err.as_str()), (Some(1), ""));
    }
}

#[test]
fn every_accepted_file_has_a_tree() {
    for file in kept_files() {
        let name = format!("{}.xnb", file.name);
        let rows = file.rows.lines().count() - 1;
        if rows > 0 {
            let Ran { out, status, .. } = run(&["tree", &name]);
            assert_eq!((out.lines().count(), status), (rows, Some(0)), "{name}");
            let tree = json(&run(&["tree", "--json", &name]).out);
            let reported: usize = tree["objects"]
                .as_array()
                .expect("objects")
                .iter()
                .map(count)
                .sum();
            assert_eq!(reported, rows, "{name}");
            let listed = json(&run(&["rows", "--json", &name]).out);
            let words = |line: &str| -> Json {
                let words = line.split(' ').skip(1);
                words.map(|it| it.parse::<u32>().expect("a word")).collect()
            };
            let expected: Json = file.rows.lines().skip(1).map(words).collect();
            assert_eq!(listed["rows"], expected, "{name}");
        }
    }
}

/// The number of values in a tree, which each value gives of itself and all below it.
fn count(tree: &Json) -> usize {
    let children = tree["children"].as_array();
    let rows = 1 + children.map_or(0, |children| children.iter().map(count).sum());
    assert_eq!(tree["rows"], rows);
    rows
}

#[test]
fn missing_files_are_reported() {
    for command in ["rows", "tree"] {
        let ran = run(&[command, "no-such-file"]);
        assert_eq!((ran.status, ran.out.as_str()), (Some(2), ""));
        assert!(ran.err.starts_with("no-such-file: "), "{}", ran.err);
    }
    let ran = run(&["check", "no-such-file", "bad-01-no-byte.xnb"]);
    assert_eq!(ran.status, Some(2));
    assert!(ran.err.starts_with("no-such-file: "), "{}", ran.err);
    let summary = "2 files: 0 accepted, 1 refused, 1 unread; padding 0 in 0 files\n";
    assert!(ran.out.ends_with(summary), "{}", ran.out);
    let ran = run(&["check", "--json", "no-such-file"]);
    let unread = json(ran.out.lines().next().expect("a line"));
    let why = "No such file or directory (os error 2)";
    assert_eq!(unread["unread"]["why"], why, "{unread}");
    assert_eq!(ran.status, Some(2));
}
