//! `--enums FILE`: lists of enum types that commands lend.

mod common;

use common::{run, run_in, sample, scratch, shell, Ran};
use corpus::folder::kept_files_with_enums;
use corpus::readers::{array_of, enum_of, list_of};
use corpus::values::*;
use corpus::writer::write;
use serde_json::Value as Json;
use std::fs;
use std::path::{Path, PathBuf};
use xnb::EnumList;

/// A folder with this list and these files.
fn folder_with(name: &str, list: &[u8], files: &[(&str, &[u8])]) -> PathBuf {
    let top = scratch(name);
    fs::write(top.join("enums.txt"), list).expect("a list");
    for (file, bytes) in files {
        fs::write(top.join(file), bytes).expect("a file");
    }
    top
}

/// What is reported of a list by a command that must fail.
fn reported(name: &str, list: &[u8]) -> String {
    let top = folder_with(name, list, &[]);
    let null = sample("ok-kind-00-null.xnb");
    let ran = run_in(&top, &["check", "--enums", "enums.txt", "-"], &null);
    assert_eq!((ran.status, ran.out.as_str()), (Some(2), ""), "{}", ran.err);
    ran.err
}

/// A list in the form of the command.
fn text_of(list: &EnumList) -> String {
    let lines = list.types().map(|(name, size)| format!("{name} {size}\n"));
    lines.collect()
}

/// Doors of one byte, screens of two, seats of four and routes of eight.
const LIST: &[u8] =
    b"# The new screen\nCoach.Door 1\nCoach.Screen 2 # modes\n\nCoach.Seat 4\nCoach.Route 8\n";

/// A list of an enum of each size, one that is not listed, and an array of doors.
fn enum_file() -> Vec<u8> {
    let readers = [
        list_of("System.Object"),
        enum_of("Coach.Door"),
        enum_of("Coach.Screen"),
        enum_of("Coach.Seat"),
        enum_of("Coach.Route"),
        enum_of("Coach.Unlisted"),
        array_of("Coach.Door"),
    ];
    let door = |byte| fixed(15, &[byte]);
    let elements = vec![
        object(2, door(200)),
        object(3, fixed(15, &(-2_i16).to_le_bytes())),
        object(4, fixed(15, &(-3_i32).to_le_bytes())),
        object(5, fixed(15, &i64::MIN.to_le_bytes())),
        object(6, enumeration(-5)),
        object(7, array(vec![door(0), door(255)])),
    ];
    write(&file(&readers, object(1, list(elements)), vec![])).bytes
}

#[test]
fn every_command_lends_the_list() {
    let file = enum_file();
    let top = folder_with("lends", LIST, &[("doors.xnb", &file)]);
    let with = |words: &[&str]| run_in(&top, &[words, &["--enums", "enums.txt"]].concat(), &[]);
    let without = |words: &[&str]| run_in(&top, words, &[]);

    let Ran { out, status, .. } = with(&["tree", "doors.xnb"]);
    let expected = "\
primary: List of 6
  Enum 200
  Enum -2
  Enum -3
  Enum -9223372036854775808
  Enum -5
  Array of 2
    Enum 0
    Enum 255
";
    assert_eq!((out.as_str(), status), (expected, Some(0)));
    let ran = without(&["tree", "doors.xnb"]);
    assert!(ran.err.contains("refused 11 at "), "{}", ran.err);
    assert_eq!(ran.status, Some(1));

    let ran = with(&["check", "doors.xnb"]);
    let line = "doors.xnb: rows 9 readers 7 shared 0 padding 0\n";
    assert!(ran.out.starts_with(line), "{}", ran.out);
    assert_eq!(ran.status, Some(0));
    assert_eq!(without(&["check", "doors.xnb"]).status, Some(1));

    let ran = with(&["rows", "doors.xnb"]);
    assert!(
        ran.out.starts_with("rows 9 readers 7 shared 0\n"),
        "{}",
        ran.out
    );
    assert_eq!(without(&["rows", "doors.xnb"]).status, Some(1));

    let ran = with(&["shorten", "doors.xnb", "-o", "short.xnb"]);
    assert_eq!(ran.status, Some(0), "{}", ran.err);
    assert_eq!(fs::read(top.join("short.xnb")).expect("a file"), file);
    let ran = without(&["shorten", "doors.xnb", "-o", "short.xnb"]);
    assert_eq!(ran.status, Some(1));
}

#[test]
fn kept_files_have_their_rows_with_their_lists() {
    let mut taken = 0;
    for file in kept_files_with_enums() {
        let Ok(list) = EnumList::from_bytes(file.enums) else {
            continue;
        };
        let list = text_of(&list);
        let top = folder_with("kept", list.as_bytes(), &[("file.xnb", &file.bytes)]);
        let words = ["--rows=1024", "--enums=enums.txt", "file.xnb"];
        let ran = run_in(&top, &[&["rows"], &words[..]].concat(), &[]);
        assert_eq!(ran.out, file.rows, "{}", file.name);
        if ran.status != Some(0) {
            continue;
        }
        let tree = run_in(&top, &[&["tree", "--json"], &words[..]].concat(), &[]);
        assert_eq!(tree.status, Some(0), "{}: {}", file.name, tree.err);
        taken += 1;
    }
    assert!(taken > 40, "only {taken} files are taken");
}

#[test]
fn lists_are_read_as_people_write_them() {
    let file = enum_file();
    let lists: [&[u8]; 5] = [
        LIST,
        b"Coach.Route 8\r\nCoach.Door 1\r\nCoach.Seat 4\r\nCoach.Screen 2\r\n",
        b"\xEF\xBB\xBFCoach.Door 1\n\tCoach.Screen\t \t2\n  Coach.Route 8  #\n# Coach.Seat 2",
        b"# Gr\xFC\xDFe\nCoach.Door 1#one\nCoach.Screen 2\n\n\nCoach.Route 8",
        b"Coach.Door 1\n \t \nCoach.Screen 2\nCoach.Route 8\nNo.Such.Enum 1\n",
    ];
    for list in lists {
        let top = folder_with("people", list, &[("doors.xnb", &file)]);
        let ran = run_in(&top, &["check", "--enums", "enums.txt", "doors.xnb"], &[]);
        assert_eq!(ran.status, Some(0), "{}", ran.out + &ran.err);
    }
    for list in ["", "\n", "# nothing\n\n"] {
        let top = folder_with("empty", list.as_bytes(), &[]);
        let null = sample("ok-kind-00-null.xnb");
        let ran = run_in(&top, &["rows", "--enums", "enums.txt", "-"], &null);
        assert_eq!((ran.status, ran.err.as_str()), (Some(0), ""));
    }
}

#[test]
fn a_wrong_line_is_reported_by_its_number() {
    let expected = "\
enums.txt, line 3: a name and a size are due, as in Coach.Door 1, found Coach.Screen
enums.txt, line 5: Coach.Seat: the size is 3; only 1, 2, 4 and 8 are taken
enums.txt, line 6: a name and a size are due, as in Coach.Door 1, found Coach.Route 8 bytes
enums.txt, line 7: Coach: the size is Row; only 1, 2, 4 and 8 are taken
enums.txt, line 8: A: the size is 01; only 1, 2, 4 and 8 are taken
";
    let list =
        b"# list\nCoach.Door 1\nCoach.Screen\n\nCoach.Seat 3\nCoach.Route 8 bytes\nCoach Row\nA 01";
    assert_eq!(reported("wrong-lines", list), expected);
    let long = "x".repeat(256);
    let of_names = [
        (
            "A 1\n# B\n\nCoach-Door 1\n".to_string(),
            "line 4: Coach-Door: the name has the byte 2D; only letters, digits, ., _ and + are taken",
        ),
        (
            "A 1\nSystem.Byte 1".to_string(),
            "line 2: System.Byte: a type of this name is known already",
        ),
        (
            "\nA 1\n#\nB 1\nA 2\n".to_string(),
            "line 5: A: the name is listed before, on line 2",
        ),
        (
            "System.Collections.Generic.List`1[[A]] 1".to_string(),
            "line 1: System.Collections.Generic.List`1[[A]]: the name has the byte 60; \
             only letters, digits, ., _ and + are taken",
        ),
        (
            format!("A 1\n{long} 2"),
            &*format!("line 2: {long}: the name has 256 bytes, the limit 255"),
        ),
    ];
    for (list, why) in of_names {
        let expected = format!("enums.txt, {why}\n");
        assert_eq!(reported("wrong-names", list.as_bytes()), expected);
    }
}

#[test]
fn no_control_byte_of_a_list_is_printed() {
    let err = reported("control-list", b"A\x1B[2J 1\n\xFF\x07 2 3\n");
    assert!(!common::has_control(&err), "{err:?}");
    assert!(err.contains("line 2: a name and a size are due"), "{err}");
}

#[test]
fn a_list_that_cannot_be_read_is_reported() {
    for command in ["check", "rows", "tree"] {
        let ran = run(&[command, "--enums", "no-such-list", "ok-kind-00-null.xnb"]);
        assert_eq!((ran.status, ran.out.as_str()), (Some(2), ""), "{command}");
        assert!(ran.err.starts_with("no-such-list: "), "{}", ran.err);
    }
    let top = folder_with(
        "unread",
        b"A 3\n",
        &[("null.xnb", &sample("ok-kind-00-null.xnb"))],
    );
    let words = [
        "shorten",
        "null.xnb",
        "-o",
        "out.xnb",
        "--enums",
        "enums.txt",
    ];
    assert_eq!(run_in(&top, &words, &[]).status, Some(2));
    assert!(!Path::exists(&top.join("out.xnb")), "nothing is written");
}

#[test]
fn standard_input_may_be_the_list_but_not_a_file_too() {
    let top = folder_with("input-list", b"", &[("doors.xnb", &enum_file())]);
    let ran = run_in(&top, &["check", "--enums", "-", "doors.xnb"], LIST);
    assert_eq!(ran.status, Some(0), "{}", ran.out + &ran.err);
    let ran = run_in(&top, &["check", "--enums", "-", "doors.xnb", "-"], LIST);
    assert_eq!(ran.err, "-: standard input is read once only\n");
    assert_eq!((ran.status, ran.out.as_str()), (Some(2), ""));
    // A shell may make the list.
    let line = "asset-builder check --enums <(echo Coach.Door 1; echo Coach.Screen 2; echo Coach.Route 8) doors.xnb";
    assert_eq!(shell(&top, line).status, Some(0));
}

/// What is found in a refused file follows the list.
#[test]
fn refusals_are_explained_with_the_list() {
    let readers = [list_of("Coach.Screen")];
    let screens = list(vec![fixed(15, &[1, 2]), fixed(15, &[3, 4])]);
    let mut file = write(&file(&readers, object(1, screens), vec![])).bytes;
    file.pop();
    corpus::writer::set_length(&mut file, 0);
    let top = folder_with("explained", LIST, &[("cut.xnb", &file)]);
    let ran = run_in(&top, &["check", "--enums", "enums.txt", "cut.xnb"], &[]);
    let words = "a value of kind Enum takes 2 bytes, 1 left";
    assert!(ran.out.contains(words), "{}", ran.out);
    let ran = run_in(
        &top,
        &["rows", "--json", "--enums", "enums.txt", "cut.xnb"],
        &[],
    );
    let reported: Json = serde_json::from_str(&ran.out).expect("JSON");
    assert_eq!(reported["refused"]["found"], words);
    assert_eq!(reported["refused"]["number"], 1);
}
