//! Req 04: which part of a reader's name is wrong, as it is reported to people and programs.

mod common;

use common::{has_control, on_terminal, run, run_in, scratch};
use corpus::names::{all, Judged};
use serde_json::{json, Value as Json};
use std::fs;

/// A file with one reader of this name, which starts at byte 13, and a null.
fn file_with(name: &[u8]) -> Vec<u8> {
    let mut file = b"XNBw\x05\x00....\x01".to_vec();
    file.push(name.len() as u8 | 0x80);
    file.push((name.len() >> 7) as u8);
    file.extend_from_slice(name);
    file.extend_from_slice(&[0; 6]);
    let length = file.len() as u32;
    file[6..10].copy_from_slice(&length.to_le_bytes());
    file
}

/// What `check` reports of a file with this name.
fn reported(name: &[u8]) -> String {
    let ran = run_in(
        &scratch("names-reported"),
        &["check", "--rows=1024", "-"],
        &file_with(name),
    );
    assert_eq!((ran.status, ran.err.as_str()), (Some(1), ""));
    let out = ran.out.strip_prefix("-: ").expect("the file's name");
    out.to_string()
}

/// Each number, with the lines of the request's example first.
#[test]
fn each_part_that_is_wrong_is_marked() {
    let hyphen = "\
corpus/names/bad-34-hyphen-in-head.xnb: refused 34 at 95: bad byte in a head
  Microsoft.Xna.Framework.Content.List-Reader`1[[System.Char]]
                                      ^
  reader 2: a head has letters, digits, '.', '_' and '+', found '-' (2D)
";
    let root = corpus::folder::root();
    let ran = run_in(
        &root,
        &["check", "corpus/names/bad-34-hyphen-in-head.xnb"],
        &[],
    );
    assert!(ran.out.starts_with(hyphen), "{}", ran.out);
    let table = [
        (
            33,
            "argument-of-no-byte",
            "empty head",
            "a head is due, found ']' (5D)",
        ),
        (
            35,
            "digit-9",
            "digit not 1 or 2",
            "1 or 2 is due, found '9' (39)",
        ),
        (
            36,
            "one-bracket-for-two",
            "argument brackets out of form or followed by a wrong byte",
            "'[' is due, found 'S' (53)",
        ),
        (
            37,
            "tail-80",
            "bad byte in a tail",
            "a tail has bytes 20 to 7E without brackets, found 80",
        ),
        (
            38,
            "level-9-at-the-name-end",
            "nested past 8",
            "a name of level 9 starts here, the limit is 8",
        ),
        (
            11,
            "nullable-of-text",
            "a reader's name has an unknown type or wrong arguments",
            "a nullable holds a value type other than Nullable",
        ),
    ];
    for (number, name, rule, found) in table {
        let file = format!("bad-{number}-{name}.xnb");
        let out = run(&["check", &file]).out;
        let lines: Vec<&str> = out.lines().collect();
        let start = format!("{file}: refused {number} at ");
        assert!(lines[0].starts_with(&start), "{out}");
        assert!(lines[0].ends_with(&format!(": {rule}")), "{out}");
        assert!(lines[2].trim_start().starts_with('^'), "{out}");
        let found = format!(": {found}");
        assert!(lines[3].ends_with(&found), "{out}");
    }
}

/// At the name's end the mark stands behind it, and 11 marks the head that it complains of.
#[test]
fn ends_and_heads_are_marked() {
    let end = "\
refused 33 at 18: empty head
  A`1[[
       ^
  reader 1: a head is due, found the name's end
";
    assert!(reported(b"A`1[[").starts_with(end));
    let head = "\
refused 11 at 59: a reader's name has an unknown type or wrong arguments
  Microsoft.Xna.Framework.Content.ListReader`1[[System.Object`1[[A]], b]]
                                                ^^^^^^^^^^^^^
  reader 1: it takes 0 arguments, the name has 1
";
    let name = b"Microsoft.Xna.Framework.Content.ListReader`1[[System.Object`1[[A]], b]]";
    assert!(reported(name).starts_with(head));
}

/// A byte as the command shows it in a name.
fn shown(byte: u8) -> String {
    match byte {
        b'\\' => r"\\".to_string(),
        b' '..=b'~' => char::from(byte).to_string(),
        _ => format!("\\x{byte:02X}"),
    }
}

/// The lines behind the first, up to what is found: the parts of the name, and where in them the mark begins.
fn marked(lines: &[&str], name: &[u8]) -> (String, usize) {
    let whole: String = name.iter().copied().map(shown).collect();
    let (mut text, mut mark, mut line_start) = (String::new(), None, 0);
    for line in lines {
        let line = line.strip_prefix("  ").expect("an indent");
        assert!(line.len() <= 77, "{line} is too wide");
        // No name of the table has this byte in it.
        if line.trim_start().starts_with('^') {
            let column = line.find('^').expect("a mark");
            mark.get_or_insert(line_start + column);
        } else {
            line_start = text.len();
            text += line;
        }
    }
    assert_eq!(text, whole);
    (text, mark.expect("a mark"))
}

/// Every bad name of the table, and one of 1,024 bytes: the mark stands below the byte at the place.
#[test]
fn the_mark_stands_below_the_wrong_byte() {
    let top = scratch("names-table");
    let mut names: Vec<Judged> = all().into_iter().filter(|it| it.number > 0).collect();
    let tail = "a".repeat(1024 - 46);
    names.push(Judged {
        number: 37,
        place: 44 + 900,
        name: format!(
            "Microsoft.Xna.Framework.Content.ByteReader, {}\\]{}",
            &tail[..899],
            &tail[899..]
        ),
    });
    for (index, judged) in names.iter().enumerate() {
        assert!(!judged.name.contains('^'), "{}", judged.name);
        let path = top.join(format!("{index:04}.xnb"));
        fs::write(path, file_with(judged.name.as_bytes())).expect("a file");
    }
    let ran = run_in(&top, &["check", "."], &[]);
    assert!(!has_control(&ran.out));
    let json = run_in(&top, &["check", "--json", "."], &[]).out;
    let mut rest = ran.out.as_str();
    for (judged, json) in names.iter().zip(json.lines()) {
        let name = judged.name.as_bytes();
        let lines: Vec<&str> = rest.lines().collect();
        let (number, place) = (judged.number, 13 + judged.place);
        let refused = format!(": refused {number} at {place}: ");
        assert!(lines[0].contains(&refused), "{}: {}", lines[0], judged.name);
        let found = lines.iter().position(|it| it.starts_with("  reader 1: "));
        let (text, mark) = marked(&lines[1..found.expect("what is found")], name);
        let before: String = name[..judged.place].iter().copied().map(shown).collect();
        assert_eq!(mark, before.len(), "{text}");
        check_json(json, judged);
        let next = rest[1..].find("\n./").map_or(rest.len(), |it| it + 2);
        rest = &rest[next..];
    }
    assert_eq!(rest, "");
    assert!(names.len() > 150, "only {} names", names.len());
}

/// JSON has the name and the offset in it.
fn check_json(line: &str, judged: &Judged) {
    let reported: Json = serde_json::from_str(line).expect("JSON");
    let refused = &reported["refused"];
    assert_eq!(refused["number"], judged.number);
    assert_eq!(refused["place"], 13 + judged.place);
    let reader = json!({
        "number": 1,
        "first": 13,
        "name": judged.name,
        "offset": judged.place,
    });
    assert_eq!(refused["reader"], reader);
}

#[test]
fn a_name_that_is_not_text_is_reported() {
    let out = reported(b"A\xFF\xC3\x28");
    let lines = "\
refused 34 at 14: bad byte in a head
  A\\xFF\\xC3(
   ^^^^
  reader 1: a head has letters, digits, '.', '_' and '+', found FF
";
    assert!(out.starts_with(lines), "{out}");
    // Nearly all of a name that needs four columns a byte: the mark is not scrolled away.
    let mut name = b"A, ".to_vec();
    name.resize(1024, 0x9B);
    let out = reported(&name);
    assert!(!has_control(&out), "{out:?}");
    assert!(out.contains("\n     ^^^^\n"), "{out}");
    assert!(out.contains("\n  ...\n  reader 1: "), "{out}");
    assert!(out.lines().count() <= 24, "{out}");
}

/// Only the mark has a colour, and its line no other width.
#[test]
fn the_mark_is_red_on_a_terminal() {
    let folder = corpus::folder::folder();
    let shown = on_terminal(
        &folder,
        "asset-builder check bad-34-hyphen-in-head.xnb",
        &[],
    );
    let mark = format!("\r\n  {}\u{1B}[1;31m^\u{1B}[0m\r\n", " ".repeat(36));
    assert!(shown.contains(&mark), "{shown:?}");
}

/// A reader that is meant without a fault in its name has no mark and no offset.
#[test]
fn other_refusals_have_no_mark_in_a_name() {
    let out = run(&["check", "bad-12-version-1.xnb"]).out;
    let lines = "
  the version of reader 1 is 1; only 0 is taken
  Microsoft.Xna.Framework.Content.StringReader
  00000020";
    assert!(out.contains(lines), "{out}");
    let json = run(&["check", "--json", "bad-12-version-1.xnb"]).out;
    let reported: Json = serde_json::from_str(json.lines().next().expect("a line")).expect("JSON");
    let reader = &reported["refused"]["reader"];
    assert_eq!(reader["number"], 1);
    assert_eq!(reader.get("offset"), None);
}
