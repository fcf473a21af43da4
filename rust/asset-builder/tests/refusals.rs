//! Refusals as people see them.

mod common;

use common::{run, run_in, sample, scratch};
use corpus::folder::kept_files;

/// What `check` prints for a sample, without its name and without the summary.
fn reported(name: &str) -> String {
    let name = format!("{name}.xnb");
    let out = run(&["check", &name]).out;
    let out = out
        .strip_prefix(&format!("{name}: "))
        .expect("the file's name");
    let end = out.find("1 file: ").expect("a summary");
    out[..end].to_string()
}

#[test]
fn a_refusal_reports_the_rule_the_value_and_the_bytes() {
    let expected = "\
refused 7 at 6: the header's length is not the file's length
  the header says 14 bytes, the file has 13
  00000000  58 4E 42 77 05 00 0E 00 00 00 00 00 00           XNBw.........
                              ^^                                   ^
";
    assert_eq!(reported("bad-07-length-too-large"), expected);
}

#[test]
fn a_place_at_the_end_is_marked_behind_the_last_byte() {
    let expected = "\
refused 1 at 0: a field runs past the end of the file
  the header takes 10 bytes, the file has 0
  00000000
            ^^                                               ^ the end
";
    assert_eq!(reported("bad-01-no-byte"), expected);
    let expected = "\
refused 1 at 13: a field runs past the end of the file
  the type id is due where the file ends
  00000000  58 4E 42 77 05 00 0D 00 00 00 00 01 00           XNBw.........
                                                   ^^                     ^ the end
";
    assert_eq!(reported("bad-01-no-shared-object"), expected);
}

#[test]
fn a_refusal_names_the_reader() {
    let expected = "\
refused 14 at 132: an object is not of the declared type
  declared System.String, found System.Int32 by reader 2
  Microsoft.Xna.Framework.Content.Int32Reader
  00000070  74 33 32 52 65 61 64 65 72 00 00 00 00 00 01 02  t32Reader.......
  00000080  00 00 00 00 02 00 00 00 00                       .........
                        ^^                                       ^
";
    assert_eq!(reported("bad-14-number-where-text-is-declared"), expected);
    let expected = "\
refused 37 at 104: bad byte in a tail
  Microsoft.Xna.Framework.Content.ByteReader, a]b
                                               ^
  reader 2: a tail has bytes 20 to 7E without brackets, found ']' (5D)
  00000050  72 6B 2E 43 6F 6E 74 65 6E 74 2E 42 79 74 65 52  rk.Content.ByteR
  00000060  65 61 64 65 72 2C 20 61 5D 62 01 00 00 00 00 00  eader, a]b......
                                    ^^                               ^
";
    assert_eq!(reported("bad-37-bracket-in-tail"), expected);
}

/// The byte above the mark is the byte at the place, in both columns.
#[test]
fn the_mark_stands_below_the_place() {
    let mut marked = 0;
    for file in kept_files() {
        let out = run(&["check", &format!("{}.xnb", file.name)]).out;
        let lines: Vec<&str> = out.lines().collect();
        // It stands behind the marks in a reader's name.
        let marks = |line: &&str| line.trim_start().starts_with("^^");
        let Some(below) = lines.iter().rposition(marks) else {
            continue;
        };
        let first = lines[0].split(" at ").nth(1).expect("a place");
        let place: usize = first
            .split(':')
            .next()
            .expect("a place")
            .parse()
            .expect("a number");
        let (line, mark) = (lines[below - 1], lines[below]);
        let (hex, letter) = (
            mark.find("^^").expect("a mark"),
            mark.rfind('^').expect("a mark"),
        );
        let address = usize::from_str_radix(&line[2..10], 16).expect("an address");
        assert_eq!((hex - 12) / 3, place - address, "{}", file.name);
        assert_eq!(letter - 61, place - address, "{}", file.name);
        match file.bytes.get(place) {
            Some(byte) => {
                assert_eq!(line[hex..hex + 2], format!("{byte:02X}"), "{}", file.name);
                let shown = line.as_bytes()[letter];
                assert!(shown == *byte || shown == b'.', "{}", file.name);
            }
            None => assert!(mark.ends_with("^ the end"), "{}", file.name),
        }
        marked += 1;
    }
    assert!(marked >= 90, "{marked}");
}

#[test]
fn room_that_is_too_small_is_reported() {
    let ran = run_in(
        &scratch("room"),
        &["check", "--rows", "7", "-"],
        &sample("ok-kind-33-font.xnb"),
    );
    assert!(
        ran.out.contains(
            "room for 7 rows, this value needs one more; --rows N gives more, up to 65536\n"
        ),
        "{}",
        ran.out
    );
}
