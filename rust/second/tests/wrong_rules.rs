//! Wrong rules, each put into a copy of this loader: a file of the corpus folder must show it.

use std::path::{Path, PathBuf};
use std::process::Command;

#[path = "wrong/meshes.rs"]
mod meshes;
#[path = "wrong/names.rs"]
mod names;
#[path = "wrong/requests.rs"]
mod requests;

/// A rule as it stands in a source file, and a wrong one for it.
struct Wrong {
    what: &'static str,
    file: &'static str,
    right: &'static str,
    wrong: &'static str,
}

const WRONG: &[Wrong] = &[
    Wrong {
        what: "DateTime's limit",
        file: "walk.rs",
        right: "LAST_TICK: u64 = 3_155_378_975_999_999_999;",
        wrong: "LAST_TICK: u64 = 3_155_378_975_999_999_998;",
    },
    Wrong {
        what: "Vector3's size",
        file: "kinds.rs",
        right: "24 => 12,",
        wrong: "24 => 16,",
    },
    Wrong {
        what: "platform n for m",
        file: "header.rs",
        right: "b\"wmx\"",
        wrong: "b\"wnx\"",
    },
    Wrong {
        what: "a pixel size",
        file: "image.rs",
        right: "1 | 2 | 3 | 7 | 16 => Some(2),\n        0 | 8 | 9 | 10 | 13 | 17 => Some(4),",
        wrong: "1 | 2 | 3 | 16 => Some(2),\n        0 | 7 | 8 | 9 | 10 | 13 | 17 => Some(4),",
    },
    Wrong {
        what: "two font fields exchanged",
        file: "walk.rs",
        right:
            "self.raw(&Type::plain(INT32), spot)?;\n        self.raw(&Type::plain(SINGLE), spot)?;",
        wrong:
            "self.raw(&Type::plain(SINGLE), spot)?;\n        self.raw(&Type::plain(INT32), spot)?;",
    },
    Wrong {
        what: "the kinds of Color and Point exchanged",
        file: "kinds.rs",
        right: "kind(28, \"Color\", XNA),\n    kind(29, \"Point\", XNA),",
        wrong: "kind(29, \"Color\", XNA),\n    kind(28, \"Point\", XNA),",
    },
    Wrong {
        what: "refusal 3's place",
        file: "header.rs",
        right: "PLATFORM, 3)",
        wrong: "PLATFORM, 4)",
    },
    Wrong {
        what: "a value's rows without itself",
        file: "walk.rs",
        right: "(self.rows.len() - row) as u32",
        wrong: "(self.rows.len() - row - 1) as u32",
    },
    Wrong {
        what: "children for all rows below",
        file: "walk.rs",
        right: "(self.rows.len() - row) as u32",
        wrong: "1 + children",
    },
    Wrong {
        what: "a text's count left out of the padding",
        file: "walk.rs",
        right: "let count = self.cursor.take_seven()?;",
        wrong: "let before = self.cursor.padding;
        let count = self.cursor.take_seven()?;
        self.cursor.padding = before;",
    },
    Wrong {
        what: "the reader count left out of the padding",
        file: "load.rs",
        right: "let count = read_count(cursor, MOST_READERS)?;",
        wrong: "let count = read_count(cursor, MOST_READERS)?;
    cursor.padding = 0;",
    },
    Wrong {
        what: "one byte as the shortest form of 128",
        file: "seven.rs",
        right: "0x80..=0x3FFF => 2,",
        wrong: "0x80..=0x3FFF => 1,",
    },
    Wrong {
        what: "an enum's listed size ignored",
        file: "types.rs",
        right: "let size = enums.size(name.head).unwrap_or(UNLISTED_SIZE);",
        wrong: "let size = UNLISTED_SIZE;",
    },
    Wrong {
        what: "32 after the file's length",
        file: "load.rs",
        right: "let enums = EnumList::read(enums)?;\n    check_header(file)?;",
        wrong: "check_header(file)?;\n    let enums = EnumList::read(enums)?;",
    },
    Wrong {
        what: "two enums of one size taken for one type",
        file: "types.rs",
        right: "let name = name.to_vec();",
        wrong: "let name = Vec::new();",
    },
    Wrong {
        what: "a listed target name taken",
        file: "enums.rs",
        right: "is_head(name) && !is_target_name && SIZES.contains(size)",
        wrong: "is_head(name) && SIZES.contains(size)",
    },
    Wrong {
        what: "a name listed twice taken",
        file: "enums.rs",
        right: "let listed_earlier = sizes.insert(name, size).is_some();",
        wrong: "let listed_earlier = sizes.insert(name, size).is_some() && false;",
    },
    Wrong {
        what: "32 placed at the entry's byte",
        file: "enums.rs",
        right: "number += 1;",
        wrong: "number += 2 + name.len();",
    },
    Wrong {
        what: "a listed name with arguments taken",
        file: "types.rs",
        right: "let lawful = !is_target_name && name.arguments.is_empty();",
        wrong: "let bare = name.arguments.is_empty() || enums.size(name.head).is_some();
    let lawful = !is_target_name && bare;",
    },
];

/// Prints the name of every kept file that gives another answer than is kept beside it.
const PROBE: &str = include_str!("wrong/probe.txt");

/// Builds a copy of this program and answers which kept files give other answers by it.
fn differing(name: &str, wrong: Option<&Wrong>) -> Vec<String> {
    let folder = Path::new(env!("CARGO_TARGET_TMPDIR")).join(name);
    copy_sources(&folder, wrong);
    let program = folder.join("probe");
    let rustc = std::env::var("RUSTC").unwrap_or("rustc".to_string());
    let built = Command::new(rustc)
        .args(["--edition", "2021", "--cap-lints", "allow", "-o"])
        .args([&program, &folder.join("lib.rs")])
        .args(["--crate-type", "bin"])
        .status();
    assert!(built.expect("rustc starts").success(), "{name} is built");
    let output = Command::new(program).arg(corpus::folder::folder()).output();
    let output = output.expect("the copy starts");
    assert!(output.status.success(), "{name} ends");
    let text = String::from_utf8(output.stdout).expect("it prints names");
    let mut names: Vec<String> = text.lines().map(String::from).collect();
    names.sort();
    names
}

/// Copies the sources, with one rule changed and the probe as the program.
fn copy_sources(folder: &PathBuf, wrong: Option<&Wrong>) {
    std::fs::create_dir_all(folder).expect("a folder");
    let sources = Path::new(env!("CARGO_MANIFEST_DIR")).join("src");
    for entry in std::fs::read_dir(sources).expect("the sources are there") {
        let entry = entry.expect("a source");
        let name = entry.file_name().to_string_lossy().into_owned();
        let mut text = std::fs::read_to_string(entry.path()).expect("a source");
        if let Some(wrong) = wrong.filter(|wrong| wrong.file == name) {
            assert_eq!(text.matches(wrong.right).count(), 1, "{}", wrong.what);
            text = text.replace(wrong.right, wrong.wrong);
        }
        if name == "lib.rs" {
            text += PROBE;
        }
        std::fs::write(folder.join(name), text).expect("a copy");
    }
}

#[test]
fn the_right_rules_give_all_answers() {
    assert_eq!(differing("right", None), Vec::<String>::new());
}

#[test]
fn each_wrong_rule_is_shown_by_a_kept_file() {
    let rules = WRONG.iter().chain(&names::WRONG).chain(&meshes::WRONG);
    all_are_shown("wrong", rules);
}

#[test]
fn each_wrong_rule_over_files_and_packs_is_shown_by_a_kept_file() {
    all_are_shown("wrong-request", requests::WRONG.iter());
}

fn all_are_shown<'r>(folder: &str, rules: impl Iterator<Item = &'r Wrong>) {
    for (number, wrong) in rules.enumerate() {
        let names = differing(&format!("{folder}-{number}"), Some(wrong));
        assert!(!names.is_empty(), "no file shows {}", wrong.what);
        println!("{}: {}", wrong.what, names.join(" "));
    }
}
