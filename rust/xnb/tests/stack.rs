//! The stack that each entry takes, as `xnb.h` has it, measured by a program in C over files of the greatest depth.

use corpus::folder::{kept_files, root};
use corpus::packs::folder::{kept_damaged_packs, kept_marked_packs, kept_packs};
use corpus::xml::kept_samples;
use std::collections::BTreeMap;
use std::fs::{self, File};
use std::path::{Path, PathBuf};
use std::process::Command;

/// The bytes that the header says, by entry; those of each other stand under `other`.
fn stated() -> BTreeMap<String, u64> {
    let header = fs::read_to_string(root().join("crates/builder/xnb.h")).expect("the header");
    let (_, table) = header.split_once("greatest depth:").expect("the stack");
    let (table, _) = table.split_once('.').expect("an end");
    let entries = table.split([',', ';']).map(|entry| {
        let words: Vec<&str> = entry.split_whitespace().collect();
        let number: u64 = words[words.len() - 1].parse().expect("a number");
        let name = words[..words.len() - 1].join(" ");
        (name.replace("every other entry", "other"), 1024 * number)
    });
    entries.collect()
}

/// Kept files, generated ones, those at every depth, and packs of them.
fn inputs() -> Vec<Vec<u8>> {
    let kept = kept_files().into_iter().step_by(3);
    let mut files: Vec<Vec<u8>> = kept.map(|it| it.bytes).collect();
    files.extend((0..150).map(|seed| fuzz::case(seed).bytes));
    files.extend((0..150).map(|seed| fuzz::meshes::case(seed).bytes));
    let limits = fuzz::limits::cases();
    let deep = limits.iter().filter(|it| it.name.starts_with("depth "));
    let deep: Vec<Vec<u8>> = deep.map(|it| it.case.bytes.clone()).collect();
    assert!(deep.len() >= 5);
    let mut pack = (deep.len() as u32).to_le_bytes().to_vec();
    for file in &deep {
        pack.extend(b"\x05a.xnb");
        pack.extend((file.len() as u32).to_le_bytes());
        pack.extend(file);
    }
    files.extend(deep.iter().cloned());
    files.push(pack);
    files.extend(kept_packs().into_iter().map(|it| it.bytes));
    files.extend(kept_marked_packs().into_iter().map(|it| it.bytes));
    files.extend(kept_damaged_packs().into_iter().map(|it| it.bytes));
    files.extend(kept_samples().into_iter().map(|it| it.xml));
    files.retain(|it| it.len() < 1 << 20);
    files
}

/// The program, with every warning an error.
fn compiled(folder: &Path) -> PathBuf {
    let program = folder.join("stack");
    let built = Command::new("cc")
        .args(["-O2", "-Wall", "-Wextra", "-Werror", "-pthread", "-I"])
        .arg(root().join("crates/builder"))
        .arg(Path::new(env!("CARGO_MANIFEST_DIR")).join("tests/c/stack.c"))
        .arg(root().join("target/staticlib/libbuilder.a"))
        .arg("-o")
        .arg(&program)
        .status();
    assert!(built.expect("a compiler").success());
    program
}

#[test]
fn entries_take_the_stack_that_the_header_says() {
    let folder = Path::new(env!("CARGO_TARGET_TMPDIR")).join("stack");
    let _ = fs::remove_dir_all(&folder);
    fs::create_dir_all(&folder).expect("a folder");
    let mut names = String::new();
    for (number, input) in inputs().iter().enumerate() {
        let name = folder.join(number.to_string());
        fs::write(&name, input).expect("an input");
        names += &format!("{}\n", name.display());
    }
    fs::write(folder.join("names"), names).expect("a list");
    let output = Command::new(compiled(&folder))
        .stdin(File::open(folder.join("names")).expect("the list"))
        .output()
        .expect("the program starts");
    assert!(output.status.success(), "{}", output.status);
    let printed = String::from_utf8(output.stdout).expect("a text");
    println!("{printed}");

    let stated = stated();
    assert!(stated.len() >= 5, "{stated:?}");
    let mut entries = 0;
    for line in printed.lines() {
        let (entry, bytes) = line.split_once(' ').expect("an entry");
        let bytes: u64 = bytes.parse().expect("a number");
        let most = stated.get(entry).unwrap_or(&stated["other"]);
        assert!(bytes <= *most, "{entry} takes {bytes} bytes of {most}");
        // A number that is far too large says nothing.
        let is_near = !stated.contains_key(entry) || bytes * 5 / 4 > *most;
        assert!(is_near, "{entry} takes {bytes} bytes of {most}");
        entries += 1;
    }
    let header = fs::read_to_string(root().join("crates/builder/xnb.h")).expect("the header");
    let (_, declared) = header.split_once("extern \"C\" {").expect("entries");
    let declared = declared.lines().filter(|it| it.starts_with("uint"));
    assert_eq!(entries, declared.count(), "every entry is measured");
    fs::remove_dir_all(folder).expect("a folder");
}
