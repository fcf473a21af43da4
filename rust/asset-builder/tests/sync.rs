//! When a command has the system put files on the disk; strace lists the calls.

mod common;

use common::{names, sample, scratch, COMMAND};
use std::fs;
use std::path::Path;
use std::process::Command;

const FILES: usize = 300;
/// The calls that put files on the disk, and those that give a file the name of its place.
const SYNCS: [&str; 6] = [
    "fsync",
    "fdatasync",
    "syncfs",
    "sync",
    "sync_file_range",
    "msync",
];
const NAMINGS: [&str; 4] = ["linkat", "rename", "renameat", "renameat2"];

/// The names of such calls that a run makes, in order.
fn calls(folder: &Path, words: &[&str], named_parts: bool) -> Vec<String> {
    let list = folder.join("calls");
    let traced = [&SYNCS[..], &NAMINGS].concat().join(",");
    let mut strace = Command::new("strace");
    strace
        .args(["-f", "-qq", "-e", "signal=none", "-e"])
        .arg(format!("trace={traced}"))
        .arg("-o")
        .arg(&list)
        .arg(COMMAND)
        .args(words)
        .current_dir(folder);
    if named_parts {
        strace.env("ASSET_BUILDER_NAMED_PARTS", "1");
    }
    let output = strace
        .output()
        .expect("strace starts; Debian's package is strace");
    assert!(output.status.success(), "{words:?}: {output:?}");
    let lines = fs::read_to_string(&list).expect("a list of calls");
    fs::remove_file(list).expect("the list is there");
    // A line is the number of a process, a call and its answer.
    let call = |line: &str| {
        let (_, rest) = line.trim().split_once(' ')?;
        let (name, _) = rest.trim().split_once('(')?;
        let is_name = |it: char| it.is_ascii_alphanumeric() || it == '_';
        name.chars().all(is_name).then(|| name.to_string())
    };
    lines.lines().filter_map(call).collect()
}

/// A pack of many small files in three folders.
fn pack_of_small_files() -> Vec<u8> {
    let mut pack = (FILES as u32).to_le_bytes().to_vec();
    for number in 0..FILES {
        let path = format!("folder{}/file{number}", number % 3);
        pack.push(path.len() as u8);
        pack.extend(path.bytes());
        pack.extend(5_u32.to_le_bytes());
        pack.extend(b"bytes");
    }
    pack
}

/// Files of a pack are put on the disk by one call, behind the last file.
#[test]
fn pack_extract_syncs_once_at_the_end() {
    let top = scratch("sync-extract");
    fs::write(top.join("in.pak"), pack_of_small_files()).expect("a pack");
    for (output, named_parts) in [("out", false), ("out-named", true)] {
        let words = ["pack", "extract", "in.pak", "-o", output];
        let calls = calls(&top, &words, named_parts);
        let written: usize = (0..3)
            .map(|it| names(&top.join(format!("{output}/folder{it}"))).len())
            .sum();
        assert_eq!(written, FILES);
        let named = calls
            .iter()
            .filter(|it| NAMINGS.contains(&it.as_str()))
            .count();
        assert_eq!(named, FILES, "{calls:?}");
        assert_eq!(calls.len(), FILES + 1, "{calls:?}");
        assert_eq!(calls.last().map(String::as_str), Some("syncfs"));
    }
}

/// A single file has its bytes on the disk before it has its name, and its name at the end.
#[test]
fn a_file_is_synced_before_and_behind_its_name() {
    let top = scratch("sync-file");
    let padded = sample("ok-text-count-in-2-bytes.xnb");
    fs::write(top.join("padded.xnb"), padded).expect("a file");
    for (words, named_parts) in [
        (&["shorten", "padded.xnb", "-o", "new.xnb"][..], false),
        (&["shorten", "padded.xnb", "-o", "named.xnb"], true),
    ] {
        let calls = calls(&top, words, named_parts);
        let kinds: Vec<bool> = calls
            .iter()
            .map(|it| SYNCS.contains(&it.as_str()))
            .collect();
        assert_eq!(kinds, [true, false, true], "{words:?}: {calls:?}");
    }
}
