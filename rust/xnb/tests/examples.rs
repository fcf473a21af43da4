//! The programs of `examples/`, run over kept files.

use corpus::folder::folder;
use std::path::{Path, PathBuf};
use std::process::Command;

/// A program that `cargo test` has built beside this test's own folder.
fn example(name: &str) -> Command {
    let test = std::env::current_exe().expect("this test's path");
    let target = test.ancestors().nth(2).expect("the target folder");
    let program = target.join("examples").join(name);
    assert!(
        program.is_file(),
        "{name} is not built: run cargo build with the option --examples"
    );
    Command::new(program)
}

/// What a program prints when it ends well.
fn printed(command: &mut Command) -> String {
    let output = command.output().expect("the program runs");
    let reported = String::from_utf8_lossy(&output.stderr);
    assert!(output.status.success(), "{reported}");
    String::from_utf8(output.stdout).expect("UTF-8")
}

fn kept(name: &str) -> PathBuf {
    folder().join(name)
}

/// A folder of this test alone, empty.
fn empty_folder(name: &str) -> PathBuf {
    let folder = Path::new(env!("CARGO_TARGET_TMPDIR")).join(name);
    let _ = std::fs::remove_dir_all(&folder);
    std::fs::create_dir_all(&folder).expect("a folder");
    folder
}

#[test]
fn values_of_a_file_are_printed() {
    let shown = printed(example("values").arg(kept("ok-kind-16-nullable-with-value.xnb")));
    assert_eq!(
        shown,
        "Header { platform: Windows, profile: Reach }\n\
        type id 1 reads System.Nullable`1[[System.Int32]]\n\
        0: Nullable(Some(1))\n  1: Int32(7)\n"
    );
}

#[test]
fn a_refused_file_is_reported() {
    let output = example("values").arg(kept("bad-07-length-00.xnb")).output();
    let output = output.expect("the program runs");
    assert!(!output.status.success());
    let reported = String::from_utf8_lossy(&output.stderr);
    assert!(reported.contains("FileLength"), "{reported}");
}

#[test]
fn pictures_of_a_file_are_written() {
    let folder = empty_folder("pictures");
    let file = kept("ok-kind-32-texture.xnb");
    let shown = printed(example("pictures").arg(file).arg(&folder));
    let expected = "row0-level0.pam: 2 by 2, Color\nrow0-level1.pam: 1 by 1, Color\n";
    assert_eq!(shown, expected);
    // The file's levels are the bytes from 0 on.
    for (level, side, bytes) in [(0, 2, 0..16), (1, 1, 0..4)] {
        let picture = std::fs::read(folder.join(format!("row0-level{level}.pam")));
        let mut expected = format!(
            "P7\nWIDTH {side}\nHEIGHT {side}\nDEPTH 4\nMAXVAL 255\nTUPLTYPE RGB_ALPHA\nENDHDR\n"
        )
        .into_bytes();
        expected.extend(bytes);
        assert_eq!(picture.expect("a picture"), expected);
    }
}

#[test]
fn files_of_a_pack_are_judged() {
    let path = empty_folder("pack").join("two.pak");
    let file = std::fs::read(kept("ok-kind-13-string.xnb")).expect("a file");
    let mut pack = b"\x02\0\0\0\x04Door".to_vec();
    pack.extend_from_slice(&(file.len() as u32).to_le_bytes());
    pack.extend_from_slice(&file);
    pack.extend_from_slice(b"\x03log\x02\0\0\0hi");
    std::fs::write(&path, pack).expect("a pack");
    let shown = printed(example("pack").arg(path));
    let expected = "\"Door\": 1 rows\n\
        \"log\": refused, a field runs past the end of the file, at byte 0\n";
    assert_eq!(shown, expected);
}
