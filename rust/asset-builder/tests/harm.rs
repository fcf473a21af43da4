//! What is there stays: overwriting, signals, links, modes and terminals.

mod common;

use common::{names, on_terminal, run_in, sample, scratch, shell, COMMAND};
use std::fs::{self, File, Permissions};
use std::io::{Seek, SeekFrom, Write};
use std::os::unix::fs::{chown, symlink, MetadataExt, PermissionsExt};
use std::os::unix::process::ExitStatusExt;
use std::path::{Path, PathBuf};
use std::process::{Command, Stdio};
use std::thread::sleep;
use std::time::{Duration, Instant};

const PADDED: &str = "ok-text-count-in-2-bytes.xnb";
const SHORTEST: &str = "ok-kind-13-string.xnb";
const PLAIN: &str = "ok-pack-mixed-case.pak";
const MARKED: &str = "ok-marked-mixed-case.marked";
const DAMAGED: &str = "salvage-bytes-between-records.damaged";
const IS_THERE: &str = "it is there already; -f overwrites it";
/// With this in the environment, files are written as on a file system where each has a name.
const NAMED: &str = "ASSET_BUILDER_NAMED_PARTS";

/// A folder with the samples under short names.
fn depot(name: &str) -> PathBuf {
    let top = scratch(name);
    for (name, from) in [
        ("padded.xnb", PADDED),
        ("plain.pak", PLAIN),
        ("pack.marked", MARKED),
        ("pack.damaged", DAMAGED),
    ] {
        fs::write(top.join(name), sample(from)).expect("a file");
    }
    top
}

fn read(path: &Path) -> Vec<u8> {
    fs::read(path).expect("a file")
}

#[test]
fn no_output_overwrites_a_file_that_is_there() {
    let top = depot("overwritten");
    let commands: [&[&str]; 6] = [
        &["shorten", "padded.xnb", "-o", "out/Fonts/Door"],
        &[
            "pack",
            "find",
            "plain.pak",
            "fonts\\doors",
            "-o",
            "out/Fonts/Door",
        ],
        &["pack", "extract", "plain.pak", "-o", "out"],
        &["mark", "plain.pak", "-o", "out/Fonts/Door"],
        &["unmark", "pack.marked", "-o", "out/Fonts/Door"],
        &["salvage", "pack.damaged", "-o", "out/Fonts/Door"],
    ];
    let door = top.join("out/Fonts/Door");
    fs::create_dir_all(top.join("out/Fonts")).expect("a folder");
    for words in commands {
        for flag in ["-f", "--force"] {
            fs::write(&door, "kept").expect("a file");
            let ran = run_in(&top, words, &[]);
            assert_eq!(ran.status, Some(2), "{words:?}: {ran:?}");
            assert!(ran.err.contains(IS_THERE), "{words:?}: {}", ran.err);
            assert_eq!(read(&door), b"kept", "{words:?}");
            let ran = run_in(&top, &[words, &[flag]].concat(), &[]);
            assert!(!ran.err.contains(IS_THERE), "{words:?}: {}", ran.err);
            assert_ne!(read(&door), b"kept", "{words:?}");
        }
    }
    assert_eq!(names(&top.join("out/Fonts")), ["Door"]);
}

#[test]
fn a_pack_is_converted_in_its_own_place_by_its_own_name() {
    let top = depot("own-place");
    assert_eq!(
        run_in(&top, &["mark", "plain.pak", "-o", "./plain.pak"], &[]).status,
        Some(0)
    );
    assert_eq!(read(&top.join("plain.pak")), sample(MARKED));
    assert_eq!(
        run_in(&top, &["unmark", "plain.pak", "-o", "plain.pak"], &[]).status,
        Some(0)
    );
    assert_eq!(read(&top.join("plain.pak")), sample(PLAIN));
    // Another name of the same file is another file that is there.
    fs::hard_link(top.join("plain.pak"), top.join("other.pak")).expect("a second name");
    let ran = run_in(&top, &["mark", "plain.pak", "-o", "other.pak"], &[]);
    assert_eq!(
        (ran.err, ran.status),
        (format!("other.pak: {IS_THERE}\n"), Some(2))
    );
}

/// The reasons why an output is not written at all are known before the input is read.
#[test]
fn an_output_that_is_there_is_reported_before_the_work() {
    let top = depot("before");
    let ran = run_in(&top, &["mark", "no-such-file", "-o", "plain.pak"], &[]);
    assert_eq!(
        (ran.err, ran.status),
        (format!("plain.pak: {IS_THERE}\n"), Some(2))
    );
}

#[test]
fn a_dangling_link_is_not_replaced() {
    let top = depot("dangling");
    symlink("nowhere", top.join("link")).expect("a link");
    for force in [&[][..], &["-f"]] {
        let words = ["shorten", "padded.xnb", "-o", "link"];
        let ran = run_in(&top, &[&words, force].concat(), &[]);
        let why = "link: it is a link to a file that is not there\n";
        assert_eq!((ran.err.as_str(), ran.status), (why, Some(2)));
    }
    assert_eq!(
        fs::read_link(top.join("link")).expect("a link"),
        Path::new("nowhere")
    );
    assert!(!top.join("nowhere").exists());
}

#[test]
fn a_new_file_has_no_more_rights_than_the_old_one() {
    let top = depot("rights");
    let path = top.join("padded.xnb");
    for named in [false, true] {
        for (before, after) in [(0o6755, 0o755), (0o1640, 0o640), (0o600, 0o600)] {
            fs::write(&path, sample(PADDED)).expect("a file");
            let is_root = fs::metadata(&path).expect("a file").uid() == 0;
            if is_root {
                chown(&path, Some(1234), Some(4321)).expect("another owner");
            }
            fs::set_permissions(&path, Permissions::from_mode(before)).expect("a mode");
            let line = "asset-builder shorten --in-place padded.xnb";
            let line = if named {
                format!("{NAMED}=1 {line}")
            } else {
                line.to_string()
            };
            assert_eq!(shell(&top, &line).status, Some(0));
            assert_eq!(read(&path), sample(SHORTEST));
            let new = fs::metadata(&path).expect("a file");
            assert_eq!(new.mode() & 0o7777, after, "{before:o}");
            if is_root {
                assert_eq!((new.uid(), new.gid()), (1234, 4321));
            }
            fs::remove_file(&path).expect("the file is there");
        }
    }
    // A new file has the mode that the user's mask leaves.
    fs::write(&path, sample(PADDED)).expect("a file");
    let ran = shell(
        &top,
        "umask 027; asset-builder shorten padded.xnb -o new.xnb",
    );
    assert_eq!(ran.status, Some(0), "{}", ran.err);
    let mode = fs::metadata(top.join("new.xnb")).expect("a file").mode();
    assert_eq!(mode & 0o7777, 0o640);
}

#[test]
fn hard_links_and_read_only_files_are_reported() {
    let top = depot("linked");
    fs::hard_link(top.join("padded.xnb"), top.join("other.xnb")).expect("a second name");
    let ran = run_in(&top, &["shorten", "--in-place", "padded.xnb"], &[]);
    let why = "padded.xnb: it had another name (a hard link), which keeps the old file\n";
    assert_eq!((ran.err.as_str(), ran.status), (why, Some(0)));
    assert_eq!(read(&top.join("padded.xnb")), sample(SHORTEST));
    assert_eq!(read(&top.join("other.xnb")), sample(PADDED));

    let other = top.join("other.xnb");
    fs::set_permissions(&other, Permissions::from_mode(0o444)).expect("a mode");
    let words = ["shorten", "--in-place", "other.xnb"];
    let ran = run_in(&top, &words, &[]);
    let why = "other.xnb: it is read-only; -f overwrites it\n";
    assert_eq!((ran.err.as_str(), ran.status), (why, Some(2)));
    assert_eq!(read(&other), sample(PADDED));
    let ran = run_in(&top, &[&words[..], &["-f"]].concat(), &[]);
    let why = "other.xnb: it was read-only, and is overwritten\n";
    assert_eq!((ran.err.as_str(), ran.status), (why, Some(0)));
    assert_eq!(read(&other), sample(SHORTEST));
    assert_eq!(fs::metadata(&other).expect("a file").mode() & 0o7777, 0o444);
}

#[test]
fn raw_bytes_go_to_a_terminal_only_by_force() {
    let top = depot("raw");
    for words in [
        "shorten padded.xnb -o -",
        "pack find plain.pak fonts/doors",
        "pack find plain.pak 'fonts\\doors' -o -",
        "pack find plain.pak 'fonts\\doors' -o /dev/tty",
        "mark plain.pak -o -",
        "unmark pack.marked -o -",
        "salvage pack.damaged -o -",
    ] {
        let words = words.replace("fonts/doors", "'fonts\\doors'");
        let shown = on_terminal(&top, &format!("asset-builder {words}; echo $?"), &[]);
        assert!(
            shown.contains("raw bytes are not written to a terminal; "),
            "{words}: {shown:?}"
        );
        assert!(shown.ends_with("2\r\n"), "{words}: {shown:?}");
        assert!(!shown.contains("three"), "{words}: {shown:?}");
    }
    let words = "pack find plain.pak 'fonts\\doors'";
    let shown = on_terminal(&top, &format!("asset-builder {words} -f; echo $?"), &[]);
    assert_eq!(shown, "three0\r\n");
}

/// A pack with one file `a` of so many zeros, most of them holes.
fn pack_of_zeros(path: &Path, length: u32) {
    let mut file = File::create(path).expect("a file");
    file.write_all(b"\x01\0\0\0\x01a").expect("a head");
    file.write_all(&length.to_le_bytes()).expect("a size");
    file.seek(SeekFrom::Start(10 + u64::from(length) - 1))
        .expect("a place");
    file.write_all(&[0]).expect("the last byte");
}

/// Whether the command has an output open below the folder that is not in its place.
fn is_writing(process: u32, folder: &Path) -> bool {
    let Ok(files) = fs::read_dir(format!("/proc/{process}/fd")) else {
        return false;
    };
    let links = files.filter_map(|it| fs::read_link(it.ok()?.path()).ok());
    let mut links = links.filter(|it| it.starts_with(folder));
    links.any(|it| {
        let name = it.to_string_lossy().into_owned();
        name.ends_with(".part") || name.ends_with(" (deleted)")
    })
}

/// A run that is ended while it writes leaves nothing behind, whether its part has a name or not.
#[test]
fn a_signal_leaves_no_part_of_a_file() {
    const SIGHUP: i32 = 1;
    const SIGINT: i32 = 2;
    const SIGKILL: i32 = 9;
    const SIGTERM: i32 = 15;
    let top = scratch("signals");
    pack_of_zeros(&top.join("in.pak"), 1 << 30);
    let top = fs::canonicalize(top).expect("a folder");
    for (signal, named) in [
        (SIGINT, false),
        (SIGTERM, false),
        (SIGKILL, false),
        (SIGHUP, true),
        (SIGINT, true),
        (SIGTERM, true),
    ] {
        // A test that runs in the background may have been given signals as ignored.
        let mut command = Command::new("env");
        command.args(["--default-signal=HUP,INT,TERM", COMMAND]);
        command.args(["pack", "find", "in.pak", "a", "-o", "out"]);
        if named {
            command.env(NAMED, "1");
        }
        let mut child = command
            .current_dir(&top)
            .stdin(Stdio::null())
            .spawn()
            .expect("the command starts");
        let started = Instant::now();
        while !is_writing(child.id(), &top) {
            assert!(
                started.elapsed() < Duration::from_secs(60),
                "it never writes"
            );
            assert!(
                child.try_wait().expect("a child").is_none(),
                "it was too quick"
            );
            sleep(Duration::from_millis(1));
        }
        let sent = Command::new("kill")
            .args([format!("-{signal}"), child.id().to_string()])
            .status();
        assert!(sent.expect("kill starts").success());
        let ended = child.wait().expect("a child");
        assert_eq!(ended.signal(), Some(signal), "{signal}, named {named}");
        assert_eq!(names(&top), ["in.pak"], "{signal}, named {named}");
    }
}

/// Past the limit of a file's size a write fails, as on a full disk.
#[test]
fn a_limit_of_the_files_size_is_an_error() {
    let top = scratch("limit");
    pack_of_zeros(&top.join("in.pak"), 1 << 20);
    for named in ["", &format!("{NAMED}=1 ")] {
        let line = format!("ulimit -f 8; {named}asset-builder pack find in.pak a -o out");
        let ran = shell(&top, &line);
        assert_eq!((ran.out.as_str(), ran.status), ("", Some(2)));
        assert!(ran.err.starts_with("out: File too large"), "{}", ran.err);
        assert_eq!(names(&top), ["in.pak"]);
    }
}

/// Whoever starts the command with a signal ignored, as nohup does, keeps it ignored.
#[test]
fn an_ignored_signal_stays_ignored() {
    let top = depot("ignored");
    let line = "trap '' INT; sleep 0.4 | asset-builder check - padded.xnb & pid=$!; \
        sleep 0.2; kill -INT $pid; wait $pid";
    let ran = shell(&top, line);
    assert!(ran.out.contains("2 files: "), "{ran:?}");
}
