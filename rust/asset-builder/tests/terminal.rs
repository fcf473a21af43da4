//! What a terminal, a pipe and a shell see.

mod common;

use common::{
    has_control, on_terminal, run, run_in, sample, scratch, shell, shell_with, AT_ONCE, NEVER,
};
use corpus::folder::folder;
use std::ffi::{OsStr, OsString};
use std::fs;
use std::os::unix::ffi::OsStrExt;

const RED: &str = "\u{1B}[1;31mrefused 6 at 5\u{1B}[0m";

#[test]
fn colours_are_for_terminals_only() {
    let line = "asset-builder check bad-06-flags.xnb";
    assert!(on_terminal(&folder(), line, &[]).contains(RED));
    // Standard error has colours of its own.
    let both = "asset-builder tree bad-06-flags.xnb";
    assert!(on_terminal(&folder(), both, &[]).contains(RED));
    assert!(on_terminal(&folder(), line, &[("NO_COLOR", "")]).contains(RED));
    for environment in [("NO_COLOR", "1"), ("TERM", "dumb")] {
        let shown = on_terminal(&folder(), line, &[environment]);
        assert!(shown.contains("refused 6 at 5: "), "{shown}");
        assert!(!shown.contains('\u{1B}'), "{shown}");
    }
    assert!(!has_control(&shell(&folder(), line).out));
    assert!(!has_control(&shell(&folder(), both).err));
    let piped = on_terminal(&folder(), &format!("{line} | cat"), &[]);
    assert!(!piped.contains('\u{1B}'), "{piped}");
}

#[test]
fn long_work_shows_progress_on_a_terminal() {
    let slow = "asset-builder check bad-06-flags.xnb ok-kind-13-string.xnb ok-kind-00-null.xnb";
    let shown = on_terminal(&folder(), slow, &AT_ONCE);
    assert!(shown.contains(" of 3, "), "{shown:?}");
    // Lines stand whole beside it.
    assert!(
        shown.contains("\u{1B}[1mok-kind-13-string.xnb\u{1B}[0m: rows 1 "),
        "{shown:?}"
    );
    for (line, environment) in [
        (slow.to_string(), NEVER),
        (format!("{slow} --no-progress"), AT_ONCE),
    ] {
        let quick = on_terminal(&folder(), &line, &environment);
        assert!(!quick.contains(" of 3, "), "{quick:?}");
    }
    let piped = shell_with(&folder(), slow, &AT_ONCE);
    assert_eq!(piped.err, "");
}

/// The reader of the pipe has gone before the command writes.
#[test]
fn a_closed_pipe_ends_quietly() {
    // The status is that of the files reported until then.
    let reported = [
        ("check .", "1\n"),
        ("check --json .", "1\n"),
        ("check --by-padding .", "1\n"),
        ("rows .", "1\n"),
        ("rows ok-1024-rows.xnb", "0\n"),
        ("tree ok-1024-rows.xnb", "0\n"),
        ("shorten ok-1024-rows.xnb -o -", "0\n"),
        ("pack list --json .", "1\n"),
        ("pack list ok-pack-mixed-case.pak", "0\n"),
        ("pack find ok-pack-mixed-case.pak fonts\\\\door", "0\n"),
        ("salvage --list salvage-cut-in-data.damaged", "0\n"),
        ("man", "0\n"),
        ("--help", "0\n"),
    ];
    for (words, status) in reported {
        let line =
            format!("{{ sleep 0.2; asset-builder {words}; }} | true; echo ${{PIPESTATUS[0]}}");
        let ran = shell(&folder(), &line);
        assert_eq!(
            (ran.out.as_str(), ran.err.as_str()),
            (status, ""),
            "{words}"
        );
    }
}

#[test]
fn no_control_byte_of_a_name_is_printed() {
    let top = scratch("control");
    let names: [&[u8]; 4] = [
        b"a\x1B[2J\n.xnb",
        b"b\xFF\x9B.xnb",
        b"c\x7F.xnb",
        "d\u{9B}.xnb".as_bytes(),
    ];
    for name in names {
        let path = top.join(OsStr::from_bytes(name));
        fs::write(path, sample("bad-06-flags.xnb")).expect("a file");
    }
    for words in [
        &["check", "."][..],
        &["check", "--json", "."],
        &["rows", "."],
        &["rows", "--json", "."],
        &["tree", "."],
        &["tree", "--json", "."],
        &["shorten", "--in-place", "."],
    ] {
        let ran = run_in(&top, words, &[]);
        assert_eq!(ran.status, Some(1), "{words:?}");
        assert!(!has_control(&ran.out), "{words:?}: {:?}", ran.out);
        assert!(!has_control(&ran.err), "{words:?}: {:?}", ran.err);
    }
    let ran = run_in(&top, &["check", "."], &[]);
    assert!(
        ran.out.contains(r#""./a\u{1b}[2J\n.xnb": refused 6 "#),
        "{}",
        ran.out
    );
    assert!(
        ran.out.contains(r#""./b\xFF\x9B.xnb": refused 6 "#),
        "{}",
        ran.out
    );

    // Nor of a word that is no file and no flag.
    let wrong: [&[u8]; 3] = [b"--\x1B[2J", b"\x1B]0;x\x07", b"\xFF\x1B"];
    for word in wrong {
        let words = [
            OsString::from("check"),
            OsStr::from_bytes(word).to_os_string(),
        ];
        let ran = run(&words);
        assert_eq!(ran.status, Some(2));
        assert!(!has_control(&ran.err), "{:?}", ran.err);
        let ran = run(&words[1..]);
        assert_eq!(ran.status, Some(2));
        assert!(!has_control(&ran.err), "{:?}", ran.err);
    }
}

#[test]
fn no_control_byte_of_a_reader_name_is_printed() {
    let mut file = sample("bad-37-bracket-in-tail.xnb");
    let place = file
        .windows(4)
        .position(|it| it == b", a]")
        .expect("a tail");
    file[place + 2] = 0x1B;
    let ran = run_in(&scratch("reader"), &["check", "-"], &file);
    assert!(ran.out.contains(r", \x1B]b"), "{}", ran.out);
    assert!(!has_control(&ran.out), "{:?}", ran.out);
    let ran = run_in(&scratch("reader"), &["check", "--json", "-"], &file);
    assert!(ran.out.contains(r", \u001b]b"), "{}", ran.out);
    assert!(!has_control(&ran.out), "{:?}", ran.out);
}
