//! What `shorten` writes: each file whole, or not at all.

mod common;

use common::{names, run, run_in, sample, scratch, shell};
use corpus::folder::folder;
use std::fs;
use std::os::unix::fs::{symlink, PermissionsExt};

const PADDED: &str = "ok-text-count-in-2-bytes.xnb";
const SHORTEST: &str = "ok-kind-13-string.xnb";

#[test]
fn the_shortest_form_is_written() {
    let top = scratch("written");
    let out = top.join("out.xnb");
    let path = out.to_str().expect("a plain path");
    let ran = run(&["shorten", PADDED, "-o", path]);
    assert_eq!(ran.out, format!("{PADDED}: 66 bytes, now 65\n"));
    assert_eq!((ran.status, ran.err.as_str()), (Some(0), ""));
    assert_eq!(fs::read(&out).expect("a file"), sample(SHORTEST));

    // A refused file leaves its output as it is.
    let ran = run(&["shorten", "bad-06-flags.xnb", "--output", path]);
    assert_eq!((ran.status, ran.out.as_str()), (Some(1), ""));
    let start = "bad-06-flags.xnb: refused 6 at 5: ";
    assert!(ran.err.starts_with(start), "{}", ran.err);
    assert_eq!(fs::read(&out).expect("a file"), sample(SHORTEST));
    assert_eq!(names(&top), ["out.xnb"]);
}

#[test]
fn standard_input_and_output_pass_files() {
    let top = scratch("passed");
    fs::write(top.join("padded"), sample(PADDED)).expect("a file");
    fs::write(top.join("bad"), sample("bad-06-flags.xnb")).expect("a file");
    let ran = shell(&top, "asset-builder shorten - -o - < padded > out");
    assert_eq!((ran.err.as_str(), ran.status), ("", Some(0)));
    assert_eq!(fs::read(top.join("out")).expect("a file"), sample(SHORTEST));
    let ran = shell(&top, "asset-builder shorten - -o - < bad > out");
    assert!(ran.err.starts_with("-: refused 6 at 5: "), "{}", ran.err);
    assert_eq!(ran.status, Some(1));
    assert_eq!(fs::read(top.join("out")).expect("a file"), b"");
}

#[test]
fn files_are_shortened_in_their_place() {
    let top = scratch("in-place");
    fs::create_dir(top.join("depot")).expect("a folder");
    let depot = top.join("depot");
    fs::write(depot.join("padded.xnb"), sample(PADDED)).expect("a file");
    fs::write(depot.join("bad.xnb"), sample("bad-06-flags.xnb")).expect("a file");
    fs::set_permissions(depot.join("padded.xnb"), fs::Permissions::from_mode(0o640))
        .expect("a mode");
    let ran = run_in(&top, &["shorten", "--in-place", "depot"], &[]);
    assert_eq!(ran.status, Some(1));
    assert_eq!(ran.out, "depot/padded.xnb: 66 bytes, now 65\n");
    assert_eq!(
        fs::read(depot.join("padded.xnb")).expect("a file"),
        sample(SHORTEST)
    );
    assert_eq!(
        fs::read(depot.join("bad.xnb")).expect("a file"),
        sample("bad-06-flags.xnb")
    );
    let mode = fs::metadata(depot.join("padded.xnb"))
        .expect("a file")
        .permissions()
        .mode();
    assert_eq!(mode & 0o777, 0o640);
    assert_eq!(names(&depot), ["bad.xnb", "padded.xnb"]);

    // By force the output may be the input.
    fs::write(depot.join("padded.xnb"), sample(PADDED)).expect("a file");
    let words = ["shorten", "padded.xnb", "-f", "-o", "./padded.xnb"];
    assert_eq!(run_in(&depot, &words, &[]).status, Some(0));
    assert_eq!(
        fs::read(depot.join("padded.xnb")).expect("a file"),
        sample(SHORTEST)
    );

    // A link stays a link.
    fs::write(top.join("kept"), sample(PADDED)).expect("a file");
    symlink("../kept", depot.join("link.xnb")).expect("a link");
    assert_eq!(
        run_in(&depot, &["shorten", "-i", "link.xnb"], &[]).status,
        Some(0)
    );
    assert!(depot.join("link.xnb").is_symlink());
    assert_eq!(
        fs::read(top.join("kept")).expect("a file"),
        sample(SHORTEST)
    );
    let ran = run_in(&top, &["shorten", "-i", "-"], &sample(PADDED));
    assert_eq!(
        (ran.err.as_str(), ran.status),
        ("-: standard input has no place\n", Some(2))
    );
}

#[test]
fn a_folder_takes_several_files() {
    let top = scratch("several");
    for name in ["in/one.xnb", "in/deep/two.xnb", "other/one.xnb", "out/old"] {
        let path = top.join(name);
        fs::create_dir_all(path.parent().expect("a folder")).expect("a folder");
        fs::write(path, sample(PADDED)).expect("a file");
    }
    let ran = run_in(&top, &["shorten", "in", "other/one.xnb", "-o", "out"], &[]);
    assert_eq!(
        ran.err,
        "other/one.xnb: another file was written to out/one.xnb\n"
    );
    assert_eq!(ran.status, Some(2));
    assert_eq!(
        fs::read(top.join("out/one.xnb")).expect("a file"),
        sample(SHORTEST)
    );
    assert_eq!(
        fs::read(top.join("out/deep/two.xnb")).expect("a file"),
        sample(SHORTEST)
    );
    for place in ["missing", "in/one.xnb", "-"] {
        let ran = run_in(&top, &["shorten", "in", "-o", place], &[]);
        let why = format!("{place}: not a folder, as several files need\n");
        assert_eq!((ran.err, ran.status), (why, Some(2)));
    }
    assert!(!top.join("missing").exists());
}

#[test]
fn what_cannot_be_written_is_reported_and_leaves_nothing() {
    let top = scratch("unwritten");
    fs::create_dir(top.join("out.xnb")).expect("a folder");
    let input = folder().join(PADDED);
    let input = input.to_str().expect("a plain path");
    fs::create_dir(top.join("out.xnb/ok-text-count-in-2-bytes.xnb")).expect("a folder");
    let ran = run_in(&top, &["shorten", input, "-o", "out.xnb"], &[]);
    assert_eq!((ran.status, ran.out.as_str()), (Some(2), ""));
    assert!(ran.err.starts_with("out.xnb/ok-text-count"), "{}", ran.err);
    assert_eq!(names(&top), ["out.xnb"]);
    assert_eq!(names(&top.join("out.xnb")), [PADDED]);

    let ran = run_in(&top, &["shorten", input, "-o", "no-such-folder/out"], &[]);
    assert_eq!((ran.status, ran.out.as_str()), (Some(2), ""));
    assert!(!top.join("no-such-folder").exists());

    // A device is written as it stands; one that is full is reported.
    assert_eq!(run(&["shorten", PADDED, "-o", "/dev/null"]).status, Some(0));
    let ran = run(&["shorten", PADDED, "-o", "/dev/full"]);
    assert_eq!(ran.status, Some(2));
    assert!(ran.err.starts_with("/dev/full: "), "{}", ran.err);
    for line in [
        "shorten - -o -",
        "rows -",
        "check -",
        "man",
        "completions bash",
        "--help",
    ] {
        let line = format!("asset-builder {line} < {input} > /dev/full");
        let ran = shell(&top, &line);
        assert!(
            ran.err.starts_with("standard output: "),
            "{line}: {}",
            ran.err
        );
        assert_eq!(ran.status, Some(2), "{line}");
    }
}

/// A list whose shortest form is longer than the limits below.
fn long_file() -> Vec<u8> {
    use corpus::readers::list_of;
    use corpus::values::{byte, file, list, object, padded};
    let elements = vec![byte(7); 60_000];
    let names = [list_of("System.Byte")];
    let primary = padded(5, object(1, list(elements)));
    corpus::writer::write(&file(&names, primary, vec![])).bytes
}

/// The system stops the writing at 8 KB: the old file stays whole.
#[test]
fn an_output_that_cannot_be_whole_is_not_placed() {
    let top = scratch("stopped");
    let long = long_file();
    fs::write(top.join("long.xnb"), &long).expect("a file");
    let command = "asset-builder shorten --in-place long.xnb";
    let ran = shell(&top, &format!("trap '' XFSZ; ulimit -f 8; {command}"));
    assert_eq!((ran.status, ran.out.as_str()), (Some(2), ""));
    assert!(
        ran.err.starts_with("long.xnb: File too large"),
        "{}",
        ran.err
    );
    assert_eq!(names(&top), ["long.xnb"]);
    assert!(fs::read(top.join("long.xnb")).expect("a file") == long);

    // The same where the system would end the command in the middle.
    let ran = shell(&top, &format!("ulimit -f 8; exec {command}"));
    assert_eq!((ran.status, ran.out.as_str()), (Some(2), ""));
    assert_eq!(names(&top), ["long.xnb"]);
    assert!(fs::read(top.join("long.xnb")).expect("a file") == long);
    let ran = shell(&top, command);
    assert_eq!(ran.status, Some(0), "{}", ran.err);
    let shortest = xnb::shorten(&long).expect("a lawful file");
    assert!(fs::read(top.join("long.xnb")).expect("a file") == shortest);
}
