//! Every sample of the corpus through the second loader.

use std::process::{Command, Output, Stdio};

const PROGRAM: &str = env!("CARGO_BIN_EXE_second");

/// Runs the program with bytes on its standard input.
fn run(task: &str, input: &[u8]) -> Output {
    use std::io::Write;
    let mut child = Command::new(PROGRAM)
        .arg(task)
        .stdin(Stdio::piped())
        .stdout(Stdio::piped())
        .spawn()
        .expect("the program starts");
    let mut stdin = child.stdin.take().expect("it has an input");
    stdin.write_all(input).expect("it takes its input");
    drop(stdin);
    child.wait_with_output().expect("it ends")
}

fn rows(input: &[u8]) -> String {
    String::from_utf8(run("rows", input).stdout).expect("rows prints text")
}

#[test]
fn kept_files_give_their_rows() {
    for file in corpus::folder::kept_files() {
        assert_eq!(rows(&file.bytes), file.rows, "{}", file.name);
    }
}

#[test]
fn all_samples_give_their_rows() {
    for sample in corpus::samples() {
        assert_eq!(rows(&sample.bytes), sample.rows, "{}", sample.name);
    }
}

#[test]
fn kept_files_are_shortened() {
    let files = corpus::folder::kept_files();
    for file in &files {
        let expected = corpus::folder::shortest(file, &files);
        assert!(
            run("shorten", &file.bytes).stdout == expected,
            "{}",
            file.name
        );
    }
    assert_eq!(run("shorten", b"XNB").stdout, b"refused 1 at 0\n");
}
