//! The proved programs `rows` and `shorten` against what the second loader prints, and `sevens` on typed inputs.
//!
//! A refusal of `rows` goes to standard output, one of `shorten` to standard error.

use corpus::folder::{folder, kept_files, root, shortest};
use second::{printed_rows, shortened, LONGEST_INPUT, NO_ENUMS, WORDS_PER_ROW};
use std::fs::File;
use std::io::{ErrorKind, Write};
use std::path::PathBuf;
use std::process::{Command, Stdio};

const GENERATED_FILES: u64 = 500;

/// Where `rt run` and `rt ci` leave a program.
fn built(program: &str) -> PathBuf {
    let of_crate = root().join("crates").join(program);
    of_crate.join("out").join(program)
}

/// What a program writes to standard output and standard error for an input.
fn run(program: &str, input: &[u8]) -> (Vec<u8>, Vec<u8>) {
    let mut child = Command::new(built(program))
        .stdin(Stdio::piped())
        .stdout(Stdio::piped())
        .stderr(Stdio::piped())
        .spawn()
        .expect("a proved program starts; `rt run` in its folder, or .ci/run, builds it");
    let mut stdin = child.stdin.take().expect("it has an input");
    let output = std::thread::scope(|scope| {
        // A program that has read enough may end before it has taken all.
        scope.spawn(move || match stdin.write_all(input) {
            Err(error) if error.kind() != ErrorKind::BrokenPipe => panic!("{error}"),
            _ => {}
        });
        child.wait_with_output().expect("it ends")
    });
    assert!(output.status.code().is_some(), "{}", output.status);
    (output.stdout, output.stderr)
}

fn rows(input: &[u8]) -> String {
    let (out, err) = run("rows", input);
    assert_eq!(err, b"");
    String::from_utf8(out).expect("rows prints text")
}

/// Whether `shorten` writes the file to standard output, or the refusal to standard error alone.
fn shortens_to(input: &[u8], expected: Vec<u8>) -> bool {
    let streams = if expected.starts_with(b"refused ") {
        (vec![], expected)
    } else {
        (expected, vec![])
    };
    run("shorten", input) == streams
}

/// Compares both programs with the second loader.
fn compare(name: &str, input: &[u8]) {
    assert_eq!(rows(input), printed_rows(input), "{name}");
    assert!(shortens_to(input, shortened(input)), "{name}: shorten");
}

#[test]
fn corpus_files_give_their_rows_and_shortest_forms() {
    let files = kept_files();
    for file in &files {
        assert_eq!(rows(&file.bytes), file.rows, "{}", file.name);
        let expected = shortest(file, &files);
        assert!(shortens_to(&file.bytes, expected), "{}", file.name);
        compare(&file.name, &file.bytes);
    }
    println!("{} files", files.len());
}

#[test]
fn generated_files_give_what_the_second_loader_gives() {
    let mut count = 0;
    for seed in 0..GENERATED_FILES {
        let input = fuzz::case(seed).bytes;
        if input.len() <= LONGEST_INPUT {
            compare(&format!("seed {seed}"), &input);
            count += 1;
        }
    }
    println!("{count} files");
    assert!(count >= 300, "only {count} files");
}

#[test]
fn limits_give_what_the_second_loader_gives() {
    let mut count = 0;
    for limit in fuzz::limits::cases() {
        let input = limit.case.bytes;
        if input.len() <= LONGEST_INPUT {
            compare(&limit.name, &input);
            count += 1;
        }
    }
    println!("{count} files");
    assert!(count > 500, "only {count} limits");
}

#[test]
fn an_input_is_refused_past_its_longest() {
    let mut input = fuzz::case(0).bytes;
    input.resize(LONGEST_INPUT, 0);
    assert_ne!(rows(&input), "refused 9 at 0\n");
    compare("the longest input", &input);
    // The last is longer than a pipe holds.
    for length in [LONGEST_INPUT + 1, 200_000] {
        input.resize(length, 0);
        assert_eq!(rows(&input), "refused 9 at 0\n", "{length} bytes");
        let refused = (vec![], b"refused 9 at 0\n".to_vec());
        assert_eq!(run("shorten", &input), refused, "{length} bytes");
    }
}

/// A file of the corpus folder.
fn stored(name: &str) -> Vec<u8> {
    std::fs::read(folder().join(format!("{name}.xnb"))).expect(name)
}

/// Stored files that each program takes: the file, its bytes, and what `rows` prints first and last.
const WITHIN_LIMITS: [(&str, usize, &str, &str); 2] = [
    (
        "ok-32768-bytes",
        32_768,
        "rows 1 readers 1 shared 0\n",
        "\n0 13 61 32707 0 0 1 1\n",
    ),
    (
        "ok-1024-rows",
        1_104,
        "rows 1024 readers 1 shared 0\n",
        "\n1023 1 1103 1 0 1 0 1\n",
    ),
];

/// Stored files that each program refuses, because of its own limit alone: the file, its bytes and the refusal.
const PAST_LIMITS: [(&str, usize, &str); 2] = [
    ("bad-09-input-of-32769-bytes", 32_769, "refused 9 at 0\n"),
    ("bad-19-1025-rows", 1_105, "refused 19 at 1104\n"),
];

#[test]
fn stored_files_at_and_past_the_limits_of_both_programs() {
    for (name, length, first, last) in WITHIN_LIMITS {
        let input = stored(name);
        assert_eq!(input.len(), length, "{name}");
        let printed = rows(&input);
        assert!(printed.starts_with(first), "{name}");
        assert!(printed.ends_with(last), "{name}");
        assert!(
            run("shorten", &input) == (input.clone(), vec![]),
            "{name}: shorten"
        );
    }
    for (name, length, refusal) in PAST_LIMITS {
        let input = stored(name);
        assert_eq!(input.len(), length, "{name}");
        assert_eq!(rows(&input), refusal, "{name}");
        let refused = (vec![], refusal.as_bytes().to_vec());
        assert_eq!(run("shorten", &input), refused, "{name}");
        let mut words = vec![0; WORDS_PER_ROW * 1025];
        let answer = second::load(&input, NO_ENUMS, &mut words);
        assert!(answer.is_ok(), "{name} is lawful");
    }
}

#[test]
fn the_empty_input_is_refused() {
    assert_eq!(rows(&[]), "refused 1 at 0\n");
}

#[test]
fn an_output_that_cannot_be_written_is_reported() {
    let sample = root().join("corpus/kinds/ok-kind-13-string.xnb");
    for program in ["rows", "shorten"] {
        let full = File::options().write(true).open("/dev/full");
        let output = Command::new(built(program))
            .stdin(File::open(&sample).expect("a sample"))
            .stdout(full.expect("a device that is full"))
            .stderr(Stdio::piped())
            .output()
            .expect("a proved program starts");
        let reported = b"standard output could not be written\n";
        assert_eq!(output.stderr, reported, "{program}");
    }
}

/// Numbers that end, are cut or are broken at the input's end: the input, and what `sevens` prints for it.
const SEVENS: [(&[u8], &str); 12] = [
    (
        b"",
        "number at 0\nstep 1: no byte, value 0, refused 1 at 0\n",
    ),
    (
        b"\x7F",
        "number at 0\n\
         step 1: byte 7f, value 127, ends, padding 0\n\
         number at 1\n\
         step 1: no byte, value 0, refused 1 at 1\n",
    ),
    (
        b"\xFF\x7F",
        "number at 0\n\
         step 1: byte ff, value 127, hands on\n\
         step 2: byte 7f, value 16383, ends, padding 0\n\
         number at 2\n\
         step 1: no byte, value 0, refused 1 at 2\n",
    ),
    (
        b"\xFF\xFF\x7F",
        "number at 0\n\
         step 1: byte ff, value 127, hands on\n\
         step 2: byte ff, value 16383, hands on\n\
         step 3: byte 7f, value 2097151, ends, padding 0\n\
         number at 3\n\
         step 1: no byte, value 0, refused 1 at 3\n",
    ),
    (
        b"\xFF\xFF\xFF\x7F",
        "number at 0\n\
         step 1: byte ff, value 127, hands on\n\
         step 2: byte ff, value 16383, hands on\n\
         step 3: byte ff, value 2097151, hands on\n\
         step 4: byte 7f, value 268435455, ends, padding 0\n\
         number at 4\n\
         step 1: no byte, value 0, refused 1 at 4\n",
    ),
    (
        b"\xFF\xFF\xFF\xFF\x0F",
        "number at 0\n\
         step 1: byte ff, value 127, hands on\n\
         step 2: byte ff, value 16383, hands on\n\
         step 3: byte ff, value 2097151, hands on\n\
         step 4: byte ff, value 268435455, hands on\n\
         step 5: byte 0f, value 4294967295, ends, padding 0\n\
         number at 5\n\
         step 1: no byte, value 0, refused 1 at 5\n",
    ),
    (
        b"\x80\x80\x80\x80\x00",
        "number at 0\n\
         step 1: byte 80, value 0, hands on\n\
         step 2: byte 80, value 0, hands on\n\
         step 3: byte 80, value 0, hands on\n\
         step 4: byte 80, value 0, hands on\n\
         step 5: byte 00, value 0, ends, padding 4\n\
         number at 5\n\
         step 1: no byte, value 0, refused 1 at 5\n",
    ),
    (
        b"\x80\x80\x80\x80\x10",
        "number at 0\n\
         step 1: byte 80, value 0, hands on\n\
         step 2: byte 80, value 0, hands on\n\
         step 3: byte 80, value 0, hands on\n\
         step 4: byte 80, value 0, hands on\n\
         step 5: byte 10, value 0, refused 8 at 0\n\
         number at 1\n\
         step 1: byte 80, value 0, hands on\n\
         step 2: byte 80, value 0, hands on\n\
         step 3: byte 80, value 0, hands on\n\
         step 4: byte 10, value 33554432, ends, padding 0\n\
         number at 5\n\
         step 1: no byte, value 0, refused 1 at 5\n",
    ),
    (
        b"\x81",
        "number at 0\n\
         step 1: byte 81, value 1, hands on\n\
         step 2: no byte, value 1, refused 1 at 0\n\
         number at 1\n\
         step 1: no byte, value 0, refused 1 at 1\n",
    ),
    (
        b"\x81\x80",
        "number at 0\n\
         step 1: byte 81, value 1, hands on\n\
         step 2: byte 80, value 1, hands on\n\
         step 3: no byte, value 1, refused 1 at 0\n\
         number at 1\n\
         step 1: byte 80, value 0, hands on\n\
         step 2: no byte, value 0, refused 1 at 1\n\
         number at 2\n\
         step 1: no byte, value 0, refused 1 at 2\n",
    ),
    (
        b"\x00\x81\x80\x80",
        "number at 0\n\
         step 1: byte 00, value 0, ends, padding 0\n\
         number at 1\n\
         step 1: byte 81, value 1, hands on\n\
         step 2: byte 80, value 1, hands on\n\
         step 3: byte 80, value 1, hands on\n\
         step 4: no byte, value 1, refused 1 at 1\n\
         number at 2\n\
         step 1: byte 80, value 0, hands on\n\
         step 2: byte 80, value 0, hands on\n\
         step 3: no byte, value 0, refused 1 at 2\n\
         number at 3\n\
         step 1: byte 80, value 0, hands on\n\
         step 2: no byte, value 0, refused 1 at 3\n\
         number at 4\n\
         step 1: no byte, value 0, refused 1 at 4\n",
    ),
    (
        b"\x82\x80\x80\x80",
        "number at 0\n\
         step 1: byte 82, value 2, hands on\n\
         step 2: byte 80, value 2, hands on\n\
         step 3: byte 80, value 2, hands on\n\
         step 4: byte 80, value 2, hands on\n\
         step 5: no byte, value 2, refused 1 at 0\n\
         number at 1\n\
         step 1: byte 80, value 0, hands on\n\
         step 2: byte 80, value 0, hands on\n\
         step 3: byte 80, value 0, hands on\n\
         step 4: no byte, value 0, refused 1 at 1\n\
         number at 2\n\
         step 1: byte 80, value 0, hands on\n\
         step 2: byte 80, value 0, hands on\n\
         step 3: no byte, value 0, refused 1 at 2\n\
         number at 3\n\
         step 1: byte 80, value 0, hands on\n\
         step 2: no byte, value 0, refused 1 at 3\n\
         number at 4\n\
         step 1: no byte, value 0, refused 1 at 4\n",
    ),
];

#[test]
fn numbers_that_end_where_the_input_ends() {
    for (input, printed) in SEVENS {
        let (out, err) = run("sevens", input);
        assert_eq!(String::from_utf8_lossy(&out), printed, "{input:02X?}");
        assert_eq!(err, b"", "{input:02X?}");
    }
}

/// The bytes that `sevens` has room for.
const SEVENS_ROOM: usize = 65_536;

/// The last lines for numbers that end with the last byte that `sevens` has room for: the number's bytes and the lines.
const AT_THE_ROOMS_END: [(&[u8], &str); 4] = [
    (
        b"\x7F",
        "number at 65535\n\
         step 1: byte 7f, value 127, ends, padding 0\n\
         number at 65536\n\
         step 1: no byte, value 0, refused 1 at 65536\n",
    ),
    (
        b"\xFF\xFF\xFF\xFF\x0F",
        "number at 65531\n\
         step 1: byte ff, value 127, hands on\n\
         step 2: byte ff, value 16383, hands on\n\
         step 3: byte ff, value 2097151, hands on\n\
         step 4: byte ff, value 268435455, hands on\n\
         step 5: byte 0f, value 4294967295, ends, padding 0\n\
         number at 65536\n\
         step 1: no byte, value 0, refused 1 at 65536\n",
    ),
    (
        b"\x80\x80\x80\x80\x10",
        "number at 65531\n\
         step 1: byte 80, value 0, hands on\n\
         step 2: byte 80, value 0, hands on\n\
         step 3: byte 80, value 0, hands on\n\
         step 4: byte 80, value 0, hands on\n\
         step 5: byte 10, value 0, refused 8 at 65531\n\
         number at 65532\n\
         step 1: byte 80, value 0, hands on\n\
         step 2: byte 80, value 0, hands on\n\
         step 3: byte 80, value 0, hands on\n\
         step 4: byte 10, value 33554432, ends, padding 0\n\
         number at 65536\n\
         step 1: no byte, value 0, refused 1 at 65536\n",
    ),
    (
        b"\x81\x80",
        "number at 65534\n\
         step 1: byte 81, value 1, hands on\n\
         step 2: byte 80, value 1, hands on\n\
         step 3: no byte, value 1, refused 1 at 65534\n\
         number at 65535\n\
         step 1: byte 80, value 0, hands on\n\
         step 2: no byte, value 0, refused 1 at 65535\n\
         number at 65536\n\
         step 1: no byte, value 0, refused 1 at 65536\n",
    ),
];

#[test]
fn numbers_that_end_where_the_room_of_sevens_ends() {
    for (number, last) in AT_THE_ROOMS_END {
        let mut input = vec![0; SEVENS_ROOM - number.len()];
        input.extend_from_slice(number);
        let (out, err) = run("sevens", &input);
        assert!(out.ends_with(last.as_bytes()), "{number:02X?}");
        assert_eq!(err, b"", "{number:02X?}");
    }
}
