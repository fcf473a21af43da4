//! Packs that are larger than the memory that the command may use, and packs that change while they are read.

mod common;

use common::{names, run_in, scratch, shell, Ran, COMMAND};
use corpus::readers::{array_of, STRING};
use corpus::values::{array, bound_object, file, object, text_bytes};
use corpus::writer::write;
use std::fs::{self, File, OpenOptions};
use std::io::{Seek, SeekFrom, Write};
use std::path::Path;
use std::process::{Command, Stdio};
use std::thread::sleep;
use std::time::{Duration, Instant};

/// More than the command holds in memory.
const LONG: u32 = 100 << 20;
/// The memory of its own that a run may have, in KB; mapped files are none.
const LIMIT: &str = "ulimit -d 60000; ";

/// Writes a pack with one file of this path and so many zeros, most of them holes.
fn pack_of_zeros(path: &Path, name: &str, length: u32, mark: &[u8]) {
    let mut file = File::create(path).expect("a file");
    file.write_all(&[1, 0, 0, 0]).expect("a count");
    file.write_all(mark).expect("a mark");
    file.write_all(&[name.len() as u8]).expect("a length");
    file.write_all(name.as_bytes()).expect("a path");
    file.write_all(&length.to_le_bytes()).expect("a size");
    let start = file.stream_position().expect("a place");
    file.set_len(start + u64::from(length)).expect("a length");
}

fn taken(ran: &Ran) {
    assert_eq!((ran.err.as_str(), ran.status), ("", Some(0)), "{ran:?}");
}

/// Whether two files have the same bytes.
fn same(one: &Path, other: &Path) -> bool {
    let compared = Command::new("cmp")
        .args(["-s", "--"])
        .args([one, other])
        .status();
    compared.expect("cmp starts").success()
}

#[test]
fn packs_of_any_size_take_little_memory() {
    let top = scratch("large");
    pack_of_zeros(&top.join("in.pak"), "a", LONG, b"");
    pack_of_zeros(&top.join("in.marked"), "a", LONG, b"\xFD\xFE");
    for (line, printed) in [
        ("pack list in.pak", " 104857600 a\n"),
        ("pack list - < in.pak", " 104857600 a\n"),
        ("pack find in.pak a -o data", ""),
        (
            "pack extract in.pak -o out",
            "in.pak: 1 of 1 files written to out\n",
        ),
        (
            "mark in.pak -o new.marked",
            "in.pak: 104857610 bytes, now 104857612\n",
        ),
        (
            "unmark in.marked -o new.pak",
            "in.marked: 104857612 bytes, now 104857610\n",
        ),
        ("unmark - -o - < in.marked | cat > piped.pak", ""),
        ("salvage in.marked --list", ""),
        (
            "salvage in.marked -o saved",
            "in.marked: kept 1 record, 104857608 bytes; skipped 0 stretches, 0 bytes\n",
        ),
    ] {
        let ran = shell(&top, &format!("{LIMIT}asset-builder {line}"));
        taken(&ran);
        assert_eq!(ran.out, printed, "{line}");
    }
    for (one, other) in [
        ("new.marked", "in.marked"),
        ("saved", "in.marked"),
        ("new.pak", "in.pak"),
        ("piped.pak", "in.pak"),
        ("data", "out/a"),
    ] {
        assert!(same(&top.join(one), &top.join(other)), "{one}");
    }
    assert_eq!(
        fs::metadata(top.join("data")).expect("a file").len(),
        u64::from(LONG)
    );
    // Where each file has a name, the same.
    let line = "asset-builder mark in.pak -f -o new.marked";
    let ran = shell(&top, &format!("{LIMIT}ASSET_BUILDER_NAMED_PARTS=1 {line}"));
    taken(&ran);
    assert!(same(&top.join("new.marked"), &top.join("in.marked")));
    assert!(names(&top).iter().all(|name| !name.ends_with(".part")));
    fs::remove_dir_all(top).expect("a folder");
}

/// A list of five GB is a matter of a moment: the data is not looked at.
#[test]
fn a_pack_of_five_gigabytes_is_listed_at_once() {
    let top = scratch("five");
    let mut file = File::create(top.join("in.pak")).expect("a file");
    file.write_all(&[2, 0, 0, 0]).expect("a count");
    for (name, length) in [(b'a', u32::MAX), (b'b', 1 << 30)] {
        file.write_all(&[1, name]).expect("a path");
        file.write_all(&length.to_le_bytes()).expect("a size");
        file.seek(SeekFrom::Current(i64::from(length)))
            .expect("a place");
    }
    let end = file.stream_position().expect("a place");
    file.set_len(end).expect("a length");
    let started = Instant::now();
    let ran = shell(&top, "ulimit -d 50000; asset-builder pack list in.pak");
    taken(&ran);
    assert_eq!(ran.out, "4294967295 a\n1073741824 b\n");
    // It took 37 s to read; a busy machine gets its time.
    assert!(
        started.elapsed() < Duration::from_secs(5),
        "{:?}",
        started.elapsed()
    );
}

/// The memory that is asked for is named, where the system refuses it.
#[test]
fn memory_that_is_refused_is_reported() {
    let top = scratch("refused-memory");
    pack_of_zeros(&top.join("in.marked"), "a", 14 << 20, b"\xFD\xFE");
    let limit = "ulimit -d 12000; ";
    for line in [
        "unmark in.marked -o out",
        "salvage in.marked -o out",
        "pack list - < in.marked",
    ] {
        let ran = shell(&top, &format!("{limit}asset-builder {line}"));
        assert_eq!(
            (ran.out.as_str(), ran.status),
            ("", Some(2)),
            "{line}: {ran:?}"
        );
        let words: Vec<&str> = ran.err.trim_end().split(": no memory for ").collect();
        let [_, asked] = words[..] else {
            panic!("{line}: {}", ran.err);
        };
        let asked: u64 = asked
            .strip_suffix(" bytes")
            .expect("bytes")
            .parse()
            .expect("a number");
        assert!(asked > 1 << 20, "{line}: {asked}");
        assert_eq!(ran.err.lines().count(), 1, "{line}: {}", ran.err);
    }
    assert_eq!(names(&top), ["in.marked"]);
}

/// The same of what is made of files and of XML: a list of one text of 12 MB.
#[test]
fn memory_that_is_refused_is_reported_of_files() {
    let top = scratch("refused-memory-file");
    let readers = [array_of("System.String"), STRING.to_string()];
    let long = bound_object(2, text_bytes(&vec![b'a'; 12 << 20]));
    let file = write(&file(&readers, object(1, array(vec![long])), vec![])).bytes;
    let asked = [file.len(), 2 * file.len()];
    fs::write(top.join("long.xnb"), file).expect("a file");
    let ran = shell(&top, "asset-builder export long.xnb -qo long.xml");
    taken(&ran);
    let xml = fs::metadata(top.join("long.xml")).expect("a file").len();
    let [shortened, exported] = asked;
    for (line, limit, asked) in [
        ("shorten long.xnb -o out", 20_000, shortened),
        ("export long.xnb -o out", 34_000, exported),
        ("import long.xml -o out", 12_000, xml as usize + 39),
    ] {
        let ran = shell(&top, &format!("ulimit -d {limit}; asset-builder {line}"));
        let input = line.split(' ').nth(1).expect("an input");
        let why = format!("{input}: no memory for {asked} bytes\n");
        let reported = (ran.out.as_str(), ran.err.as_str(), ran.status);
        assert_eq!(reported, ("", &why[..], Some(2)), "{line}");
        assert_eq!(names(&top), ["long.xml", "long.xnb"]);
    }
}

/// Another program cuts the pack while it is read: one line says so, the status is 2, and nothing is written.
#[test]
fn a_pack_that_is_cut_while_it_is_read_is_reported() {
    let top = scratch("cut");
    for words in [
        &["salvage", "in.marked", "-o", "out"][..],
        &["salvage", "in.marked", "--list"],
    ] {
        // A pack of marks alone: a long search.
        let mut file = File::create(top.join("in.marked")).expect("a file");
        file.write_all(&[1, 0, 0, 0]).expect("a count");
        let noise = vec![0xFD; 1 << 22];
        for _ in 0..40 {
            file.write_all(&noise).expect("noise");
        }
        let mut child = Command::new(COMMAND)
            .args(words)
            .current_dir(&top)
            .stdin(Stdio::null())
            .stdout(Stdio::piped())
            .stderr(Stdio::piped())
            .spawn()
            .expect("the command starts");
        let maps = format!("/proc/{}/maps", child.id());
        let started = Instant::now();
        while !fs::read_to_string(&maps)
            .unwrap_or_default()
            .contains("in.marked")
        {
            assert!(
                started.elapsed() < Duration::from_secs(60),
                "it is never mapped"
            );
            assert!(
                child.try_wait().expect("a child").is_none(),
                "it was too quick"
            );
            sleep(Duration::from_millis(1));
        }
        let cut = OpenOptions::new().write(true).open(top.join("in.marked"));
        cut.expect("the pack").set_len(1 << 12).expect("a cut");
        let ran = Ran::of(child.wait_with_output().expect("a child"));
        let why = "in.marked: it was cut while it was read, so nothing is written\n";
        assert_eq!(
            (ran.out.as_str(), ran.err.as_str(), ran.status),
            ("", why, Some(2))
        );
        assert_eq!(names(&top), ["in.marked"]);
    }
}

/// Another program changes the pack while it is read: that is seen at the end, and nothing is written.
#[test]
fn a_pack_that_is_changed_while_it_is_read_is_reported() {
    let top = scratch("changed");
    let mut file = File::create(top.join("in.marked")).expect("a file");
    file.write_all(&[1, 0, 0, 0]).expect("a count");
    let noise = vec![0xFD; 1 << 22];
    for _ in 0..40 {
        file.write_all(&noise).expect("noise");
    }
    file.write_all(b"\xFD\xFE\x01a\x01\0\0\0a")
        .expect("a record");
    let mut child = Command::new(COMMAND)
        .args(["salvage", "in.marked", "-o", "out"])
        .current_dir(&top)
        .stdin(Stdio::null())
        .stdout(Stdio::piped())
        .stderr(Stdio::piped())
        .spawn()
        .expect("the command starts");
    let maps = format!("/proc/{}/maps", child.id());
    let started = Instant::now();
    while !fs::read_to_string(&maps)
        .unwrap_or_default()
        .contains("in.marked")
    {
        assert!(
            started.elapsed() < Duration::from_secs(60),
            "it is never mapped"
        );
        assert!(
            child.try_wait().expect("a child").is_none(),
            "it was too quick"
        );
        sleep(Duration::from_millis(1));
    }
    file.seek(SeekFrom::Start(9)).expect("a place");
    file.write_all(b"changed").expect("a change");
    let ran = Ran::of(child.wait_with_output().expect("a child"));
    let why = "in.marked: it was changed while it was read, so nothing is written\n";
    assert_eq!(
        (ran.out.as_str(), ran.err.as_str(), ran.status),
        ("", why, Some(2))
    );
    assert_eq!(names(&top), ["in.marked"]);
    // At rest the same pack is salvaged.
    let ran = run_in(&top, &["salvage", "in.marked", "-o", "out"], &[]);
    assert_eq!(ran.status, Some(0), "{}", ran.err);
}
