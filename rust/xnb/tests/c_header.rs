//! The constants of the C header, the example in C, compiled as C and as C++, and what the archive needs.

use corpus::folder::{kept_files, root};
use std::fs;
use std::path::{Path, PathBuf};
use std::process::{Command, Stdio};
use xnb::{Kind, Refusal, Table};

fn header() -> String {
    fs::read_to_string(root().join("crates/builder/xnb.h")).expect("the header")
}

/// `TimeSpan` as C writes a constant: `TIME_SPAN`.
fn constant(prefix: &str, name: &str) -> String {
    let mut out = prefix.to_string();
    let mut before = ' ';
    for letter in name.chars() {
        if before.is_ascii_lowercase() && letter.is_ascii_uppercase() {
            out.push('_');
        }
        out.push(letter.to_ascii_uppercase());
        before = letter;
    }
    out
}

/// The lines of the header that name a constant with this prefix, its number and its words.
fn lines(prefix: &str) -> Vec<String> {
    let start = format!("X({prefix}");
    let header = header();
    let lines = header
        .lines()
        .map(|line| line.trim_end_matches('\\').trim());
    lines
        .filter(|line| line.starts_with(&start))
        .map(String::from)
        .collect()
}

fn line(prefix: &str, name: &str, number: u32, words: &str) -> String {
    format!("X({}, {number}, \"{words}\")", constant(prefix, name))
}

#[test]
fn kinds_and_refusals_of_the_header_are_those_of_the_library() {
    let prefix = "XNB_KIND_";
    let kinds = Kind::all().map(|it| line(prefix, it.name(), it.number(), it.words()));
    assert_eq!(lines(prefix), kinds.collect::<Vec<_>>());
    let prefix = "XNB_REFUSAL_";
    let refusals = Refusal::all().map(|it| line(prefix, it.name(), it.number(), it.rule()));
    assert_eq!(lines(prefix), refusals.collect::<Vec<_>>());
}

#[test]
fn limits_of_the_header_are_those_of_the_library() {
    let header = header();
    let defined = |name: &str| {
        let start = format!("#define {name} ");
        let line = header.lines().find_map(|line| line.strip_prefix(&start));
        line.unwrap_or_else(|| panic!("no {name}")).to_string()
    };
    let version = format!("{:?}", env!("CARGO_PKG_VERSION"));
    assert_eq!(defined("XNB_VERSION"), version);
    let numbers = env!("CARGO_PKG_VERSION").split('.');
    let numbers = numbers.map(|it| it.parse::<u32>().expect("a number"));
    let number = numbers.fold(0, |sum, it| 100 * sum + it);
    assert_eq!(defined("XNB_VERSION_NUMBER"), number.to_string());
    assert_eq!(xnb::raw::version(), number, "the library that is linked");
    let limits = [
        ("XNB_LONGEST_FILE", 1 << 24),
        ("XNB_WORDS_PER_ROW", xnb::WORDS_PER_ROW),
        ("XNB_MOST_ROWS", xnb::MOST_ROWS),
        ("XNB_WORDS_PER_PACK_FILE", xnb::pack::WORDS_PER_FILE),
        ("XNB_MOST_PACK_FILES", xnb::pack::MOST_FILES),
        ("XNB_LONGEST_PATH", 260),
        ("XNB_WORDS_PER_STRETCH", xnb::salvage::WORDS_PER_STRETCH),
        ("XNB_MOST_STRETCHES", xnb::salvage::MOST_STRETCHES),
        ("XNB_WORDS_PER_REPORT", xnb::report::REPORT_WORDS),
    ];
    for (name, limit) in limits {
        assert_eq!(defined(name), limit.to_string(), "{name}");
    }
}

/// Compiles the example with every warning an error.
fn compiled(name: &str, compiler: &[&str]) -> PathBuf {
    let program = Path::new(env!("CARGO_TARGET_TMPDIR")).join(name);
    let (compiler, options) = compiler.split_first().expect("a compiler");
    let built = Command::new(compiler)
        .args(options)
        .args(["-Wall", "-Wextra", "-Wpedantic", "-Werror", "-I"])
        .arg(root().join("crates/builder"))
        .arg(Path::new(env!("CARGO_MANIFEST_DIR")).join("examples/c/rows.c"))
        .args(["-x", "none"])
        .arg(root().join("target/staticlib/libbuilder.a"))
        .arg("-o")
        .arg(&program)
        .output()
        .expect("a compiler");
    let reported = String::from_utf8_lossy(&built.stderr);
    assert!(built.status.success(), "{reported}");
    program
}

/// What the example prints for a file.
fn expected(file: &[u8]) -> Vec<u8> {
    let table = match Table::load(file) {
        Ok(table) => table,
        Err(refused) => {
            let (number, rule) = (refused.refusal.number(), refused.refusal.rule());
            return format!("refused {number} at {}: {rule}\n", refused.place).into_bytes();
        }
    };
    let mut out = Vec::new();
    for row in table.rows() {
        let words = row.kind.words();
        out.extend(
            format!(
                "row {}, {} bytes at {}: {words}",
                row.number, row.length, row.first
            )
            .bytes(),
        );
        if let Ok(text) = table.text(row.number) {
            // C ends a text at its first zero.
            let text = text.split('\0').next().unwrap_or_default();
            out.extend(format!(" \"{text}\"").bytes());
        }
        out.push(b'\n');
    }
    out
}

#[test]
fn the_example_prints_rows_as_c_and_as_cpp() {
    let programs = [
        compiled("rows-c99", &["cc", "-std=c99"]),
        compiled("rows-cpp", &["c++", "-std=c++11", "-x", "c++"]),
    ];
    for file in kept_files().iter().step_by(9) {
        let given = Path::new(env!("CARGO_TARGET_TMPDIR")).join("rows-input");
        fs::write(&given, &file.bytes).expect("an input");
        for program in &programs {
            let input = fs::File::open(&given).expect("the input");
            let ran = Command::new(program)
                .stdin(input)
                .stderr(Stdio::inherit())
                .output();
            let ran = ran.expect("it starts");
            let printed = String::from_utf8_lossy(&ran.stdout);
            assert_eq!(
                printed,
                String::from_utf8_lossy(&expected(&file.bytes)),
                "{}",
                file.name
            );
        }
    }
}

/// What a tool of binutils prints of the archive.
fn printed_by(tool: &str, option: &str) -> String {
    let archive = root().join("target/staticlib/libbuilder.a");
    let output = Command::new(tool).arg(option).arg(archive).output();
    String::from_utf8(output.expect("binutils").stdout).expect("a text")
}

#[test]
fn the_archive_needs_memcpy_and_memset_and_has_no_data() {
    let undefined = printed_by("nm", "--undefined-only");
    let mut needed: Vec<&str> = undefined
        .lines()
        .filter_map(|it| it.trim().strip_prefix("U "))
        .collect();
    needed.sort_unstable();
    needed.dedup();
    assert_eq!(needed, ["memcpy", "memset"]);
    let sections = printed_by("objdump", "--section-headers");
    let sizes = sections.lines().filter_map(|line| {
        let mut fields = line.split_whitespace().skip(1);
        let (name, size) = (fields.next()?, fields.next()?);
        Some((name, u64::from_str_radix(size, 16).ok()?))
    });
    let mut code = 0;
    for (name, size) in sizes {
        let written = [".data", ".bss", ".tdata", ".tbss"]
            .iter()
            .any(|it| name.starts_with(it));
        // Constants that only the linker writes to are no data.
        let constant = name.starts_with(".data.rel.ro");
        assert!(!written || constant || size == 0, "{name} has {size} bytes");
        code += u64::from(name.starts_with(".text"));
    }
    assert!(code > 0, "no code is found: {sections}");
}
