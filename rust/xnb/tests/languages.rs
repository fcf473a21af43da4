//! The faces in Python and C#, over a shared library that is linked as `make` links it.

use corpus::folder::{folder, kept_files, root};
use std::fs;
use std::path::{Path, PathBuf};
use std::process::Command;
use xnb::{Kind, Refusal, Table};

/// A folder with the shared library under the names that an installation gives it.
fn library(name: &str) -> PathBuf {
    let folder = Path::new(env!("CARGO_TARGET_TMPDIR")).join(name);
    let _ = fs::remove_dir_all(&folder);
    fs::create_dir_all(&folder).expect("a folder");
    let shared = folder.join("libxnb.so.0");
    let linked = Command::new("cc")
        .args([
            "-shared",
            "-Wl,-soname,libxnb.so.0",
            "-Wl,-z,defs",
            "-Wl,--whole-archive",
        ])
        .arg(root().join("target/staticlib/libbuilder.a"))
        .args(["-Wl,--no-whole-archive", "-o"])
        .arg(&shared)
        .status();
    assert!(linked.expect("cc starts").success());
    fs::copy(&shared, folder.join("libxnb.so")).expect("a copy");
    folder
}

/// What the examples print for a file, with names of kinds and refusals as the language writes them.
fn expected(file: &[u8], name: fn(&str) -> String) -> String {
    let table = match Table::load(file) {
        Ok(table) => table,
        Err(refused) => {
            let (number, refusal) = (refused.refusal.number(), name(refused.refusal.name()));
            return format!("refused {number} at {}: {refusal}\n", refused.place);
        }
    };
    let mut out = String::new();
    for row in table.rows() {
        let (number, length, first, kind) =
            (row.number, row.length, row.first, name(row.kind.name()));
        out += &format!("row {number}, {length} bytes at {first}: {kind}");
        if let Ok(text) = table.text(row.number) {
            out += &format!(" \"{text}\"");
        }
        out += "\n";
    }
    out
}

/// `TimeSpan` as Python writes a constant: `TIME_SPAN`.
fn in_capitals(name: &str) -> String {
    let mut out = String::new();
    let mut before = ' ';
    for letter in name.chars() {
        if before.is_ascii_lowercase() && letter.is_ascii_uppercase() {
            out.push('_');
        }
        out.push(letter.to_ascii_uppercase());
        before = letter;
    }
    out
}

/// Runs a program over kept files; what it prints must be what the library says.
fn check(mut program: Command, name: fn(&str) -> String) {
    let files: Vec<_> = kept_files().into_iter().step_by(7).collect();
    let paths = files.iter().map(|file| format!("{}.xnb", file.name));
    let output = program.args(paths).current_dir(folder()).output();
    let output = output.expect("the program starts");
    let error = String::from_utf8_lossy(&output.stderr);
    let printed = String::from_utf8(output.stdout).expect("UTF-8");
    let expected: String = files.iter().map(|it| expected(&it.bytes, name)).collect();
    assert!(printed == expected, "{error}\n{printed}");
    // Some files are refused.
    assert_eq!(output.status.code(), Some(1), "{error}");
}

/// The names and numbers of an enum in a source, one to a line.
fn constants(source: &str, start: &str) -> Vec<(String, u32)> {
    let (_, body) = source.split_once(start).expect(start);
    let lines = body.lines().map(|it| it.trim().trim_end_matches(','));
    let pairs = lines.map(|it| it.split_once(" = "));
    let is_pair = |it: &Option<(&str, &str)>| it.is_some();
    let pairs = pairs.skip_while(|it| !is_pair(it)).map_while(|it| it);
    pairs
        .map(|(name, number)| (name.to_string(), number.parse().expect("a number")))
        .collect()
}

fn check_constants(path: &str, starts: [&str; 2], name: fn(&str) -> String) {
    let source = fs::read_to_string(root().join(path)).expect(path);
    let kinds: Vec<_> = Kind::all()
        .map(|it| (name(it.name()), it.number()))
        .collect();
    assert_eq!(constants(&source, starts[0]), kinds, "{path}");
    let refusals: Vec<_> = Refusal::all()
        .map(|it| (name(it.name()), it.number()))
        .collect();
    assert_eq!(constants(&source, starts[1]), refusals, "{path}");
}

#[test]
fn kinds_and_refusals_have_the_numbers_of_the_library() {
    let starts = ["class Kind(IntEnum):", "class Refusal(IntEnum):"];
    check_constants("python/xnb.py", starts, in_capitals);
    let starts = ["enum Kind : uint", "enum Refusal : uint"];
    check_constants("csharp/Xnb.cs", starts, str::to_string);
}

#[test]
fn python_prints_the_rows_of_files() {
    let library = library("python");
    let mut python = Command::new("python3");
    python
        .arg("-B")
        .arg(
            root()
                .join("python/show.py")
                .canonicalize()
                .expect("a file"),
        )
        .env("XNB_LIBRARY", library.join("libxnb.so.0"))
        .env("PYTHONIOENCODING", "utf-8");
    check(python, in_capitals);
}

/// The other functions of the module.
#[test]
fn python_reads_packs_and_rewrites() {
    let library = library("python-more");
    let script = "import sys, xnb\n\
        assert xnb.version() == 100\n\
        padded, short, pack, whole = [open(it, 'rb').read() for it in sys.argv[1:]]\n\
        assert xnb.rewrite(padded) == short\n\
        assert xnb.load(padded).padding == len(padded) - len(short)\n\
        files = xnb.read_pack(pack)\n\
        print(list(files), [len(it) for it in files.values()])\n\
        table = xnb.load(whole)\n\
        print(table.signed(0), table.part(0).hex())\n\
        try:\n    table.text(0)\nexcept xnb.Refused as refused:\n    print(refused)\n\
        try:\n    xnb.read_pack(b'')\nexcept xnb.Refused as refused:\n    print(refused)\n";
    let output = Command::new("python3")
        .args(["-B", "-c", script])
        .args(["ok-text-count-in-2-bytes.xnb", "ok-kind-13-string.xnb"])
        .args(["ok-pack-mixed-case.pak", "ok-kind-05-int32.xnb"])
        .current_dir(folder())
        .env(
            "PYTHONPATH",
            root().join("python").canonicalize().expect("a folder"),
        )
        .env("XNB_LIBRARY", library.join("libxnb.so.0"))
        .output()
        .expect("Python starts");
    let error = String::from_utf8_lossy(&output.stderr);
    assert!(output.status.success(), "{error}");
    let file = fs::read(folder().join("ok-kind-05-int32.xnb")).expect("a file");
    let table = Table::load(&file).expect("a lawful file");
    let part: String = table
        .part(0)
        .expect("a row")
        .iter()
        .map(|byte| format!("{byte:02x}"))
        .collect();
    let signed = table.signed(0).expect("a number");
    let expected = format!(
        "['Fonts\\\\Door', 'fonts\\\\door', 'FONTS\\\\DOORS'] [3, 3, 5]\n{signed} {part}\n\
        OTHER_KIND, refusal 24 at 0\nPAST_END, refusal 1 at 0\n"
    );
    assert_eq!(String::from_utf8_lossy(&output.stdout), expected);
}

/// Apart from the other tests, since it needs Debian's mono-mcs and mono-runtime.
#[test]
#[ignore = "needs mono"]
fn csharp_prints_the_rows_of_files() {
    let library = library("csharp");
    let program = library.join("show.exe");
    let compiled = Command::new("mcs")
        .arg("-warnaserror")
        .arg(format!("-out:{}", program.display()))
        .args([root().join("csharp/Show.cs"), root().join("csharp/Xnb.cs")])
        .output()
        .expect("mcs starts");
    let error = String::from_utf8_lossy(&compiled.stderr);
    assert!(compiled.status.success(), "{error}");
    let mut mono = Command::new("mono");
    mono.arg(program).env("LD_LIBRARY_PATH", &library);
    check(mono, str::to_string);
}
