//! What is said of all crates: which Rust they need, their licence, and the versions of Debian's packages.

use corpus::folder::root;
use serde_json::Value as Json;
use std::fs;
use std::os::unix::fs::{symlink, PermissionsExt};
use std::path::{Path, PathBuf};
use std::process::{Command, Output};

const RUST: &str = env!("CARGO_PKG_RUST_VERSION");
const LICENSE: &str = "MIT OR Apache-2.0";
const DEBIAN: &str = "/usr/share/cargo/registry";

fn read(path: &str) -> String {
    fs::read_to_string(root().join(path)).expect(path)
}

/// The crates of the workspace, as its manifest lists them.
fn members() -> Vec<String> {
    let manifest = read("rust/Cargo.toml");
    let line = manifest.lines().find(|it| it.starts_with("members"));
    let names = line.expect("members").split('"').skip(1).step_by(2);
    names.map(str::to_string).collect()
}

#[test]
fn every_crate_says_which_rust_it_needs_and_its_licence() {
    let members = members();
    assert!(members.len() >= 7, "{members:?}");
    for member in members {
        let manifest = read(&format!("rust/{member}/Cargo.toml"));
        let package = manifest.split("\n\n").next().expect("a package");
        for line in [
            format!("rust-version = \"{RUST}\""),
            format!("license = \"{LICENSE}\""),
        ] {
            assert!(package.lines().any(|it| it == line), "{member}: {line}");
        }
    }
    assert!(read("LICENSE-MIT").starts_with("MIT License\n"));
    assert!(read("LICENSE-APACHE").contains("Apache License\n"));
    for page in ["README.md", "docs/RUST.md"] {
        assert!(read(page).contains(&format!("{RUST} or newer")), "{page}");
    }
}

/// Each line of the sources of a crate with its file, without comments and without what is only for tests.
fn source_lines(member: &str) -> Vec<(String, String)> {
    let top = root().join("rust").join(member).join("src");
    let mut folders = vec![top.clone()];
    let mut lines = Vec::new();
    while let Some(folder) = folders.pop() {
        for entry in fs::read_dir(folder).expect("a folder") {
            let path = entry.expect("an entry").path();
            if path.is_dir() {
                folders.push(path);
                continue;
            }
            let name = path.strip_prefix(&top).expect("a source").display();
            let Ok(text) = fs::read_to_string(&path) else {
                continue;
            };
            let text = text.split("#[cfg(test)]\nmod tests").next();
            let code = text.expect("a text").lines().map(str::trim);
            let code = code.filter(|it| !it.starts_with("//"));
            lines.extend(code.map(|it| (name.to_string(), it.to_string())));
        }
    }
    lines
}

/// Only the module of the C entries and that of mapped files have unsafe code; the compiler denies it to the others.
#[test]
fn unsafe_code_is_in_two_modules_alone() {
    for (member, start, own) in [
        ("xnb", "lib.rs", &["raw.rs", "raw/"][..]),
        ("asset-builder", "main.rs", &["system.rs"]),
    ] {
        let lines = source_lines(member);
        let denied = (start.to_string(), "#![deny(unsafe_code)]".to_string());
        assert!(lines.contains(&denied), "{member}");
        let allowed = lines
            .iter()
            .filter(|it| it.1.contains("allow(unsafe_code)"));
        assert_eq!(allowed.count(), 1, "{member}");
        let is_own = |file: &str| own.iter().any(|it| file.starts_with(it));
        let others = lines.iter().filter(|it| !is_own(&it.0));
        let code = others.filter(|it| !it.1.starts_with('#'));
        let found: Vec<_> = code.filter(|it| it.1.contains("unsafe")).collect();
        assert!(found.is_empty(), "{member}: {found:?}");
    }
}

/// In the library, memory whose length an input decides is asked for in `memory.rs`, which answers a refusal of the
/// system's as an error. The other vectors of zeros have room for as many rows as a file has bytes, at most 65,536, and
/// for the files and rows of any pack.
#[test]
fn memory_that_an_input_decides_is_asked_for_in_one_place() {
    let asks = |line: &str| {
        let ways = ["vec![0", "with_capacity(", ".resize(", "reserve"];
        ways.iter().any(|it| line.contains(it))
    };
    let lines = source_lines("xnb").into_iter();
    let mut elsewhere: Vec<_> = lines
        .filter(|(file, line)| file != "memory.rs" && asks(line))
        .collect();
    elsewhere.sort();
    let expected = [
        (
            "loader.rs",
            "let grid = self.load_into(file, vec![0; full_room(file)])?;",
        ),
        (
            "loader.rs",
            "let table = self.load_driver_into(file, vec![0; full_room(file)])?;",
        ),
        ("report.rs", "table: vec![0; WORDS_PER_FILE * MOST_FILES],"),
        ("report.rs", "words: vec![0; ROW_WORDS],"),
    ];
    let expected = expected.map(|(file, line)| (file.to_string(), line.to_string()));
    assert_eq!(elsewhere, expected);
}

/// A copy of the Rust sources in a folder of its own, with packages from a folder.
struct Copy {
    folder: PathBuf,
}

impl Copy {
    fn new(name: &str, packages: &Path) -> Copy {
        let folder = std::env::temp_dir().join(format!("xnb-{name}-{}", std::process::id()));
        let _ = fs::remove_dir_all(&folder);
        fs::create_dir_all(folder.join(".cargo")).expect("a folder");
        let manifest = root().join("rust/Cargo.toml");
        fs::copy(manifest, folder.join("Cargo.toml")).expect("a manifest");
        for member in members() {
            let copied = Command::new("cp")
                .arg("-r")
                .arg(root().join("rust").join(&member))
                .arg(&folder)
                .status();
            assert!(copied.expect("cp").success(), "{member}");
        }
        let copy = Copy { folder };
        copy.take_packages_from(packages);
        copy
    }

    fn take_packages_from(&self, folder: &Path) {
        let own = read("rust/.cargo/config.toml");
        let config = own.replace(DEBIAN, folder.to_str().expect("a plain path"));
        fs::write(self.folder.join(".cargo/config.toml"), config).expect("cargo's settings");
    }

    fn cargo(&self, words: &[&str]) -> Command {
        let mut cargo = Command::new(env!("CARGO"));
        cargo.args(words).current_dir(&self.folder);
        cargo.env("CARGO_TARGET_DIR", self.folder.join("target"));
        cargo
    }

    fn run(&self, words: &[&str]) -> Output {
        self.cargo(words).output().expect("cargo runs")
    }
}

impl Drop for Copy {
    fn drop(&mut self) {
        let _ = fs::remove_dir_all(&self.folder);
    }
}

fn reported(output: &Output) -> String {
    String::from_utf8_lossy(&output.stderr).into_owned()
}

/// What cargo knows of each package that is built, by name.
fn packages(copy: &Copy) -> Vec<Json> {
    let words = ["metadata", "--offline", "--format-version", "1"];
    let output = copy.run(&words);
    assert!(output.status.success(), "{}", reported(&output));
    let known: Json = serde_json::from_slice(&output.stdout).expect("JSON");
    known["packages"].as_array().expect("packages").clone()
}

/// Whoever has an older compiler, as Debian 12's, gets a clear word.
#[test]
fn an_older_compiler_gets_a_clear_word() {
    let copy = Copy::new("older", Path::new(DEBIAN));
    let rustc = copy.folder.join("rustc");
    let script = "#!/bin/sh\nrustc \"$@\" | sed 's/^\\(rustc\\|release:\\) [0-9.]*/\\1 1.63.0/'\n";
    fs::write(&rustc, script).expect("a script");
    fs::set_permissions(&rustc, fs::Permissions::from_mode(0o755)).expect("a mode");
    for package in members() {
        let words = ["check", "--offline", "--package", &package];
        let output = copy.cargo(&words).env("RUSTC", &rustc).output();
        let output = output.expect("cargo runs");
        assert!(!output.status.success(), "{package}");
        let why = reported(&output);
        assert!(why.contains("rustc 1.63.0 is not supported"), "{why}");
        assert!(why.contains(&format!("requires rustc {RUST}")), "{why}");
    }
}

/// Debian's folder of packages with another version of one.
fn updated(folder: &Path, name: &str, version: &str) {
    let start = format!("{name}-");
    fs::create_dir_all(folder).expect("a folder");
    for package in fs::read_dir(DEBIAN).expect("Debian's packages") {
        let package = package.expect("a package").path();
        let stem = package.file_name().expect("a name").to_string_lossy();
        let Some(old) = stem.strip_prefix(&start) else {
            symlink(&package, folder.join(&*stem)).expect("a link");
            continue;
        };
        let new = folder.join(format!("{name}-{version}"));
        let copied = Command::new("cp")
            .arg("-rL")
            .args([&package, &new])
            .status();
        assert!(copied.expect("cp").success());
        let manifest = fs::read_to_string(new.join("Cargo.toml")).expect("a manifest");
        let old_line = format!("version = \"{old}\"");
        assert!(manifest.contains(&old_line), "{stem}");
        let manifest = manifest.replacen(&old_line, &format!("version = \"{version}\""), 1);
        fs::write(new.join("Cargo.toml"), manifest).expect("a manifest");
    }
}

/// The licences that what we build from may have; each asks for its notice at most.
const PERMISSIVE: [&str; 4] = ["MIT", "Apache-2.0", "ISC", "CC0-1.0"];

/// No lock names versions, so what Debian's next update brings is taken.
#[test]
fn an_update_of_a_debian_package_is_taken() {
    let ignored = read(".gitignore");
    assert!(ignored.lines().any(|it| it == "rust/Cargo.lock"));
    assert!(read(".ci/run").contains("rm -f Cargo.lock"));

    let copy = Copy::new("updated", Path::new(DEBIAN));
    let before = packages(&copy);
    for package in &before {
        let license = package["license"].as_str().unwrap_or_default();
        let permissive = PERMISSIVE.iter().any(|it| license.contains(it));
        assert!(permissive, "{}: {license}", package["name"]);
    }
    let versions = |packages: &[Json]| -> Vec<String> {
        let of = |it: &&Json| it["name"] == "walkdir";
        let found = packages.iter().filter(of);
        found
            .map(|it| it["version"].as_str().unwrap_or_default().into())
            .collect()
    };
    assert_ne!(versions(&before), ["2.99.0"]);
    let newer = copy.folder.join("packages");
    updated(&newer, "walkdir", "2.99.0");
    copy.take_packages_from(&newer);
    // A lock of before stands in the way; without it the new version is taken.
    let words = ["metadata", "--offline", "--format-version", "1"];
    assert!(!copy.run(&words).status.success());
    fs::remove_file(copy.folder.join("Cargo.lock")).expect("a lock of before");
    assert_eq!(versions(&packages(&copy)), ["2.99.0"]);
}
