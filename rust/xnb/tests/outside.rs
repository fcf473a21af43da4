//! The crate as a dependency of another one, which stands outside the repository.

use corpus::folder::root;
use std::fs;
use std::path::{Path, PathBuf};
use std::process::{Command, Output};

/// A crate of its own with the library as its one dependency.
struct Outside {
    folder: PathBuf,
}

impl Outside {
    fn new(name: &str, main: &str) -> Outside {
        let folder = std::env::temp_dir().join(format!("xnb-{name}-{}", std::process::id()));
        fs::create_dir_all(folder.join("src")).expect("a folder");
        fs::create_dir_all(folder.join(".cargo")).expect("a folder");
        // Packages come from where this repository's come from.
        let config = root().join("rust/.cargo/config.toml");
        fs::copy(config, folder.join(".cargo/config.toml")).expect("cargo's settings");
        let library = env!("CARGO_MANIFEST_DIR");
        let manifest = format!(
            "[package]\nname = \"outside\"\nversion = \"0.1.0\"\nedition = \"2021\"\n\n\
            [dependencies]\nxnb = {{ path = {library:?} }}\n"
        );
        fs::write(folder.join("Cargo.toml"), manifest).expect("a manifest");
        fs::write(folder.join("src/main.rs"), main).expect("a program");
        Outside { folder }
    }

    /// Runs the program, with the library's archive looked for in a folder.
    fn run(&self, archive: &Path) -> Output {
        self.run_over(archive, &[])
    }

    /// The same with words for the program.
    fn run_over(&self, archive: &Path, words: &[&Path]) -> Output {
        Command::new(env!("CARGO"))
            .args(["run", "--quiet", "--offline", "--"])
            .args(words)
            .current_dir(&self.folder)
            .env("XNB_LIB_DIR", archive)
            .env("CARGO_TARGET_DIR", self.folder.join("target"))
            .output()
            .expect("cargo runs")
    }
}

impl Drop for Outside {
    fn drop(&mut self) {
        let _ = fs::remove_dir_all(&self.folder);
    }
}

const MAIN: &str = r#"
fn main() -> Result<(), xnb::Refused> {
    let table = xnb::Table::load(b"XNBw\x05\x00\x0D\x00\x00\x00\x00\x00\x00")?;
    println!("{:?}", table.value(0)?);
    Ok(())
}
"#;

#[test]
fn another_crate_links_the_archive_in_the_folder_that_is_named() {
    let outside = Outside::new("linked", MAIN);
    // The archive under the name that an installation gives it, in a folder of its own.
    let folder = outside.folder.join("lib");
    fs::create_dir(&folder).expect("a folder");
    let archive = root().join("target/staticlib/libbuilder.a");
    fs::copy(archive, folder.join("libxnb.a")).expect("the archive");
    let output = outside.run(&folder);
    let reported = String::from_utf8_lossy(&output.stderr);
    assert!(output.status.success(), "{reported}");
    assert_eq!(output.stdout, b"Null\n");
}

/// The indented lines of a page behind these words.
fn lines_behind(page: &str, words: &str) -> String {
    let page = fs::read_to_string(root().join(page)).expect("a page");
    let (_, rest) = page.split_once(words).expect("the words");
    let lines = rest.lines().skip(1).skip_while(|line| line.is_empty());
    let lines = lines.take_while(|line| line.starts_with("    "));
    lines.map(|line| format!("{line}\n")).collect()
}

/// The lines of README and of its page, as a program of their own.
#[test]
fn the_lines_of_the_pages_print_texts() {
    for (page, words) in [
        (
            "README.md",
            "Rust (`rust/xnb`, [docs/RUST.md](docs/RUST.md)):",
        ),
        ("docs/RUST.md", "Print every text of a file:"),
    ] {
        let lines = lines_behind(page, words);
        assert!(lines.contains("xnb::Table::load"), "{page}: {lines}");
        let main = format!(
            "fn main() -> Result<(), Box<dyn std::error::Error>> {{\n    \
            let path = std::env::args_os().nth(1).expect(\"a path\");\n{lines}    Ok(())\n}}\n"
        );
        let outside = Outside::new("lines", &main);
        let file = root().join("corpus/kinds/ok-kind-13-string.xnb");
        let file = file.canonicalize().expect("a file");
        let archive = root().join("target/staticlib");
        let archive = archive.canonicalize().expect("the archive's folder");
        let output = outside.run_over(&archive, &[&file]);
        let reported = String::from_utf8_lossy(&output.stderr);
        assert!(output.status.success(), "{page}: {reported}");
        assert_eq!(output.stdout, b"row 0: Hi\n", "{page}");
    }
}

#[test]
fn a_missing_archive_is_reported_by_name() {
    let outside = Outside::new("missing", MAIN);
    let output = outside.run(&outside.folder.join("src"));
    assert!(!output.status.success());
    let reported = String::from_utf8_lossy(&output.stderr);
    let clear = "which holds neither libbuilder.a nor libxnb.a";
    assert!(
        reported.contains("XNB_LIB_DIR names ") && reported.contains(clear),
        "{reported}"
    );
}
