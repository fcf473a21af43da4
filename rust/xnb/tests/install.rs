//! `make install` and `make dist`; apart from the other tests, since they build the command anew.
//!
//!     cargo test --release --offline --package xnb --test install -- --ignored

use corpus::folder::root;
use std::fs;
use std::path::{Path, PathBuf};
use std::process::Command;
use std::sync::Mutex;

/// An empty folder of this test alone.
fn empty_folder(name: &str) -> PathBuf {
    let folder = Path::new(env!("CARGO_TARGET_TMPDIR")).join(name);
    let _ = fs::remove_dir_all(&folder);
    fs::create_dir_all(&folder).expect("a folder");
    folder
}

/// What a program prints when it ends well.
fn printed(command: &mut Command) -> String {
    let output = command.output().expect("the program starts");
    let reported = String::from_utf8_lossy(&output.stderr);
    assert!(output.status.success(), "{command:?}: {reported}");
    String::from_utf8(output.stdout).expect("a text")
}

/// Both tests build in one folder.
static ONE_AT_A_TIME: Mutex<()> = Mutex::new(());

fn make(words: &[&str]) {
    let _turn = ONE_AT_A_TIME.lock();
    printed(Command::new("make").args(words).current_dir(root()));
}

/// Every file below a folder, by its path in it.
fn files(folder: &Path) -> Vec<String> {
    let listed = printed(
        Command::new("find")
            .args([".", "!", "-type", "d"])
            .current_dir(folder),
    );
    let mut files: Vec<String> = listed.lines().map(String::from).collect();
    files.sort();
    files
}

const INSTALLED: [&str; 12] = [
    "./usr/bin/asset-builder",
    "./usr/include/xnb.h",
    "./usr/lib/libxnb.a",
    "./usr/lib/libxnb.so",
    "./usr/lib/libxnb.so.0",
    concat!("./usr/lib/libxnb.so.", env!("CARGO_PKG_VERSION")),
    "./usr/lib/pkgconfig/xnb.pc",
    "./usr/share/bash-completion/completions/asset-builder",
    "./usr/share/doc/xnb/copyright",
    "./usr/share/fish/vendor_completions.d/asset-builder.fish",
    "./usr/share/man/man1/asset-builder.1",
    "./usr/share/zsh/vendor-completions/_asset-builder",
];

/// The example in C, linked with the installed library and run on a kept file; it has one row.
fn check_library(folder: &Path) {
    let (include, lib) = (folder.join("usr/include"), folder.join("usr/lib"));
    let example = Path::new(env!("CARGO_MANIFEST_DIR")).join("examples/c/rows.c");
    let program = folder.join("rows");
    let mut compile = Command::new("cc");
    compile
        .arg("-I")
        .arg(include)
        .arg(example)
        .arg("-L")
        .arg(&lib);
    printed(compile.args(["-lxnb", "-o"]).arg(&program));
    let needed = printed(Command::new("objdump").arg("-p").arg(&program));
    assert!(
        needed.contains("NEEDED               libxnb.so.0\n"),
        "{needed}"
    );
    let file = fs::File::open(root().join("corpus/kinds/ok-kind-13-string.xnb")).expect("a file");
    let shown = printed(
        Command::new(&program)
            .env("LD_LIBRARY_PATH", &lib)
            .stdin(file),
    );
    let row = "row 0, 4 bytes at 61: a text in UTF-8 behind its number of bytes \"Hi\"\n";
    assert_eq!(shown, row);
    fs::remove_file(program).expect("it can be removed");
}

/// The installed command on a kept file.
fn check_command(folder: &Path) {
    let command = folder.join("usr/bin/asset-builder");
    let file = root().join("corpus/kinds/ok-kind-13-string.xnb");
    let shown = printed(Command::new(command).arg("tree").arg(file));
    assert_eq!(shown, "primary: String \"Hi\"\n");
}

#[test]
#[ignore = "builds the command"]
fn what_is_installed_works_and_is_removed_again() {
    let folder = empty_folder("install");
    let below = format!("DESTDIR={}", folder.display());
    make(&["install", "PREFIX=/usr", &below]);
    assert_eq!(files(&folder), INSTALLED);
    let settings = fs::read_to_string(folder.join("usr/lib/pkgconfig/xnb.pc")).expect("settings");
    assert!(
        settings.starts_with("prefix=/usr\nlibdir=/usr/lib\n"),
        "{settings}"
    );
    check_library(&folder);
    check_command(&folder);
    make(&["uninstall", "PREFIX=/usr", &below]);
    assert_eq!(files(&folder), [""; 0]);
}

/// Runs dpkg with a list of packages of its own below a folder.
fn dpkg(folder: &Path, words: &[&str]) {
    let mut command = Command::new("dpkg");
    command.arg(format!("--root={}", folder.display()));
    command
        .args(["--force-depends", "--force-not-root"])
        .args(words);
    printed(&mut command);
}

#[test]
#[ignore = "builds the command twice"]
fn the_package_is_installed_and_removed() {
    make(&["dist"]);
    let architecture = printed(Command::new("dpkg").arg("--print-architecture"));
    let name = format!(
        "xnb_{}_{}.deb",
        env!("CARGO_PKG_VERSION"),
        architecture.trim()
    );
    let dist = root().join("target/dist");
    let package = dist.join(name).canonicalize().expect("the package");
    // The command alone needs no library.
    let alone = printed(
        Command::new("file")
            .arg("-L")
            .arg(dist.join("asset-builder")),
    );
    assert!(alone.contains("static"), "{alone}");

    let folder = empty_folder("package");
    fs::create_dir_all(folder.join("var/lib/dpkg/info")).expect("a folder");
    fs::create_dir_all(folder.join("var/lib/dpkg/updates")).expect("a folder");
    fs::write(folder.join("var/lib/dpkg/status"), "").expect("a list of packages");
    dpkg(
        &folder,
        &["--install", package.to_str().expect("a path in UTF-8")],
    );
    let installed = |folder: &Path| -> Vec<String> {
        files(folder)
            .into_iter()
            .filter(|it| it.starts_with("./usr/"))
            .collect()
    };
    assert_eq!(installed(&folder), INSTALLED);
    check_library(&folder);
    check_command(&folder);
    dpkg(&folder, &["--purge", "xnb"]);
    assert_eq!(installed(&folder), [""; 0]);
}
