//! Links the proved loader, which must have been built before.
//!
//! Its archive is looked for in the folder that `XNB_LIB_DIR` names, or else where `tools/archive` writes it in
//! this repository.

use std::path::{Path, PathBuf};
use std::process::exit;

/// The archive as `tools/archive` calls it, and as `make install` does.
const NAMES: [&str; 2] = ["builder", "xnb"];

fn main() {
    println!("cargo:rerun-if-changed=build.rs");
    println!("cargo:rerun-if-env-changed=XNB_LIB_DIR");
    let asked = std::env::var_os("XNB_LIB_DIR").map(PathBuf::from);
    let own = Path::new(env!("CARGO_MANIFEST_DIR")).join("../../target/staticlib");
    let folder = asked.as_deref().unwrap_or(&own);
    let archive = |name: &str| folder.join(format!("lib{name}.a"));
    for name in NAMES {
        println!("cargo:rerun-if-changed={}", archive(name).display());
    }
    let Some(name) = NAMES.into_iter().find(|name| archive(name).is_file()) else {
        eprintln!("{}", missing(folder, asked.is_some()));
        exit(1);
    };
    println!("cargo:rustc-link-search=native={}", folder.display());
    println!("cargo:rustc-link-lib=static={name}");
}

/// What is said where the archive is not there.
fn missing(folder: &Path, asked: bool) -> String {
    let folder = folder.display();
    if asked {
        return format!(
            "XNB_LIB_DIR names {folder}, which holds neither libbuilder.a nor libxnb.a.\n\
            Name the folder of the archive that `tools/archive` wrote, or that `make install` installed."
        );
    }
    format!(
        "The proved loader's archive, libbuilder.a, is not in {folder}.\n\
        Build it with `tools/archive` (or run .ci/run), or name its folder in XNB_LIB_DIR."
    )
}
