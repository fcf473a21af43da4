//! The tours of README.md and of docs/COMMAND.md: each command prints what they say, and the packages are those in use.

mod common;

use common::{scratch, shell};
use corpus::folder::root;
use std::collections::BTreeSet;
use std::fs;
use std::os::unix::fs::symlink;

/// A command of the tour, and the lines below it.
struct Shown {
    command: String,
    printed: String,
}

/// The commands of a page, which stand behind `$`, each with the indented lines below it.
fn tour(page: &str) -> Vec<Shown> {
    let page = fs::read_to_string(root().join(page)).expect("a page");
    let mut tour: Vec<Shown> = Vec::new();
    let mut inside = false;
    // Empty lines among those below a command are printed by it.
    let mut empty = String::new();
    for line in page.lines() {
        if line.is_empty() {
            empty += "\n";
            continue;
        }
        let empty = std::mem::take(&mut empty);
        let Some(line) = line.strip_prefix("    ") else {
            inside = false;
            continue;
        };
        if let Some(command) = line.strip_prefix("$ ") {
            inside = true;
            tour.push(Shown {
                command: command.to_string(),
                printed: String::new(),
            });
        } else if inside {
            let shown = tour.last_mut().expect("a command above");
            shown.printed += &empty;
            shown.printed += line;
            shown.printed += "\n";
        }
    }
    tour
}

#[test]
fn the_tours_print_what_the_pages_say() {
    let mut commands = Vec::new();
    for (name, page) in [("readme", "README.md"), ("tour", "docs/COMMAND.md")] {
        let folder = scratch(name);
        symlink(root().join("corpus"), folder.join("corpus")).expect("a link");
        for shown in tour(page) {
            let ran = shell(&folder, &format!("exec 2>&1; {}", shown.command));
            assert_eq!(ran.out, shown.printed, "{page}: {}", shown.command);
            commands.push(shown.command);
        }
    }
    for command in [
        "check",
        "rows",
        "tree",
        "shorten",
        "retype",
        "export",
        "import",
        "image",
        "preview",
        "pack list",
        "pack find",
        "pack extract",
        "mark",
        "unmark",
        "salvage",
        "report",
        "report sum",
        "completions",
        "man",
    ] {
        let start = format!("asset-builder {command} ");
        assert!(
            commands.iter().any(|it| it.starts_with(&start)),
            "{command}"
        );
    }
}

/// README and the gate install the packages that the command is built with, and no others.
#[test]
fn the_packages_of_debian_are_named() {
    let read = |path| fs::read_to_string(root().join(path)).expect("a file of the repository");
    let cargo = read("rust/asset-builder/Cargo.toml");
    let (_, dependencies) = cargo.split_once("[dependencies]").expect("dependencies");
    let used: BTreeSet<String> = dependencies
        .lines()
        .filter_map(|line| line.split_once(" = "))
        .filter(|(_, value)| value.contains(|it: char| it.is_ascii_digit()))
        .map(|(name, _)| format!("librust-{}-dev", name.replace('_', "-")))
        .collect();
    assert!(used.len() >= 5, "{used:?}");
    for path in ["README.md", ".ci/run"] {
        let text = read(path);
        let words = text.split_whitespace();
        let named = words.filter(|it| it.starts_with("librust-") && it.ends_with("-dev"));
        let named: BTreeSet<String> = named.map(str::to_string).collect();
        assert_eq!(named, used, "{path}");
    }
}
