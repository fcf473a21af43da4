//! crates.txt: each crate stands behind those that it uses and names no other, and docs/CRATES.md says what crates.txt says. Proofs have no long lines.

use corpus::folder::root;
use std::collections::BTreeSet;
use std::fs;
use std::path::Path;

/// A line of crates.txt that says something.
enum Line<'t> {
    Section(&'t str),
    Comment(&'t str),
    Crate { name: &'t str, uses: Vec<&'t str> },
}

fn lines(text: &str) -> Vec<Line<'_>> {
    let said = text.lines().filter(|line| !line.is_empty());
    said.map(|line| {
        if let Some(title) = line.strip_prefix("## ") {
            return Line::Section(title);
        }
        if let Some(comment) = line.strip_prefix("# ") {
            return Line::Comment(comment);
        }
        let (named, uses) = line.split_once(':').expect("a crate and what it uses");
        // What is built of a crate may stand behind its name.
        let name = named.split_whitespace().next().expect("a name");
        let uses = uses.split_whitespace().collect();
        Line::Crate { name, uses }
    })
    .collect()
}

fn crates_txt() -> String {
    fs::read_to_string(root().join("crates.txt")).expect("crates.txt")
}

#[test]
fn each_crate_stands_behind_those_that_it_uses() {
    let text = crates_txt();
    let all: BTreeSet<&str> = lines(&text)
        .into_iter()
        .filter_map(|line| match line {
            Line::Crate { name, .. } => Some(name),
            _ => None,
        })
        .collect();
    assert!(all.len() > 70, "only {} crates", all.len());
    let mut above = BTreeSet::new();
    for line in lines(&text) {
        if let Line::Crate { name, uses } = line {
            for used in uses {
                // The toolchain's own crates have no line.
                assert!(
                    !all.contains(used) || above.contains(used),
                    "{name} stands before {used}"
                );
            }
            assert!(above.insert(name), "{name} has two lines");
        }
    }
}

/// Crates that a line has to name though no source of that crate does: they declare a type that it reaches through another.
const REACHED: [(&str, &str); 1] = [("theorems", "ticks")];

/// The Rattle sources and the proofs below a folder, one after the other; must-fail edits and what `rt` made are not among them.
fn sources(folder: &Path, text: &mut String) {
    for entry in fs::read_dir(folder).expect("a folder of a crate") {
        let path = entry.expect("an entry").path();
        if path.is_dir() {
            if !path.ends_with("must-fail") && !path.ends_with("out") {
                sources(&path, text);
            }
        } else if path
            .extension()
            .is_some_and(|it| it == "rt" || it == "antt")
        {
            *text += &fs::read_to_string(&path).expect("a source");
            text.push('\n');
        }
    }
}

/// The crates that a text names: `Rattle.name` in specifications, `name::` or `use name` in code.
fn named(text: &str) -> BTreeSet<&str> {
    let joined = |c: char| c.is_ascii_alphanumeric() || c == '_';
    let of_specifications = text
        .split("Rattle.")
        .skip(1)
        .filter_map(|rest| rest.split(|c| !joined(c)).next());
    let of_code = text
        .split(|c| !joined(c) && c != ':')
        .filter_map(|word| word.split_once("::"))
        .map(|(first, _)| first);
    let used = text
        .lines()
        .filter_map(|line| line.trim().strip_prefix("use "))
        .map(|it| it.trim_end_matches(';'));
    of_specifications.chain(of_code).chain(used).collect()
}

#[test]
fn each_line_lists_what_its_crate_uses_and_nothing_else() {
    let text = crates_txt();
    for line in lines(&text) {
        let Line::Crate { name, uses } = line else {
            continue;
        };
        let mut source = String::new();
        sources(&root().join("crates").join(name), &mut source);
        let named = named(&source);
        for used in uses {
            assert!(
                named.contains(used) || REACHED.contains(&(name, used)),
                "{name} lists {used}, which it does not use"
            );
        }
    }
}

/// What docs/CRATES.md has to be: a table for each section, with the comment of each crate.
fn page(text: &str) -> String {
    let mut page = String::from(
        "# The crates\n\nEach crate uses only crates above it. This page says what the comments of `crates.txt` say; a test holds the two to each other.\n",
    );
    let mut said = "";
    for line in lines(text) {
        match line {
            Line::Section(title) => {
                page += &format!("\n## {title}\n\n| crate | what it holds |\n|---|---|\n");
            }
            Line::Comment(comment) => said = comment,
            Line::Crate { name, .. } => page += &format!("| `{name}` | {said} |\n"),
        }
    }
    page
}

#[test]
fn the_page_of_crates_says_what_the_list_says() {
    let kept = fs::read_to_string(root().join("docs/CRATES.md")).expect("docs/CRATES.md");
    assert_eq!(kept, page(&crates_txt()));
}

/// The modules whose records say what is demanded of files, packs and XML with no reading in them.
const DEMANDS: [&str; 14] = [
    "theorems/specs/Loading.antt",
    "theorems/specs/Rewriting.antt",
    "theorems/specs/Branches.antt",
    "theorems/specs/Packs.antt",
    "theorems/specs/Marks.antt",
    "theorems/specs/Salvage.antt",
    "entry_theorems/specs/Told.antt",
    "pack_entry_theorems/specs/Numbers.antt",
    "full_tables/specs/Full.antt",
    "name_faults/specs/Names.antt",
    "driver_theorems/specs/Driver.antt",
    "xml_theorems/specs/Import.antt",
    "xml_theorems/specs/Export.antt",
    "xml_theorems/specs/Trips.antt",
];

/// Modules that state a request beside the layouts: the driver's profile, and the scan of a damaged pack.
const STATED: [&str; 5] = [
    "profile/specs/Profile.antt",
    "profile_places/specs/Broken.antt",
    "profile_places/specs/Pieces.antt",
    "pack_salvage/specs/Scan.antt",
    "pack_salvage/specs/Stretches.antt",
];

/// How an answer of the code is written: definitions over the code's own types alone, which these modules import and nothing else of ours.
const WRITTEN: [&str; 4] = [
    "answers/specs/Refusals.antt",
    "load/specs/Written.antt",
    "pack_lookup/specs/Written.antt",
    "salvage/specs/Written.antt",
];

/// The module that an import names, as its file below `crates/`; the kit's, the layouts and the types of code have none here.
fn imported(line: &str) -> Option<String> {
    let path = line
        .trim_start_matches("pub ")
        .strip_prefix("use Rattle.")?;
    let path = path.split([' ', '{']).next()?.trim_end_matches('.');
    let (from, folder, module) = ["specs", "proofs"].into_iter().find_map(|folder| {
        let (from, module) = path.split_once(&format!(".{folder}."))?;
        Some((from, folder, module))
    })?;
    let of_kit = from == "std";
    let of_layout = ["layout", "pack_layout", "xml_layout"].contains(&from);
    let of_code = module.starts_with("declared.");
    (!of_kit && !of_layout && !of_code).then(|| format!("{from}/{folder}/{module}.antt"))
}

/// The lines of specifications and proofs below a folder that pass 300 characters, but for quoted texts.
fn long_lines(folder: &Path, found: &mut Vec<String>) {
    for entry in fs::read_dir(folder).expect("a folder of a crate") {
        let path = entry.expect("an entry").path();
        if path.is_dir() {
            if !path.ends_with("out") {
                long_lines(&path, found);
            }
        } else if path.extension().is_some_and(|it| it == "antt") {
            let text = fs::read_to_string(&path).expect("a proof");
            for (i, line) in text.lines().enumerate() {
                let quoted = line.trim_start().starts_with("∷ \"");
                if !quoted && line.chars().count() > 300 {
                    found.push(format!("{}:{}", path.display(), i + 1));
                }
            }
        }
    }
}

#[test]
fn no_line_of_a_proof_passes_300_characters() {
    let text = crates_txt();
    for line in lines(&text) {
        let Line::Crate { name, .. } = line else {
            continue;
        };
        let mut found = Vec::new();
        long_lines(&root().join("crates").join(name), &mut found);
        assert!(
            found.is_empty(),
            "lines of more than 300 characters: {found:?}"
        );
    }
}

#[test]
fn demands_name_layouts_and_types_of_code_alone() {
    for module in DEMANDS.into_iter().chain(STATED).chain(WRITTEN) {
        let text = fs::read_to_string(root().join("crates").join(module)).expect(module);
        assert!(text.contains("use Rattle."), "{module} imports nothing");
        for named in text.lines().filter_map(imported) {
            let named = named.as_str();
            let stated = DEMANDS.contains(&named) || STATED.contains(&named);
            assert!(
                WRITTEN.contains(&named) || (stated && !WRITTEN.contains(&module)),
                "{module} imports {named}"
            );
        }
    }
}
