//! The C header beside the entries of crates/builder_c, and the programs of docs/C.md, compiled and run.

use corpus::folder::{kept_files, kept_files_with_enums, root};
use corpus::packs::folder::{kept_damaged_packs, kept_packs};
use std::collections::BTreeMap;
use std::fs;
use std::os::unix::fs::symlink;
use std::path::{Path, PathBuf};
use std::process::{Command, Stdio};
use xnb::{raw, EnumList, Shape, MOST_ROWS, WORDS_PER_ROW};

/// The types of an entry's parameters and of its answer, as C has them.
type Types = (Vec<String>, String);

/// What stands between the brackets of a slice or an array.
fn in_brackets(rattle: &str) -> Option<&str> {
    rattle.strip_prefix('[')?.strip_suffix(']')
}

/// What C passes for a type of a parameter in Rattle.
fn c_types(rattle: &str) -> Vec<String> {
    let number = |name: &str| match name {
        "u8" => "uint8_t",
        "u32" => "uint32_t",
        "u64" => "uint64_t",
        "i64" => "int64_t",
        "usize" => "size_t",
        _ => panic!("a type that C entries do not have: {rattle}"),
    };
    let length = "size_t".to_string();
    let (constant, inner) = match rattle.strip_prefix("&mut ") {
        Some(inner) => ("", inner),
        None => ("const ", rattle.trim_start_matches('&')),
    };
    if let Some((element, count)) = in_brackets(inner).and_then(|it| it.split_once("; ")) {
        // An array has its length in its type.
        return vec![format!("{constant}{} [{count}]", number(element))];
    }
    let slice = |it| in_brackets(it).map(number);
    match rattle.strip_prefix("&mut ") {
        Some(inner) => match slice(inner) {
            Some(element) => vec![format!("{element} *"), length],
            None => vec![format!("{} *", number(inner))],
        },
        None => match rattle.strip_prefix('&').and_then(slice) {
            Some(element) => vec![format!("const {element} *"), length],
            None => vec![number(rattle).to_string()],
        },
    }
}

/// The entries that crates/builder_c has.
fn entries() -> BTreeMap<String, Types> {
    let mut entries = BTreeMap::new();
    for file in fs::read_dir(root().join("crates/builder_c/src")).expect("the sources") {
        let source = fs::read_to_string(file.expect("a source").path()).expect("a source");
        for entry in source.split("pub extern \"C\" fn ").skip(1) {
            let (name, rest) = entry.split_once('(').expect("parameters");
            let (parameters, rest) = rest.split_once(") -> ").expect("an answer");
            let given = parameters
                .split(',')
                .filter_map(|it| it.split_once(':'))
                .flat_map(|(_, it)| c_types(it.trim()))
                .collect();
            let answer = rest.split_whitespace().next().expect("a type");
            let answer = c_types(answer).concat();
            entries.insert(name.to_string(), (given, answer));
        }
    }
    entries
}

/// A text without what stands between the two marks, marks included.
fn without(text: &str, start: &str, end: &str) -> String {
    let mut parts = text.split(start);
    let mut rest = parts.next().expect("a first part").to_string();
    for part in parts {
        rest += part.split_once(end).expect("an end").1;
    }
    rest
}

/// The type of a parameter, which stands before its name; the length of an array stands behind it.
fn type_of(parameter: &str) -> String {
    if let Some((element, length)) = parameter.trim().split_once('[') {
        return format!("{} [{length}", type_of(element));
    }
    let name = |it: char| it.is_ascii_alphanumeric() || it == '_';
    let words = parameter.trim().trim_end_matches(name);
    words.trim().to_string()
}

/// The entries that the header declares.
fn declarations() -> BTreeMap<String, Types> {
    let header = fs::read_to_string(root().join("crates/builder/xnb.h")).expect("the header");
    // Constants and what is said of them stand before the entries.
    let (_, declared) = header.split_once("extern \"C\" {").expect("entries");
    let code = without(declared, "/*", "*/");
    let lines = code.lines().filter(|it| !it.starts_with('#'));
    let code: String = lines.map(|it| it.to_string() + " ").collect();
    let code = code.replace('}', "");
    let declared = code.split(';').filter_map(|it| it.trim().split_once('('));
    let types = |(head, parameters): (&str, &str)| {
        let (answer, name) = head.split_once(' ').expect("an answer and a name");
        let (parameters, _) = parameters.split_once(')').expect("an end");
        let parameters = parameters.split(',').filter(|it| *it != "void");
        let given = parameters.map(type_of).collect();
        (name.to_string(), (given, answer.to_string()))
    };
    declared.map(types).collect()
}

#[test]
fn the_header_declares_each_entry_as_the_code_has_it() {
    let entries = entries();
    assert!(entries.len() >= 20, "only {} entries", entries.len());
    assert_eq!(declarations(), entries);
}

/// The indented parts of docs/C.md before its second heading: the command that compiles, then the programs.
fn parts_of_page() -> Vec<String> {
    let page = fs::read_to_string(root().join("docs/C.md")).expect("the page on C");
    let (page, _) = page.split_once("\n## ").expect("a second heading");
    let mut parts: Vec<String> = Vec::new();
    let mut inside = false;
    for line in page.lines() {
        let code = line.strip_prefix("    ");
        if let (Some(code), true) = (code.or(line.is_empty().then_some("")), inside) {
            *parts.last_mut().expect("a part") += &format!("{code}\n");
        } else if let Some(code) = code {
            parts.push(format!("{code}\n"));
            inside = true;
        } else {
            inside = line.is_empty() && inside;
        }
    }
    parts
}

/// Calls what the page defines: its program, and the functions below it.
const DRIVER: &str = r#"
#undef main
static uint8_t out[16777217];

int main(int count, char **words_given) {
    size_t length;
    if (count == 1)
        return main_of_page();
    if (!strcmp(words_given[1], "kinds")) {
        int refused = main_of_page();
        kinds((uint32_t)(words_given[2][0] - '0'));
        return refused;
    }
    length = fread(file, 1, sizeof file, stdin);
    if (!strcmp(words_given[1], "texts"))
        return texts(length);
    if (!strcmp(words_given[1], "enums")) {
        uint32_t readers, shared, padding;
        uint64_t answer = load_with_enums(length, &readers, &shared, &padding);
        printf("%llu %u %u %u\n", (unsigned long long)answer, (unsigned)readers, (unsigned)shared, (unsigned)padding);
        return 0;
    }
    if (!strcmp(words_given[1], "show"))
        return show(file, length, words_given[2]);
    return save(file, length, out);
}
"#;

/// Compiles the programs of the page by its command, with every warning an error.
fn compiled() -> PathBuf {
    let folder = Path::new(env!("CARGO_TARGET_TMPDIR")).join("c-face");
    let _ = fs::remove_dir_all(&folder);
    fs::create_dir_all(&folder).expect("a folder");
    for name in ["crates", "target"] {
        symlink(root().join(name), folder.join(name)).expect("a link");
    }
    let parts = parts_of_page();
    let (command, programs) = parts.split_first().expect("a command");
    let source = format!("#define main main_of_page\n{}{DRIVER}", programs.concat());
    fs::write(folder.join("show.c"), source).expect("a source");
    let strict = "cc -std=c99 -O1 -Wall -Wextra -Werror ";
    let command = command.replacen("cc ", strict, 1);
    let shell = Command::new("sh")
        .args(["-c", &command])
        .current_dir(&folder)
        .output();
    let built = shell.expect("a shell starts");
    let reported = String::from_utf8_lossy(&built.stderr);
    assert!(built.status.success(), "{command}{reported}");
    folder.join("show")
}

/// Runs a program on an input; answers its output, what it says besides, and whether it was content.
fn run(program: &Path, words: &[&str], input: &[u8]) -> (Vec<u8>, String, bool) {
    let given = program.with_extension("input");
    fs::write(&given, input).expect("an input");
    let ran = Command::new(program)
        .args(words)
        .stdin(fs::File::open(&given).expect("the input"))
        .stderr(Stdio::piped())
        .output()
        .expect("it starts");
    let besides = String::from_utf8(ran.stderr).expect("a text");
    (ran.stdout, besides, ran.status.success())
}

/// The line that the page's program prints first.
fn padding(table: &xnb::Table) -> String {
    let (padding, length) = (table.padding(), table.file().len());
    format!("{padding} of {length} bytes are padding\n")
}

/// The lines that it prints for a table's texts.
fn texts(table: &xnb::Table) -> String {
    let rows = (0..).zip(table.rows());
    let rows = rows.filter(|(_, row)| row.kind == xnb::Kind::String);
    let line = |(number, _)| {
        let text = table.text(number).expect("a text");
        // C's printf ends a text at a byte 0.
        let (text, _) = text.split_once('\0').unwrap_or((text, ""));
        format!("row {number}: {text}\n")
    };
    rows.map(line).collect()
}

/// The lines that it prints for the kinds of a table's objects.
fn kinds(table: &xnb::Table) -> String {
    let line = |(object, row)| {
        let kind = table.row(row).expect("an object").kind.number();
        format!("object {object}: row {row}, kind {kind}\n")
    };
    table.objects().enumerate().map(line).collect()
}

/// The page's program over files that pad and some others: the padding, the texts by rows and in columns, and the objects.
fn compare_files(program: &Path) {
    let kept = kept_files();
    let padded = kept.iter().filter(|file| file.padding > 0);
    for file in kept.iter().step_by(5).chain(padded) {
        let table = match xnb::Table::load(&file.bytes) {
            Ok(table) => table,
            Err(refused) => {
                let (number, place) = (refused.refusal.number(), refused.place);
                let line = format!("refused {number} at {place}\n");
                let reported = (line.into_bytes(), String::new(), false);
                assert_eq!(run(program, &[], &file.bytes), reported, "{}", file.name);
                continue;
            }
        };
        let lines = padding(&table) + &texts(&table);
        let reported = (lines.clone().into_bytes(), String::new(), true);
        assert_eq!(run(program, &[], &file.bytes), reported, "{}", file.name);
        let reported = (texts(&table).into_bytes(), String::new(), true);
        assert_eq!(
            run(program, &["texts"], &file.bytes),
            reported,
            "{}",
            file.name
        );
        let shared = table.loaded().shared;
        if shared < 10 {
            let objects = (lines + &kinds(&table)).into_bytes();
            let words = ["kinds", &shared.to_string()];
            let (out, _, _) = run(program, &words, &file.bytes);
            assert_eq!(out, objects, "{}", file.name);
        }
    }
}

/// Loads of kept files with the page's list of enum types.
fn compare_enums(program: &Path) {
    let types = [("Coach.Door", 1), ("Coach.Screen+Mode", 2)];
    let enums = EnumList::new(types).expect("a lawful list");
    for file in kept_files_with_enums() {
        let mut words = vec![0; WORDS_PER_ROW * MOST_ROWS];
        let answer = raw::load_table(Shape::Rows, &file.bytes, enums.as_bytes(), &mut words);
        let line = format!(
            "{} {} {} {}\n",
            answer.packed, answer.readers, answer.shared, answer.padding
        );
        let reported = (line.into_bytes(), String::new(), true);
        assert_eq!(
            run(program, &["enums"], &file.bytes),
            reported,
            "{}",
            file.name
        );
    }
}

/// A file of each kept pack, and what each damaged one still holds.
fn compare_packs(program: &Path) {
    for sample in kept_packs() {
        let Ok(pack) = xnb::Pack::read(&sample.bytes) else {
            let (_, _, content) = run(program, &["show", "a"], &sample.bytes);
            assert!(!content, "{}", sample.name);
            continue;
        };
        if let Some(file) = pack.files().last() {
            let found = pack.find(file.path.as_bytes()).expect("a path of the pack");
            let reported = (found.to_vec(), String::new(), true);
            let words = ["show", file.path];
            assert_eq!(
                run(program, &words, &sample.bytes),
                reported,
                "{}",
                sample.name
            );
        }
    }
    for sample in kept_damaged_packs() {
        let reported = match sample.expected() {
            Ok((new, list)) => {
                let line = |it: &[u64]| format!("skipped at {}, length {}\n", it[0], it[1]);
                (new, list.chunks(2).map(line).collect(), true)
            }
            Err((number, place)) => (vec![], format!("refused {number} at {place}\n"), false),
        };
        assert_eq!(
            run(program, &["save"], &sample.bytes),
            reported,
            "{}",
            sample.name
        );
    }
}

#[test]
fn readmes_programs_print_what_they_say() {
    let program = compiled();
    compare_files(&program);
    compare_enums(&program);
    compare_packs(&program);
}
