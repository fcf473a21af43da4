//! `export` and `import`: text lists to and from XML.

mod common;

use common::{has_control, names, run, run_in, sample, scratch, shell, Ran};
use corpus::folder::{folder, kept_files};
use corpus::readers::{array_of, enum_of, STRING};
use corpus::values::*;
use corpus::writer::write;
use corpus::xml::kept_samples;
use std::fs;
use std::path::Path;
use std::process::Command;
use xnb::Table;

const START: &str =
    "<?xml version=\"1.0\" encoding=\"utf-8\"?><XnaContent><Asset Type=\"string[]\">";
const END: &str = "</Asset></XnaContent>";
/// Four texts with each of the entities.
const ENTITIES: &str = "ok-texts-entities.xnb";

fn reported(ran: &Ran) -> (&str, &str, Option<i32>) {
    (&ran.out, &ran.err, ran.status)
}

/// A file that is a list of these texts.
fn list_of_texts<T: AsRef<str>>(texts: &[T]) -> Vec<u8> {
    let readers = [array_of("System.String"), STRING.to_string()];
    let texts = texts.iter().map(|it| bound_object(2, text(it.as_ref())));
    let list = object(1, array(texts.collect()));
    write(&file(&readers, list, vec![])).bytes
}

/// The texts of a list.
fn texts_of(file: &[u8]) -> Vec<String> {
    let table = Table::load(file).expect("a file that is taken");
    let text = |row| table.text(row).expect("a text").to_string();
    table.children(0).map(text).collect()
}

fn read(folder: &Path, name: &str) -> Vec<u8> {
    fs::read(folder.join(name)).expect("a file")
}

/// The answer of a kept sample: bytes, or a line as `refused 64 at 38`.
fn refusal(answer: &[u8]) -> Option<&str> {
    let line = std::str::from_utf8(answer).ok()?;
    line.strip_suffix('\n')
        .filter(|it| it.starts_with("refused "))
}

#[test]
fn kept_files_are_exported_or_refused() {
    let top = scratch("export-kept");
    let mut exported = 0;
    for file in kept_files() {
        let Some(answer) = file.export else {
            continue;
        };
        let input = format!("{}.xnb", file.name);
        let path = folder().join(&input);
        let path = path.to_str().expect("a plain path");
        let ran = run_in(&top, &["export", path, "-fo", "out.xml"], &[]);
        match refusal(&answer) {
            Some(refused) => {
                let start = format!("{path}: {refused}: ");
                assert!(ran.err.starts_with(&start), "{}", ran.err);
                assert_eq!((ran.out.as_str(), ran.status), ("", Some(1)), "{input}");
            }
            None => {
                assert_eq!((ran.err.as_str(), ran.status), ("", Some(0)), "{input}");
                assert_eq!(read(&top, "out.xml"), answer, "{input}");
                exported += 1;
            }
        }
    }
    assert!(exported >= 5, "only {exported} exports");
}

#[test]
fn kept_xml_is_imported_or_refused() {
    let top = scratch("import-kept");
    for sample in kept_samples() {
        let ran = run_in(&top, &["import", "-", "-fo", "out.xnb"], &sample.xml);
        match refusal(&sample.answer) {
            Some(refused) => {
                let start = format!("-: {refused}: ");
                assert!(ran.err.starts_with(&start), "{}", ran.err);
                assert_eq!(
                    (ran.out.as_str(), ran.status),
                    ("", Some(1)),
                    "{}",
                    sample.name
                );
                assert!(!has_control(&ran.err), "{}", ran.err);
            }
            None => {
                assert_eq!(
                    (ran.err.as_str(), ran.status),
                    ("", Some(0)),
                    "{}",
                    sample.name
                );
                assert_eq!(read(&top, "out.xnb"), sample.answer, "{}", sample.name);
            }
        }
    }
}

#[test]
fn a_list_goes_out_and_comes_back() {
    let top = scratch("xml-way-back");
    let texts = ["Doors & steps", "", "a < b > \"c\"", "Türen, 扉, 🚪", "'"];
    fs::write(top.join("doors.xnb"), list_of_texts(&texts)).expect("a file");
    let ran = run_in(&top, &["export", "doors.xnb", "-o", "doors.xml"], &[]);
    let xml = format!(
        "{START}<Item>Doors &amp; steps</Item><Item></Item><Item>a &lt; b &gt; &quot;c&quot;</Item>\
        <Item>Türen, 扉, 🚪</Item><Item>'</Item>{END}"
    );
    let line = format!("doors.xnb: 5 texts, {} bytes of XML\n", xml.len());
    assert_eq!(reported(&ran), (line.as_str(), "", Some(0)));
    assert_eq!(read(&top, "doors.xml"), xml.as_bytes());

    let ran = run_in(&top, &["import", "doors.xml", "-o", "back.xnb"], &[]);
    let back = read(&top, "back.xnb");
    let line = format!("doors.xml: 5 texts, a file of {} bytes\n", back.len());
    assert_eq!(reported(&ran), (line.as_str(), "", Some(0)));
    assert_eq!(texts_of(&back), texts);

    // By standard input and output, with nothing else printed.
    let line =
        "asset-builder export - -o - < doors.xnb | asset-builder import - -o - | cmp - back.xnb";
    let ran = shell(&top, line);
    assert_eq!(reported(&ran), ("", "", Some(0)));
    assert_eq!(names(&top), ["back.xnb", "doors.xml", "doors.xnb"]);
}

#[test]
fn a_file_that_is_there_stays_without_force() {
    let top = scratch("xml-force");
    fs::write(top.join("out"), "kept").expect("a file");
    let xml = format!("{START}{END}");
    let cases = [("export", sample(ENTITIES)), ("import", xml.into_bytes())];
    for (command, input) in cases {
        let ran = run_in(&top, &[command, "-", "-o", "out"], &input);
        assert!(ran.err.starts_with("out: "), "{}", ran.err);
        assert_eq!((ran.out.as_str(), ran.status), ("", Some(2)), "{command}");
        assert_eq!(read(&top, "out"), b"kept");
        let ran = run_in(&top, &[command, "-", "-fo", "out"], &input);
        assert_eq!((ran.err.as_str(), ran.status), ("", Some(0)), "{command}");
        assert_ne!(read(&top, "out"), b"kept");
        fs::write(top.join("out"), "kept").expect("a file");
        let ran = run_in(&top, &[command, "-", "-fo", "out"], b"neither");
        assert_eq!((ran.out.as_str(), ran.status), ("", Some(1)), "{command}");
        let ran = run_in(&top, &[command, "none", "-fo", "out"], &[]);
        assert_eq!((ran.out.as_str(), ran.status), ("", Some(2)), "{command}");
        assert_eq!(read(&top, "out"), b"kept");
    }
    assert_eq!(names(&top), ["out"]);
}

/// The line and the column of each fault, what is found there, what is expected, and what to write instead.
#[test]
fn wrong_xml_is_reported_by_line_and_column() {
    let reported = |xml: &str| {
        let ran = run_in(&folder(), &["import", "-", "-o", "-"], xml.as_bytes());
        assert_eq!((ran.out.as_str(), ran.status), ("", Some(1)), "{xml}");
        let second = ran.err.lines().nth(1).expect("a second line");
        second.trim_start().to_string()
    };
    let of = |rest: &str| reported(&format!("{START}{rest}"));
    assert_eq!(
        of("<Item>Doors & steps</Item>"),
        "line 1, column 87: found ' ' (20), expected amp; lt; gt; or quot; behind &; & is written as &amp;"
    );
    assert_eq!(
        of("<Item>é > e</Item>"),
        "line 1, column 82: found '>' (3E), expected a character, &amp; &lt; &gt; &quot; or </Item>; \
        > is written as &gt;"
    );
    assert_eq!(
        of("<Item>\"a\"</Item>"),
        "line 1, column 80: found '\"' (22), expected a character, &amp; &lt; &gt; &quot; or </Item>; \
        \" is written as &quot;"
    );
    assert_eq!(
        of("<Item>one\ntwo</Item>"),
        "line 1, column 83: found 0A, expected a character, &amp; &lt; &gt; &quot; or </Item>; \
        a text has no line break and no control character"
    );
    assert_eq!(
        of("\n  <Item>one</Item>"),
        "line 1, column 74: found 0A, expected <Item> or </Asset></XnaContent>; \
        nothing is between items or behind the end, no space and no line break"
    );
    assert_eq!(
        of(&format!("{END}\n")),
        "line 1, column 95: found 0A, expected nothing more; \
        nothing is between items or behind the end, no space and no line break"
    );
    assert_eq!(
        of("<Item>one</Item"),
        "line 1, column 89: found the end, expected > behind </Item"
    );
    assert_eq!(
        reported(&format!("\u{FEFF}{START}{END}")),
        "line 1, column 1: found EF, expected <?xml version=\"1.0\" enco...; \
        the XML begins with a byte order mark, save it without one"
    );
    assert_eq!(
        reported("<?xml version=\"1.0\"\nencoding"),
        "line 1, column 20: found 0A, expected  encoding=\"utf-8\"?><XnaC... behind <?xml version=\"1.0\""
    );
    assert_eq!(
        reported(""),
        "line 1, column 1: found the end, expected <?xml version=\"1.0\" enco..."
    );
}

/// The bytes around the place stand below, with a mark.
#[test]
fn wrong_xml_is_shown_at_its_place() {
    let ran = run(&["import", "bad-64-xml-bare-ampersand.xml", "-o", "-"]);
    let (first, _) = ran.err.split_once('\n').expect("lines");
    let place = first.split(' ').nth(4).expect("a place");
    let place: usize = place.trim_end_matches(':').parse().expect("a number");
    assert_eq!(sample("bad-64-xml-bare-ampersand.xml")[place - 1], b'&');
    let marked = ran
        .err
        .lines()
        .find(|line| line.contains("^^"))
        .expect("a mark");
    assert_eq!(
        marked.find("^^"),
        Some(12 + 3 * (place % 16)),
        "{}",
        ran.err
    );
}

#[test]
fn files_that_cannot_be_exported_are_reported() {
    let reported = |bytes: &[u8]| {
        let ran = run_in(&folder(), &["export", "-", "-o", "-"], bytes);
        assert_eq!((ran.out.as_str(), ran.status), ("", Some(1)));
        let lines: Vec<&str> = ran.err.lines().map(str::trim_start).collect();
        (lines[0].to_string(), lines[1].to_string(), lines.len())
    };
    let no_list = "the primary object is not an Array of String, or there are shared objects";
    let null = reported(&sample("ok-kind-00-null.xnb"));
    assert_eq!(null.0, format!("-: refused 61 at 12: {no_list}"));
    assert_eq!(null.1, "the primary object is of kind Null");
    let other = reported(&sample("ok-kind-17-array-of-int32.xnb"));
    assert!(other.0.ends_with(no_list), "{}", other.0);
    assert_eq!(other.1, "the primary object is an Array of another type");
    let shared = reported(&sample("ok-texts-and-a-shared-null.xnb"));
    assert_eq!(shared.1, "the file has 1 shared object");
    // The place is a row number, so no bytes are shown.
    let null = reported(&sample("ok-texts-second-null.xnb"));
    let lines = (
        "-: refused 62 at 2: a text is null",
        "the 2nd text is null",
        2,
    );
    assert_eq!((null.0.as_str(), null.1.as_str(), null.2), lines);
    let control = reported(&list_of_texts(&["a", "b", "two\nlines \x1B"]));
    assert_eq!(
        (control.0.as_str(), control.1.as_str(), control.2),
        (
            "-: refused 63 at 3: a text has a character below 20 hex, U+FFFE or U+FFFF, which XML cannot hold",
            "the 3rd text has U+000A as character 4: \"two\\nlines \\u{1b}\"",
            2
        )
    );
}

#[test]
fn an_export_lends_the_list_of_enum_types() {
    let readers = [
        array_of("System.String"),
        STRING.to_string(),
        enum_of("Coach.Door"),
        corpus::readers::list_of("Coach.Door"),
    ];
    let list = object(1, array(vec![bound_object(2, text("a"))]));
    let bytes = write(&file(&readers, list, vec![])).bytes;
    let top = scratch("xml-enums");
    fs::write(top.join("in.xnb"), bytes).expect("a file");
    fs::write(top.join("enums.txt"), "Coach.Door 1\n").expect("a list");
    let words = ["export", "in.xnb", "-o", "-", "--enums", "enums.txt"];
    let ran = run_in(&top, &words, &[]);
    let xml = format!("{START}<Item>a</Item>{END}");
    assert_eq!(reported(&ran), (xml.as_str(), "", Some(0)));
    let ran = run_in(&top, &words[..4], &[]);
    assert!(ran.err.starts_with("in.xnb: refused 11 at "), "{}", ran.err);
}

/// What xmllint finds at a path of XML.
fn xmllint(folder: &Path, path: &str, file: &str) -> String {
    let ran = Command::new("xmllint")
        .args(["--huge", "--xpath", path, file])
        .current_dir(folder)
        .output()
        .expect("xmllint of libxml2-utils starts");
    let said = String::from_utf8_lossy(&ran.stderr);
    assert!(ran.status.success(), "{path}: {said}");
    let mut found = String::from_utf8(ran.stdout).expect("text");
    assert_eq!(found.pop(), Some('\n'));
    found
}

/// Every character that XML can hold, a thousand to a text.
fn every_character() -> Vec<String> {
    let lawful = |it: &char| *it >= ' ' && !matches!(it, '\u{FFFE}' | '\u{FFFF}');
    let all: Vec<char> = (' '..=char::MAX).filter(lawful).collect();
    let texts = all.chunks(1000).map(|some| some.iter().collect());
    texts.collect()
}

/// An outside reader takes the exports as XML and finds our texts in them.
#[test]
fn another_reader_of_xml_finds_the_same_texts() {
    let top = scratch("xmllint");
    let mut files: Vec<Vec<u8>> = vec![
        list_of_texts(&every_character()),
        list_of_texts(&[
            "&amp;", "]]>", "<!-- -->", "<Item>", " ", "", "&#x41;", "a  b",
        ]),
        list_of_texts::<&str>(&[]),
    ];
    let kept = kept_files().into_iter().filter(|file| {
        let xml = file.export.as_deref();
        xml.is_some_and(|it| refusal(it).is_none())
    });
    files.extend(kept.map(|file| file.bytes));
    for bytes in files {
        let ran = run_in(&top, &["export", "-", "-fo", "out.xml"], &bytes);
        assert_eq!((ran.err.as_str(), ran.status), ("", Some(0)));
        let ran = shell(&top, "xmllint --huge --noout out.xml");
        assert_eq!(reported(&ran), ("", "", Some(0)));
        let texts = texts_of(&bytes);
        let count = xmllint(
            &top,
            "count(/XnaContent/Asset[@Type='string[]']/Item)",
            "out.xml",
        );
        assert_eq!(count, texts.len().to_string());
        assert!(xmllint(&top, "string(/XnaContent/Asset)", "out.xml") == texts.concat());
        for (number, text) in (1..).zip(&texts).step_by(1 + texts.len() / 20) {
            let path = format!("string(/XnaContent/Asset/Item[{number}])");
            assert!(xmllint(&top, &path, "out.xml") == *text, "text {number}");
        }
    }
}
