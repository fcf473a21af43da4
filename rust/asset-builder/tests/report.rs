//! `report`: what many packs contain.

mod common;

use common::{has_control, on_terminal, run_in, sample, scratch, shell, Ran};
use corpus::folder::folder;
use corpus::packs::{stored, write_pack, Stored, NO_MARK};
use corpus::readers::{enum_of, STRING, TEXTURE2D};
use corpus::reports::{kept_samples, REPORT_WORDS};
use corpus::values::*;
use corpus::writer::write;
use serde_json::Value as Json;
use std::fs;
use std::path::{Path, PathBuf};

/// A pack of these files.
fn pack(files: &[(&str, Vec<u8>)]) -> Vec<u8> {
    let files: Vec<Stored> = files
        .iter()
        .map(|(path, data)| stored(*path, data.clone()))
        .collect();
    write_pack(NO_MARK, &files).bytes
}

/// A file of a picture of 2 by 2 pixels of four bytes, and of two texts.
fn picture() -> Vec<u8> {
    let readers = [TEXTURE2D, STRING];
    let texts = vec![object(2, text("größer")), object(2, text("Hi"))];
    write(&file(&readers, object(1, texture(0, 2, 2, 1)), texts)).bytes
}

/// A folder with two packs that are counted and one that is refused.
fn season(name: &str) -> PathBuf {
    let top = scratch(name);
    let monday = pack(&[
        ("a", sample("ok-kind-13-string.xnb")),
        ("b", picture()),
        ("c", sample("bad-06-flags.xnb")),
        ("notes", b"no XNB file".to_vec()),
    ]);
    let tuesday = pack(&[
        ("a", sample("ok-kind-00-null.xnb")),
        ("b", sample("bad-06-flags.xnb")),
        ("c", sample("bad-07-length-too-large.xnb")),
    ]);
    fs::write(top.join("monday.pak"), monday).expect("a pack");
    fs::write(top.join("tuesday.pak"), tuesday).expect("a pack");
    fs::write(top.join("wednesday.pak"), b"\x01\0\0\0").expect("a pack");
    top
}

fn reported(ran: &Ran) -> (&str, &str, Option<i32>) {
    (&ran.out, &ran.err, ran.status)
}

fn json(ran: &Ran) -> Json {
    serde_json::from_str(&ran.out).expect("JSON")
}

const REFUSED: &str = "wednesday.pak: refused 1 at 4: a field runs past the end of the pack\n";

#[test]
fn people_get_a_table() {
    let top = season("report-table");
    let ran = run_in(
        &top,
        &["report", "monday.pak", "tuesday.pak", "wednesday.pak"],
        &[],
    );
    let expected = "\
3 packs: 2 counted, 1 refused, 0 unread

                   7  100.0 %  ####################  files
                   3   42.9 %  #########             XNB files accepted
                   3   42.9 %  #########             XNB files refused
                  12                                 bytes of texts
                  16                                 bytes of images

XNB files refused, by rule

                   2   66.7 %  #############         6 a flag other than the profile is set
                   1   33.3 %  #######               7 the header's length is not the file's length

rows, by kind

                   1   16.7 %  ###                   0 Null
                   3   50.0 %  ##########            13 String
                   1   16.7 %  ###                   32 Texture2D
                   1   16.7 %  ###                   35 ImageLevel

packs refused

";
    assert_eq!(
        reported(&ran),
        (&*format!("{expected}{REFUSED}"), "", Some(1))
    );
    let ran = run_in(&top, &["report", "monday.pak"], &[]);
    assert!(ran
        .out
        .starts_with("1 pack: 1 counted, 0 refused, 0 unread\n"));
    assert!(!ran.out.contains("packs refused"), "{}", ran.out);
    assert_eq!(ran.status, Some(0));
    // No file: no shares, and no parts of nothing.
    let ran = run_in(&top, &["report", "-"], &[0; 4]);
    assert_eq!(ran.out.lines().count(), 7, "{}", ran.out);
    assert!(
        ran.out
            .contains("0    0.0 %                        files\n"),
        "{}",
        ran.out
    );
    assert_eq!(ran.status, Some(0));
}

#[test]
fn programs_get_json_and_spreadsheets_csv() {
    let top = season("report-json");
    let ran = run_in(&top, &["report", "--json", "."], &[]);
    let expected = concat!(
        r#"{"schema":1,"packs":2,"files":7,"accepted":3,"textBytes":12,"imageBytes":16,"#,
        r#""refusals":[{"number":6,"rule":"a flag other than the profile is set","files":2},"#,
        r#"{"number":7,"rule":"the header's length is not the file's length","files":1}],"#,
        r#""rows":[{"kind":0,"name":"Null","rows":1},{"kind":13,"name":"String","rows":3},"#,
        r#"{"kind":32,"name":"Texture2D","rows":1},{"kind":35,"name":"ImageLevel","rows":1}],"#,
        r#""packsRefused":[{"file":"./wednesday.pak","number":1,"place":4,"#,
        r#""rule":"a field runs past the end of the pack"}],"packsUnread":[]}"#,
        "\n"
    );
    assert_eq!(reported(&ran), (expected, "", Some(1)));

    let names = ["monday.pak", "tuesday.pak", "wednesday.pak"];
    let ran = run_in(&top, &[&["report", "--csv"][..], &names].concat(), &[]);
    let expected = "\
figure,number,name,count
packs,,,2
packs refused,,,1
files,,,7
accepted,,,3
text bytes,,,12
image bytes,,,16
refused,6,a flag other than the profile is set,2
refused,7,the header's length is not the file's length,1
rows,0,Null,1
rows,13,String,3
rows,32,Texture2D,1
rows,35,ImageLevel,1
";
    assert_eq!(reported(&ran), (expected, REFUSED, Some(1)));
    // A rule with a comma in it is quoted.
    let cut = pack(&[("a", sample("bad-09-empty-name.xnb"))]);
    let ran = run_in(&top, &["report", "--csv", "-"], &cut);
    let line = "\nrefused,9,\"the file, a count or a name's length is over its limit, or a name is empty\",1\n";
    assert!(ran.out.contains(line), "{}", ran.out);
}

/// The words of a report that was printed as JSON.
fn words(json: &Json) -> [u64; REPORT_WORDS] {
    let figure = |value: &Json| value.as_u64().expect("a figure");
    let mut words = [0; REPORT_WORDS];
    for (word, name) in ["files", "accepted", "textBytes", "imageBytes"]
        .iter()
        .enumerate()
    {
        words[word] = figure(&json[name]);
    }
    for refusal in json["refusals"].as_array().expect("refusals") {
        words[4 + figure(&refusal["number"]) as usize] = figure(&refusal["files"]);
    }
    for row in json["rows"].as_array().expect("rows") {
        words[68 + figure(&row["kind"]) as usize] = figure(&row["rows"]);
    }
    words
}

#[test]
fn kept_packs_give_their_reports() {
    let mut counted = 0;
    for sample in kept_samples() {
        let expected = sample.expected();
        let is_plain = expected.enums.is_empty() && expected.before == [0; REPORT_WORDS];
        let (Ok(report), true) = (expected.answer, is_plain) else {
            continue;
        };
        let ran = run_in(&folder(), &["report", "--json", "-"], &sample.pack);
        assert_eq!(
            (ran.err.as_str(), ran.status),
            ("", Some(0)),
            "{}",
            sample.name
        );
        assert_eq!(words(&json(&ran)), report, "{}", sample.name);
        counted += 1;
    }
    assert!(counted >= 2, "only {counted}");
}

#[test]
fn a_list_of_enum_types_is_lent() {
    let top = scratch("report-enums");
    let door = write(&file(
        &[enum_of("Coach.Door")],
        object(1, fixed(15, &[7])),
        vec![],
    ))
    .bytes;
    fs::write(top.join("doors.pak"), pack(&[("door", door)])).expect("a pack");
    fs::write(top.join("enums.txt"), "Coach.Door 1\n").expect("a list");
    let ran = run_in(
        &top,
        &["report", "--json", "doors.pak", "--enums", "enums.txt"],
        &[],
    );
    assert_eq!(json(&ran)["accepted"], 1, "{}", ran.err);
    let ran = run_in(&top, &["report", "--json", "doors.pak"], &[]);
    assert_eq!(json(&ran)["accepted"], 0);
    // Standard input is the list or a pack.
    let ran = run_in(&top, &["report", "-", "--enums", "-"], &[]);
    assert_eq!((ran.out.as_str(), ran.status), ("", Some(2)));
}

#[test]
fn what_cannot_be_read_is_reported_and_listed() {
    let top = season("report-unread");
    let ran = run_in(&top, &["report", "--json", "none.pak", "monday.pak"], &[]);
    assert!(ran.err.starts_with("none.pak: "), "{}", ran.err);
    assert_eq!(ran.status, Some(2));
    let report = json(&ran);
    assert_eq!((&report["packs"], &report["files"]), (&1.into(), &4.into()));
    assert_eq!(report["packsUnread"][0]["file"], "none.pak");
    // A sum is no better than its parts.
    fs::write(top.join("part.json"), &ran.out).expect("a report");
    let ran = run_in(&top, &["report", "sum", "part.json"], &[]);
    assert!(
        ran.out
            .starts_with("2 packs: 1 counted, 0 refused, 1 unread\n"),
        "{}",
        ran.out
    );
    assert!(
        ran.err.starts_with("none.pak: it is not counted: "),
        "{}",
        ran.err
    );
    assert_eq!(ran.status, Some(2));
}

/// Prints a report of each pack to a file.
fn parts(top: &Path) {
    for name in ["monday", "tuesday", "wednesday"] {
        let ran = run_in(top, &["report", "--json", &format!("{name}.pak")], &[]);
        fs::write(top.join(format!("{name}.json")), ran.out).expect("a report");
    }
}

#[test]
fn reports_add_up() {
    let top = season("report-sum");
    parts(&top);
    let whole = ["report", "monday.pak", "tuesday.pak", "wednesday.pak"];
    let sum = [
        "report",
        "sum",
        "monday.json",
        "tuesday.json",
        "wednesday.json",
    ];
    for form in [&[][..], &["--json"], &["--csv"]] {
        let expected = run_in(&top, &[&whole[..], form].concat(), &[]);
        let ran = run_in(&top, &[&sum[..], form].concat(), &[]);
        assert_eq!(reported(&ran), reported(&expected), "{form:?}");
    }
    // Several reports in one input, one behind the other.
    let line = "cat monday.json tuesday.json wednesday.json | asset-builder report sum --json -";
    let expected = run_in(&top, &[&whole[..], &["--json"]].concat(), &[]);
    assert_eq!(reported(&shell(&top, line)), reported(&expected));
    // In another order the figures are the same.
    let turned = run_in(
        &top,
        &["report", "sum", "--json", "tuesday.json", "monday.json"],
        &[],
    );
    assert_eq!(words(&json(&turned)), words(&json(&expected)));
    assert_eq!(turned.status, Some(0));
}

#[test]
fn what_is_no_report_is_reported() {
    let top = season("report-wrong");
    parts(&top);
    let whole = fs::read_to_string(top.join("monday.json")).expect("a report");
    let wrong: [(&str, String); 5] = [
        ("no report is in it", String::new()),
        ("no report: ", "{}".to_string()),
        ("no report: ", whole[..40].to_string()),
        ("no report: ", whole.replace("\"files\":4", "\"files\":-4")),
        (
            "no row is of kind 14",
            whole.replace("\"kind\":13", "\"kind\":14"),
        ),
    ];
    for (why, text) in wrong {
        let ran = run_in(
            &top,
            &["report", "sum", "-", "tuesday.json", "--json"],
            text.as_bytes(),
        );
        assert!(ran.err.starts_with(&format!("-: {why}")), "{}", ran.err);
        assert_eq!(ran.status, Some(2), "{text}");
        assert_eq!(json(&ran)["files"], 3, "the others are added");
    }
    // A figure that is too large leaves its report out.
    let most = whole.replace("\"files\":4", &format!("\"files\":{}", u64::MAX));
    let ran = run_in(
        &top,
        &["report", "sum", "tuesday.json", "-", "--json"],
        most.as_bytes(),
    );
    let line = "-: refused 71 at 0: a figure of the report would pass 2 to the 64 less 1\n";
    assert_eq!((ran.err.as_str(), ran.status), (line, Some(1)));
    assert_eq!(json(&ran)["files"], 3);
}

/// Many processes of GNU parallel, whose reports are added, count what one run counts.
#[test]
fn many_processes_count_what_one_run_counts() {
    let top = season("report-parallel");
    for number in 0..12 {
        let files = [("a", sample("ok-kind-13-string.xnb")), ("b", picture())];
        let name = format!("day {number:02}.pak");
        fs::write(top.join(name), pack(&files[..number % 3])).expect("a pack");
    }
    let one = shell(&top, "asset-builder report --json *.pak");
    let many =
        "printf '%s\\0' *.pak | parallel --will-cite -0 -k -j 3 asset-builder report --json {} \
        | asset-builder report sum --json -";
    let many = shell(&top, many);
    assert_eq!(reported(&many), reported(&one));
    assert_eq!(json(&one)["packs"], 14);
    // In groups of five packs, in any order.
    let groups =
        "printf '%s\\0' *.pak | parallel --will-cite -0 -n 5 -j 3 asset-builder report --json \
        | asset-builder report sum --json -";
    assert_eq!(words(&json(&shell(&top, groups))), words(&json(&one)));
}

#[test]
fn progress_is_shown_by_pack_and_names_are_plain() {
    let top = season("report-terminal");
    fs::write(top.join("day\x1B[2J.pak"), b"\x01").expect("a pack");
    let slow = "sleep 1 | asset-builder report - monday.pak tuesday.pak";
    let shown = on_terminal(&top, slow, &[]);
    assert!(shown.contains(" of 3, "), "{shown:?}");
    for form in [&[][..], &["--json"], &["--csv"]] {
        let ran = run_in(&top, &[&["report", "."][..], form].concat(), &[]);
        assert!(!has_control(&ran.out) && !has_control(&ran.err), "{form:?}");
        assert_eq!(ran.status, Some(1), "{form:?}");
    }
}
