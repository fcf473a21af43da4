//! How much is printed and how, what a shell completes, and packs of either form.

mod common;

use common::{has_control, on_terminal, run, run_in, sample, scratch, shell};
use corpus::folder::folder;
use std::fs;

const PADDED: &str = "ok-text-count-in-2-bytes.xnb";
const MARKED: &str = "ok-marked-mixed-case.marked";

#[test]
fn quiet_prints_refusals_and_failures_only() {
    let top = scratch("quiet");
    fs::write(top.join("in.xnb"), sample(PADDED)).expect("a file");
    fs::write(top.join("bad.xnb"), sample("bad-06-flags.xnb")).expect("a file");
    fs::write(top.join("in.pak"), sample("ok-pack-mixed-case.pak")).expect("a pack");
    fs::write(top.join("in.marked"), sample(MARKED)).expect("a pack");
    for words in [
        "check in.xnb",
        "shorten in.xnb -o out",
        "mark in.pak -o new",
        "unmark in.marked -o old",
        "salvage in.marked -o saved",
        "pack find in.marked 'fonts\\doors' -o data",
    ] {
        for quiet in ["-q", "--quiet"] {
            let line = format!("asset-builder {words} {quiet}; rm -f out new old saved data");
            let ran = shell(&top, &line);
            let reported = (ran.out.as_str(), ran.err.as_str(), ran.status);
            assert_eq!(reported, ("", "", Some(0)), "{words}");
        }
    }
    let ran = run_in(&top, &["-q", "check", "in.xnb", "bad.xnb"], &[]);
    assert!(
        ran.out.starts_with("bad.xnb: refused 6 at 5: "),
        "{}",
        ran.out
    );
    assert_eq!((ran.err.as_str(), ran.status), ("", Some(1)));
    // What is asked for is printed.
    assert_eq!(
        run_in(&top, &["-q", "rows", "in.xnb"], &[])
            .out
            .lines()
            .count(),
        2
    );
    assert_eq!(
        run_in(&top, &["-q", "pack", "list", "in.pak"], &[])
            .out
            .lines()
            .count(),
        3
    );
}

#[test]
fn verbose_says_what_is_read_and_written() {
    let top = scratch("verbose");
    fs::write(top.join("in.xnb"), sample(PADDED)).expect("a file");
    let ran = run_in(&top, &["-v", "shorten", "in.xnb", "-o", "out"], &[]);
    assert_eq!(ran.err, "in.xnb: 66 bytes read\nout: written\n");
    assert_eq!(
        (ran.out.as_str(), ran.status),
        ("in.xnb: 66 bytes, now 65\n", Some(0))
    );
    let ran = run(&["-q", "-v", "check", PADDED]);
    assert_eq!(ran.status, Some(2), "{}", ran.err);
}

#[test]
fn colours_are_as_asked_for() {
    const RED: &str = "\u{1B}[1;31mrefused 6 at 5\u{1B}[0m";
    let line = "asset-builder check bad-06-flags.xnb";
    let always = shell(&folder(), &format!("NO_COLOR=1 {line} --color always"));
    assert!(always.out.contains(RED), "{}", always.out);
    let never = on_terminal(&folder(), &format!("{line} --color never"), &[]);
    assert!(!never.contains('\u{1B}'), "{never}");
    let auto = shell(&folder(), &format!("{line} --color=auto"));
    assert!(!has_control(&auto.out), "{}", auto.out);
}

#[test]
fn marked_packs_are_read_and_said_to_be_marked() {
    let top = scratch("marked");
    fs::write(top.join("in.marked"), sample(MARKED)).expect("a pack");
    let files = "         3 Fonts\\Door\n         3 fonts\\door\n         5 FONTS\\DOORS\n";
    let plain = run(&["pack", "list", "ok-pack-mixed-case.pak"]);
    assert_eq!(plain.out, files);
    for flags in [&[][..], &["--marked"]] {
        let ran = run_in(&top, &[&["pack", "list", "in.marked"], flags].concat(), &[]);
        assert_eq!(
            (ran.out, ran.status),
            (format!("marked pack\n{files}"), Some(0))
        );
        let words = ["pack", "find", "in.marked", "fonts\\doors"];
        let ran = run_in(&top, &[&words, flags].concat(), &[]);
        let note = "in.marked: a marked pack\n";
        assert_eq!(
            (ran.out.as_str(), ran.err.as_str(), ran.status),
            ("three", note, Some(0))
        );
        let words = ["pack", "extract", "in.marked", "-f", "-o", "out"];
        let ran = run_in(&top, &[&words, flags].concat(), &[]);
        assert!(ran.err.starts_with(note), "{}", ran.err);
        assert_eq!(
            fs::read(top.join("out/FONTS/DOORS")).expect("a file"),
            b"three"
        );
    }
    let ran = run_in(
        &top,
        &["pack", "list", "--marked", "-"],
        &sample("ok-pack-mixed-case.pak"),
    );
    assert!(ran.err.starts_with("-: refused 51 at 4: "), "{}", ran.err);
    // A damaged pack is refused as the form that its first record has.
    let damaged = sample(MARKED);
    let ran = run_in(&top, &["pack", "list", "-"], &damaged[..damaged.len() - 1]);
    let why = "file 3 of 3, FONTS\\DOORS: its data has 5 bytes, the pack only 4 more\n";
    assert!(ran.err.contains(why), "{}", ran.err);
}

#[test]
fn texts_are_shown_as_they_are_written() {
    use corpus::readers::STRING;
    use corpus::values::{file, object, text};
    let top = scratch("texts");
    for title in [
        "สถานีถัดไป",
        "שָׁלוֹם",
        "हिन्दी",
        "cafe\u{301}",
        "می\u{200C}خواهم",
    ] {
        let written = corpus::writer::write(&file(&[STRING], object(1, text(title)), vec![]));
        let ran = run_in(&top, &["tree", "-"], &written.bytes);
        assert_eq!(ran.out, format!("primary: String \"{title}\"\n"));
        let ran = run_in(&top, &["tree", "--json", "-"], &written.bytes);
        let tree: serde_json::Value = serde_json::from_str(&ran.out).expect("JSON");
        assert_eq!(tree["objects"][0]["value"], title);
    }
    let moving = "a\u{202E}b\u{2028}\u{85}\u{1B}[2J\n";
    let written = corpus::writer::write(&file(&[STRING], object(1, text(moving)), vec![]));
    let ran = run_in(&top, &["tree", "-"], &written.bytes);
    let shown = r#""a\u{202e}b\u{2028}\u{85}\u{1b}[2J\n""#;
    assert_eq!(ran.out, format!("primary: String {shown}\n"));
}

/// Bash offers names of files where its function offers nothing, by the option `default`.
#[test]
fn bash_completes_names_of_files() {
    let offered = |words: &str, word: usize| {
        let line = format!(
            "source <(asset-builder completions bash); COMP_WORDS=(asset-builder {words}); \
            COMP_CWORD={word}; _asset-builder asset-builder; echo \"${{COMPREPLY[@]}}\"; \
            complete -p asset-builder"
        );
        let ran = shell(&folder(), &line);
        assert_eq!(ran.err, "", "{words}");
        let (offered, option) = ran.out.split_once('\n').expect("two lines");
        assert!(option.contains("-o default"), "{option}");
        offered.to_string()
    };
    for (words, word) in [
        ("check ''", 2),
        ("check ok-kind", 2),
        ("check a.xnb ''", 3),
        ("pack list ''", 3),
        ("pack find a", 3),
        ("mark ''", 2),
        ("salvage x", 2),
    ] {
        assert_eq!(offered(words, word), "", "{words}");
    }
    assert_eq!(offered("che", 1), "check");
    let flags = offered("check --", 2);
    assert!(
        flags.contains("--by-padding") && !flags.contains('<'),
        "{flags}"
    );
    assert_eq!(offered("completions ba", 2), "bash");
}
