//! Help, versions, wrong commands, completion and the manual page.

mod common;

use common::{run, shell};
use corpus::folder::folder;

const COMMANDS: [&str; 15] = [
    "check",
    "rows",
    "tree",
    "shorten",
    "retype",
    "export",
    "import",
    "image",
    "pack",
    "mark",
    "unmark",
    "salvage",
    "report",
    "completions",
    "man",
];
/// The commands below `pack`.
const OF_PACKS: [&str; 3] = ["list", "find", "extract"];

#[test]
fn every_command_has_help_and_a_version() {
    let help = run(&["--help"]);
    assert_eq!((help.status, help.err.as_str()), (Some(0), ""));
    assert!(help.out.contains("Exit status: 0 "), "{}", help.out);
    assert_eq!(run(&["--version"]).out, "asset-builder 0.1.0\n");
    for command in COMMANDS {
        assert!(
            help.out.contains(&format!("\n  {command} ")),
            "{}",
            help.out
        );
        for words in [[command, "--help"], [command, "-h"], ["help", command]] {
            let ran = run(&words);
            assert_eq!((ran.status, ran.err.as_str()), (Some(0), ""), "{words:?}");
            let usage = format!("Usage: asset-builder {command}");
            assert!(ran.out.contains(&usage), "{words:?}: {}", ran.out);
        }
        for flag in ["--version", "-V"] {
            let ran = run(&[command, flag]);
            assert_eq!((ran.status, ran.err.as_str()), (Some(0), ""));
            assert!(ran.out.ends_with(" 0.1.0\n"), "{}", ran.out);
        }
    }
    let rows = run(&["rows", "--help"]).out;
    assert!(rows.contains("The program `rows` differs"), "{rows}");
    let pack = run(&["pack", "--help"]).out;
    for command in OF_PACKS {
        assert!(pack.contains(&format!("\n  {command} ")), "{pack}");
        for words in [["pack", command, "--help"], ["help", "pack", command]] {
            let ran = run(&words);
            assert_eq!((ran.status, ran.err.as_str()), (Some(0), ""), "{words:?}");
            let usage = format!("Usage: asset-builder pack {command}");
            assert!(ran.out.contains(&usage), "{words:?}: {}", ran.out);
        }
    }
}

#[test]
fn wrong_commands_are_reported() {
    let sample = "ok-kind-13-string.xnb";
    let pack = "ok-pack-of-one-file.pak";
    let wrong: [(&[&str], &str); 36] = [
        (&[], "Usage: asset-builder [OPTIONS] <COMMAND>"),
        (&["build", sample], "'build'"),
        (&["check"], "<FILE>"),
        (&["rows"], "<FILE>"),
        (&["tree"], "<FILE>"),
        (&["check", "--colour", sample], "'--colour'"),
        (&["rows", "-x", sample], "'-x'"),
        (&["check", "--rows", sample], "'ok-kind-13-string.xnb'"),
        (&["shorten", sample], "--output <OUT>"),
        (
            &["shorten", sample, "-o", "out", "-i"],
            "cannot be used with",
        ),
        (&["completions", "dos"], "'dos'"),
        (&["pack"], "Usage: asset-builder pack [OPTIONS] <COMMAND>"),
        (&["pack", "show", pack], "'show'"),
        (&["pack", "list"], "<PACK>"),
        (&["pack", "find", pack], "<PATH>"),
        (&["pack", "extract", pack], "--output <FOLDER>"),
        (
            &["pack", "extract", pack, pack, "-o", "out"],
            "'ok-pack-of-one-file.pak'",
        ),
        (
            &["retype", "-", "--row", "0", "--text", "a"],
            "--output <OUT>",
        ),
        (
            &["retype", "-", "--row", "-1", "--text", "a", "-o", "-"],
            "'-1'",
        ),
        (&["retype", "-", "--row", "0", "-o", "-"], "--text <T>"),
        (&["export", sample], "--output <OUT.xml>"),
        (
            &["export", sample, sample, "-o", "-"],
            "'ok-kind-13-string.xnb'",
        ),
        (&["import", "-"], "--output <OUT.xnb>"),
        (&["import", "-o", "-"], "<IN.xml>"),
        (&["image", sample], "--output <OUT.png|FOLDER>"),
        (&["image", "--level", "one", sample, "-o", "-"], "'one'"),
        (&["report"], "<PACK>"),
        (&["report", "--json", "--csv", pack], "cannot be used with"),
        (&["report", "sum"], "<REPORT.json>"),
        (&["report", "sum", "--enums", "a", "b"], "'--enums'"),
        (&["mark", pack], "--output <OUT>"),
        (&["unmark", "-o", "out"], "<IN>"),
        (&["salvage", pack], "--output <OUT>"),
        (&["salvage", "--list"], "<IN>"),
        (&["salvage", pack, "-o"], "'--output <OUT>'"),
        (
            &["mark", pack, pack, "-o", "out"],
            "'ok-pack-of-one-file.pak'",
        ),
    ];
    for (words, named) in wrong {
        let ran = run(words);
        assert_eq!((ran.status, ran.out.as_str()), (Some(2), ""), "{words:?}");
        assert!(ran.err.contains(named), "{words:?}: {}", ran.err);
    }
}

#[test]
fn shells_complete_commands_and_flags() {
    for name in ["bash", "elvish", "fish", "powershell", "zsh"] {
        let ran = run(&["completions", name]);
        assert_eq!((ran.status, ran.err.as_str()), (Some(0), ""), "{name}");
        for word in ["shorten", "in-place", "json", "extract"] {
            assert!(ran.out.contains(word), "{name}: {word}");
        }
    }
    // What bash offers behind `asset-builder sh`, `asset-builder check --` and `asset-builder pack ex`.
    let line = "source <(asset-builder completions bash)
        COMP_WORDS=(asset-builder sh) COMP_CWORD=1; _asset-builder asset-builder sh asset-builder
        echo ${COMPREPLY[@]}
        COMP_WORDS=(asset-builder check --) COMP_CWORD=2; _asset-builder asset-builder -- check
        echo ${COMPREPLY[@]}
        COMP_WORDS=(asset-builder pack ex) COMP_CWORD=2; _asset-builder asset-builder ex pack
        echo ${COMPREPLY[@]}";
    let ran = shell(&folder(), line);
    assert_eq!(ran.err, "");
    let lines: Vec<&str> = ran.out.lines().collect();
    assert_eq!(lines[0], "shorten");
    for flag in ["--rows", "--enums", "--by-padding", "--json", "--help"] {
        assert!(lines[1].contains(flag), "{}", lines[1]);
    }
    assert_eq!(lines[2], "extract");
}

/// The page says what the help says: every command, every flag, every sentence.
#[test]
fn the_manual_page_says_what_the_help_says() {
    let ran = run(&["man"]);
    assert_eq!((ran.status, ran.err.as_str()), (Some(0), ""));
    let page = ran
        .out
        .replace("\\-", "-")
        .replace("\\fB", "")
        .replace("\\fI", "")
        .replace("\\fR", "")
        .replace("\\e", "\\");
    assert!(page.starts_with(".TH ASSET-BUILDER 1 "), "{page}");
    for heading in ["NAME", "SYNOPSIS", "OPTIONS", "COMMANDS", "\"EXIT STATUS\""] {
        assert!(page.contains(&format!("\n.SH {heading}\n")), "{heading}");
    }
    let of_packs = OF_PACKS.map(|command| format!("pack {command}"));
    let commands = COMMANDS.iter().map(|command| command.to_string());
    let of_reports = ["report sum".to_string()];
    for command in commands.chain(of_packs).chain(of_reports) {
        assert!(page.contains(&format!("\n.SS {command}\n")), "{command}");
        let words: Vec<&str> = command.split(' ').chain(["--help"]).collect();
        let help = run(&words).out;
        let (about, options) = help.split_once("\nUsage: ").expect("a usage");
        for line in about.lines().filter(|line| !line.is_empty()) {
            assert!(page.contains(line), "{command}: {line}");
        }
        for flag in options
            .split_whitespace()
            .filter(|word| word.starts_with("--"))
        {
            assert!(page.contains(flag), "{command}: {flag}");
        }
    }
    // No line is taken for a request of troff's but those that begin with one of ours.
    for line in ran.out.lines().filter(|line| line.starts_with(['.', '\''])) {
        let request = line.split(' ').next().expect("a word");
        assert!(
            [".TH", ".SH", ".SS", ".B", ".PP", ".TP", ".br"].contains(&request),
            "{line}"
        );
    }
}
