//! Text lists through the second program: the samples, and the words of Req 13 one by one.

use corpus::folder::{kept_files, kept_files_with_enums};
use corpus::xml::kept_samples;
use corpus::Sample;
use second::xml::{export, import};
use second::{load, refusal_line, Refusal, LONGEST_INPUT, WORDS_PER_ROW};

/// Room for 1,024 rows.
const WORDS: usize = 1024 * WORDS_PER_ROW;

/// What the export answers with so many bytes of output: the output, and the words.
fn exported(file: &Sample, bytes: usize) -> (Result<usize, Refusal>, Vec<u8>, Vec<u32>) {
    let (mut out, mut words) = (vec![0xEE; bytes], vec![7; WORDS]);
    let answer = export(&file.bytes, &file.enums, &mut words, &mut out);
    (answer, out, words)
}

/// An answer as it is kept: what was written, or the refusal's line.
fn kept_form(answer: Result<usize, Refusal>, out: &[u8]) -> Vec<u8> {
    match answer {
        Ok(length) => out[..length].to_vec(),
        Err(refusal) => refusal_line(refusal).into_bytes(),
    }
}

#[test]
fn kept_files_give_their_exports() {
    let mut reported = 0;
    for file in kept_files() {
        let Some(expected) = &file.export else {
            continue;
        };
        let (answer, out, words) = exported(&file, 1000);
        assert_eq!(kept_form(answer, &out), *expected, "{}", file.name);
        let untouched = &out[answer.unwrap_or(0)..];
        assert!(untouched.iter().all(|&byte| byte == 0xEE), "{}", file.name);
        // The table is that of a load, but zero after 61 to 63.
        let mut loaded = vec![7; WORDS];
        load(&file.bytes, &file.enums, &mut loaded).expect("these are accepted");
        if answer.is_err() {
            loaded.fill(0);
        }
        assert!(words == loaded, "{}", file.name);
        reported += 1;
    }
    assert!(reported >= 16, "only {reported}");
}

/// "Refusals: those of 01", and 32; a longer file than `rows` takes is no refusal of a load.
#[test]
fn refused_files_give_the_refusal_of_their_load() {
    let mut refused = 0;
    let files = kept_files().into_iter().chain(kept_files_with_enums());
    let files = files.filter(|file| file.bytes.len() <= LONGEST_INPUT);
    for file in files.filter(|file| file.rows.starts_with("refused ")) {
        let (answer, out, words) = exported(&file, 100);
        let expected = file.rows.clone().into_bytes();
        assert_eq!(kept_form(answer, &out), expected, "{}", file.name);
        assert!(out == [0xEE; 100] && words == [0; WORDS], "{}", file.name);
        refused += 1;
    }
    assert!(refused > 300, "only {refused}");
}

#[test]
fn kept_xml_gives_its_file_or_refusal() {
    for sample in kept_samples() {
        let mut out = [0xEE; 400];
        let answer = import(&sample.xml, &mut out);
        assert_eq!(kept_form(answer, &out), sample.answer, "{}", sample.name);
        let untouched = &out[answer.unwrap_or(0)..];
        assert!(
            untouched.iter().all(|&byte| byte == 0xEE),
            "{}",
            sample.name
        );
    }
}

/// "Export then import keeps the texts and their order"; a file in the import's own form comes back byte for byte.
#[test]
fn kept_exports_come_back() {
    let mut same = Vec::new();
    for file in kept_files() {
        let Some(xml) = file.export.filter(|it| !it.starts_with(b"refused ")) else {
            continue;
        };
        let mut out = vec![0; 400];
        let length = import(&xml, &mut out).expect("an export is taken");
        if out[..length] == file.bytes {
            same.push(file.name.clone());
        }
        let (mut again, mut words) = (vec![0; 400], vec![0; WORDS]);
        let again_length = export(&out[..length], &[], &mut words, &mut again);
        assert_eq!(again_length, Ok(xml.len()), "{}", file.name);
        assert_eq!(again[..xml.len()], xml, "{}", file.name);
    }
    let own_form = ["ok-texts-characters", "ok-texts-entities", "ok-texts-none"];
    assert_eq!(same, own_form);
}

/// 21 comes last, with the bytes needed; the table is zero after it too.
#[test]
fn outputs_that_are_too_small() {
    let files = kept_files();
    let file = files.iter().find(|file| file.name == "ok-texts-entities");
    let file = file.expect("it is kept");
    let xml = file.export.as_ref().expect("it has its export");
    let refused = |place| Err(Refusal { number: 21, place });
    for bytes in 0..xml.len() {
        let (answer, out, words) = exported(file, bytes);
        assert_eq!(answer, refused(xml.len()));
        assert!(out.iter().all(|&byte| byte == 0xEE) && words == [0; WORDS]);
    }
    assert_eq!(exported(file, xml.len()).0, Ok(xml.len()));
    for bytes in 0..file.bytes.len() {
        let mut out = vec![0xEE; bytes];
        assert_eq!(import(xml, &mut out), refused(file.bytes.len()));
        assert!(out.iter().all(|&byte| byte == 0xEE));
    }
}
