//! Packs to be counted: Req 14.
//!
//! `case(seed)` gives a pack with the report that it must leave, known by how its files are made; `limits()` has files
//! and reports at bounds.

use crate::enums::{bytes_of, damaged, some_enums, Listed};
use crate::maker::{make, Planted, Wish};
use crate::packs::{self, PackKnown};
use crate::random::Random;
use crate::{aimed, blind, Known};
use corpus::packs::{stored, write_pack, Stored, NO_MARK};
use corpus::readers::{list_of, BYTE, STRING};
use corpus::reports::{Report, REPORT_WORDS, ROW_WORDS};
use corpus::values::{byte, file, list, null, object, text, texture};
use corpus::writer::{write, Field, Role, Written, WORDS_PER_ROW};

/// A pack to be added to a report, with so many words lent as pack table and as row table.
#[derive(Clone, Debug)]
pub struct ReportCase {
    pub pack: Vec<u8>,
    pub enums: Vec<u8>,
    pub table: usize,
    pub words: usize,
    pub before: Report,
    /// What every program must answer, if it is known without one.
    pub known: Option<ReportKnown>,
}

#[derive(Clone, Debug, PartialEq, Eq)]
pub enum ReportKnown {
    /// The report that is left.
    Added(Box<Report>),
    Refused {
        number: u32,
        place: usize,
    },
}

/// The case of a seed: packs of lawful, refused and other files, too little room, and reports near their bounds.
pub fn case(seed: u64) -> ReportCase {
    let mut random = Random::new(seed);
    match seed % 8 {
        0 => refused_pack(&mut random),
        1 => without_row_room(&mut random),
        2 => damaged_files(&mut random),
        3 => without_table_room(&mut random),
        _ => counted(&mut random),
    }
}

/// A file and the figures that it adds.
struct Counted {
    data: Vec<u8>,
    figures: Report,
}

/// Adds figures that are far from any bound.
fn add(figures: &mut Report, more: &Report) {
    for (sum, figure) in figures.iter_mut().zip(more) {
        *sum += figure;
    }
}

/// The figures of one file, without those of its values.
fn one_file() -> Report {
    let mut figures = [0; REPORT_WORDS];
    figures[0] = 1;
    figures
}

/// A file that is refused with this number.
fn refused_file(data: Vec<u8>, number: u32) -> Counted {
    let mut figures = one_file();
    figures[4 + number as usize] = 1;
    Counted { data, figures }
}

/// The figures of a lawful file, by what the writer noted.
fn accepted_file(written: Written) -> Counted {
    let mut figures = one_file();
    figures[1] = 1;
    let bytes = |role: Role| {
        let fields = written.fields.iter().filter(|field| field.role == role);
        let counted = |field: &Field| (field.data_end - field.end) as u64;
        fields.map(counted).sum::<u64>()
    };
    figures[2] = bytes(Role::TextCount);
    figures[3] = bytes(Role::LevelSize);
    for row in &written.rows {
        figures[68 + row[0] as usize] += 1;
    }
    let data = written.bytes;
    Counted { data, figures }
}

/// Bytes that do not start with `XNB`.
fn other_file(random: &mut Random) -> Counted {
    let starts: [&[u8]; 8] = [b"", b"X", b"XN", b"xnb", b"XNA", b"XN\0", b" XNB", b"OggS"];
    let mut data = random.pick(&starts).to_vec();
    if data.len() > 2 {
        let count = random.below(30);
        data.extend(random.bytes(count));
    }
    let figures = one_file();
    Counted { data, figures }
}

/// A lawful file, one with a known fault, or another file, under a lawful list.
fn some_file(random: &mut Random, enums: &[Listed]) -> Counted {
    match random.below(10) {
        0..=2 => other_file(random),
        3 => {
            let starts: [&[u8]; 3] = [b"XNB", b"XNBw", b"XNBw\x05\0\x0D\0\0"];
            refused_file(random.pick(&starts).to_vec(), 1)
        }
        4..=5 => loop {
            let case = aimed::aimed_case(random, enums);
            // With more rows 19 would be another answer.
            match case.known {
                Some(Known::Refused { number, .. }) if number != 19 && is_xnb(&case.bytes) => {
                    return refused_file(case.bytes, number);
                }
                _ => {}
            }
        },
        6 => accepted_file(write(&make(random, Planted::Nothing, Wish::MESHES).file)),
        _ => accepted_file(write(&make(random, Planted::Nothing, enums).file)),
    }
}

fn is_xnb(bytes: &[u8]) -> bool {
    bytes.starts_with(b"XNB")
}

/// Some files, and their figures under this list or under a refused one.
fn some_files(random: &mut Random, enums: &[Listed], list_refused: bool) -> (Vec<Stored>, Report) {
    let mut files = Vec::new();
    let mut figures = [0; REPORT_WORDS];
    for number in 0..random.pick(&[0, 1, 1, 2, 3, 5, 9]) {
        let mut counted = some_file(random, enums);
        if list_refused && is_xnb(&counted.data) {
            counted = refused_file(counted.data, 32);
        }
        add(&mut figures, &counted.figures);
        files.push(stored(format!("file {number}"), counted.data));
    }
    (files, figures)
}

/// A pack whose figures are known, added to a report that has room for them or not.
fn counted(random: &mut Random) -> ReportCase {
    let enums = some_enums(random);
    let list_refused = random.chance(20);
    let (files, figures) = some_files(random, &enums, list_refused);
    let mut lent = bytes_of(&enums);
    if list_refused {
        lent = damaged(random, &enums).bytes;
    }
    let before = some_report(random, &figures);
    ReportCase {
        pack: write_pack(NO_MARK, &files).bytes,
        enums: lent,
        table: 4 * files.len() + random.below(9),
        words: ROW_WORDS + random.pick(&[0, 0, 1, 6, 7, 100]),
        before,
        known: Some(after(&before, &figures)),
    }
}

/// The report that these figures leave, or 71.
fn after(before: &Report, figures: &Report) -> ReportKnown {
    let mut report = *before;
    for (sum, figure) in report.iter_mut().zip(figures) {
        // In numbers so wide that no sum overflows.
        let wide = u128::from(*sum) + u128::from(*figure);
        match u64::try_from(wide) {
            Ok(exact) => *sum = exact,
            Err(_) => {
                let (number, place) = (71, 0);
                return ReportKnown::Refused { number, place };
            }
        }
    }
    ReportKnown::Added(Box::new(report))
}

/// A report of zeros, of any figures, or of one with just room enough or with one too little.
fn some_report(random: &mut Random, figures: &Report) -> Report {
    let mut report = [0; REPORT_WORDS];
    match random.below(4) {
        0 => {}
        1 => report.fill_with(|| random.number() >> 2),
        _ => {
            report.fill_with(|| random.number() >> 2);
            let used: Vec<usize> = (0..REPORT_WORDS).filter(|it| figures[*it] > 0).collect();
            for _ in 0..random.below(3) {
                if !used.is_empty() {
                    let word = random.pick(&used);
                    let excess = random.pick(&[0, 0, 1]);
                    report[word] = u64::MAX - figures[word] + excess;
                }
            }
            // A figure that nothing is added to may be as large as can be.
            let unused: Vec<usize> = (0..REPORT_WORDS).filter(|it| figures[*it] == 0).collect();
            report[random.pick(&unused)] = u64::MAX;
        }
    }
    report
}

/// A refusal of the pack's reader, 31 among them.
fn refused_pack(random: &mut Random) -> ReportCase {
    loop {
        let pack = packs::case(NO_MARK, random.number());
        if let Some(PackKnown::Refused { number, place }) = pack.known {
            return ReportCase {
                pack: pack.bytes,
                enums: some_list(random),
                table: pack.words,
                words: ROW_WORDS,
                before: some_report(random, &one_file()),
                known: Some(ReportKnown::Refused { number, place }),
            };
        }
    }
}

/// A list, lawful or not.
fn some_list(random: &mut Random) -> Vec<u8> {
    let enums = some_enums(random);
    match random.below(3) {
        0 => vec![],
        1 => bytes_of(&enums),
        _ => damaged(random, &enums).bytes,
    }
}

/// 72 before all else.
fn without_row_room(random: &mut Random) -> ReportCase {
    let mut case = if random.chance(50) {
        counted(random)
    } else {
        refused_pack(random)
    };
    case.words = random.pick(&[0, 6, 7, WORDS_PER_ROW * 1024, ROW_WORDS - 1]);
    let (number, place) = (72, 0);
    case.known = Some(ReportKnown::Refused { number, place });
    case
}

/// 31 at the first file that has no entry, before 71.
fn without_table_room(random: &mut Random) -> ReportCase {
    let enums = some_enums(random);
    let (mut files, _) = some_files(random, &enums, false);
    files.push(stored("last", b"XNB".to_vec()));
    let room = random.below(files.len());
    let written = write_pack(NO_MARK, &files);
    let place = written.places[room].start;
    ReportCase {
        pack: written.bytes,
        enums: bytes_of(&enums),
        table: 4 * room + random.below(4),
        words: ROW_WORDS,
        before: [u64::MAX; REPORT_WORDS],
        known: Some(ReportKnown::Refused { number: 31, place }),
    }
}

/// Files that are damaged at random, whose figures are not foretold.
fn damaged_files(random: &mut Random) -> ReportCase {
    let enums = some_enums(random);
    let mut files = Vec::new();
    for number in 0..1 + random.below(6) {
        let written = write(&make(random, Planted::Nothing, &enums).file);
        let data = blind::damaged(random, &written);
        files.push(stored(format!("file {number}"), data));
    }
    ReportCase {
        pack: write_pack(NO_MARK, &files).bytes,
        enums: some_list(random),
        table: 4 * files.len(),
        words: ROW_WORDS,
        before: some_report(random, &one_file()),
        known: None,
    }
}

/// A case with a name.
pub struct ReportLimit {
    pub name: String,
    pub case: ReportCase,
}

/// Packs of no file and of the most files, files of the most rows and one more, and each figure at its bound.
pub fn limits() -> Vec<ReportLimit> {
    let mut limits = Vec::new();
    for count in [0, 1, 2, 4095, 4096] {
        let text = || accepted_file(write(&file(&[STRING], object(1, text("Hi")), vec![])));
        let files = (0..count).map(|_| text()).collect();
        limits.push(limit(format!("{count} files"), files, [0; REPORT_WORDS]));
    }
    for count in [65_534, 65_535, 65_536, 65_537] {
        let bytes = object(1, list(vec![byte(7); count]));
        let written = write(&file(&[list_of("System.Byte")], bytes, vec![]));
        let counted = if count > 65_535 {
            refused_file(written.bytes, 19)
        } else {
            accepted_file(written)
        };
        let name = format!("a file of {} rows", count + 1);
        limits.push(limit(name, vec![counted], [0; REPORT_WORDS]));
    }
    limits.extend(each_figure());
    limits
}

/// Files with many figures.
fn rich() -> Vec<Counted> {
    let picture = object(1, texture(0, 5, 3, 3));
    let pictures = file(
        &[corpus::readers::TEXTURE2D, STRING, BYTE],
        picture,
        vec![
            object(2, text("größer")),
            object(2, text(&"x".repeat(200))),
            object(3, byte(1)),
            null(),
        ],
    );
    vec![
        accepted_file(write(&pictures)),
        refused_file(b"XNB".to_vec(), 1),
        refused_file(b"XNBy\x05\0\x0D\0\0\0\0\0\0".to_vec(), 3),
        Counted {
            data: b"notes".to_vec(),
            figures: one_file(),
        },
    ]
}

/// A report in which one figure has just room enough, or one too little; those that nothing is added to are largest.
fn each_figure() -> Vec<ReportLimit> {
    let mut figures = [0; REPORT_WORDS];
    for counted in rich() {
        add(&mut figures, &counted.figures);
    }
    let mut limits = Vec::new();
    for word in 0..REPORT_WORDS {
        for excess in [0, 1] {
            let mut before = [0; REPORT_WORDS];
            before[word] = u64::MAX - figures[word];
            if figures[word] > 0 {
                before[word] += excess;
            }
            let name = format!("word {word} with room less {excess}");
            limits.push(limit(name, rich(), before));
        }
    }
    limits
}

fn limit(name: impl Into<String>, files: Vec<Counted>, before: Report) -> ReportLimit {
    let mut figures = [0; REPORT_WORDS];
    let mut pack = Vec::new();
    for (number, counted) in files.into_iter().enumerate() {
        add(&mut figures, &counted.figures);
        pack.push(stored(format!("file {number}"), counted.data));
    }
    ReportLimit {
        name: name.into(),
        case: ReportCase {
            table: 4 * pack.len(),
            pack: write_pack(NO_MARK, &pack).bytes,
            enums: vec![],
            words: ROW_WORDS,
            before,
            known: Some(after(&before, &figures)),
        },
    }
}
