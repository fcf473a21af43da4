//! Req 12: two files that differ inside valid texts alone are answered alike, and each of its hypotheses is needed.

use fuzz::random::Random;
use fuzz::retyped::{case, no_text, retyped, TextCase};
use std::collections::BTreeMap;
use std::ops::Range;
use xnb::raw::{self, LoadAnswer};
use xnb::{Kind, Shape, MOST_ROWS, WORDS_PER_ROW};

const PAIRS: usize = 20_000;
/// How many pairs break each hypothesis.
const BROKEN: usize = 4_000;
const SHAPES: [Shape; 2] = [Shape::Rows, Shape::Columns];
/// A text that is refused.
const BAD_VALUE: u64 = 15;

/// What a load answers, and the words that it leaves.
type Loaded = (LoadAnswer, Vec<u32>);

/// All that the library answers of a file, but for the bytes that it gives back.
#[derive(Debug, PartialEq)]
struct Answers {
    /// By rows and in columns.
    loads: [Loaded; 2],
    /// The asset builder's number, which is for an empty list.
    builder: Option<u64>,
    /// The answers of rewrites to outputs of different lengths, and the words that they leave.
    rewrites: Vec<(u64, Vec<u32>)>,
    /// The lookups of each row.
    rows: Vec<Found>,
}

/// Where the part and the text of a row stand, and its numbers.
#[derive(Debug, PartialEq)]
struct Found {
    part: (u32, usize, usize),
    text: (u32, usize, usize),
    signed: (u32, i64),
    time: (u32, i64, u32),
    next: u32,
}

fn load(shape: Shape, file: &[u8], enums: &[u8], words: usize) -> Loaded {
    let mut words = vec![0xAAAA_AAAA; words];
    let answer = raw::load_table(shape, file, enums, &mut words);
    (answer, words)
}

/// The number of rows of an accepted file, else 0.
fn rows_of(answer: LoadAnswer) -> u32 {
    match answer.packed >> 32 {
        0 => answer.packed as u32,
        _ => 0,
    }
}

/// The bytes that a rewrite needs, if the file is accepted.
fn needed(file: &[u8], enums: &[u8], words: usize) -> Option<usize> {
    let answer = raw::rewrite(file, enums, &mut vec![0; words], &mut []);
    (answer >> 32 == 21).then_some(answer as u32 as usize)
}

fn rewrite(file: &[u8], enums: &[u8], words: usize, out: usize) -> (u64, Vec<u32>) {
    let mut words = vec![0x5555_5555; words];
    let answer = raw::rewrite(file, enums, &mut words, &mut vec![0; out]);
    (answer, words)
}

fn reported(file: &[u8], enums: &[u8], words: usize) -> Answers {
    let loads = SHAPES.map(|shape| load(shape, file, enums, words));
    let mut outs = vec![0, file.len()];
    if let Some(needed) = needed(file, enums, words) {
        outs.extend([needed - 1, needed, needed + 1]);
    }
    let rewrites = outs.iter().map(|out| rewrite(file, enums, words, *out));
    let rewrites = rewrites.collect();
    let mut rows = Vec::new();
    for (shape, (answer, words)) in SHAPES.into_iter().zip(&loads) {
        rows.extend((0..=rows_of(*answer)).map(|row| Found {
            part: raw::part(shape, file, words, row),
            text: raw::text(shape, file, words, row),
            signed: raw::signed(shape, file, words, row),
            time: raw::time(shape, file, words, row),
            next: raw::next(shape, words, row),
        }));
    }
    Answers {
        loads,
        builder: enums.is_empty().then(|| raw::load(file)),
        rewrites,
        rows,
    }
}

fn reported_of(case: &TextCase, file: &[u8]) -> Answers {
    reported(file, &case.enums, case.words)
}

/// "Each other row's part has the same bytes except where it encloses such a text."
fn check_parts(name: &str, case: &TextCase, new: &[u8], reported: &Answers) {
    let parts = reported.rows.iter().filter(|row| row.part.0 == 0);
    for (_, first, length) in parts.map(|row| row.part) {
        let part = first..first + length;
        let meets = |text: &&Range<usize>| text.start < part.end && part.start < text.end;
        let mut met = case.texts.iter().filter(meets).peekable();
        if met.peek().is_none() {
            assert_eq!(case.bytes[part.clone()], new[part.clone()], "{name}");
        }
        for text in met {
            let encloses = part.start < text.start && text.end <= part.end;
            assert!(encloses, "{name}: {part:?} cuts the text {text:?}");
        }
    }
}

/// Every String row of an accepted file is among the texts, so nothing is left out.
fn check_strings(name: &str, case: &TextCase) {
    let (answer, words) = load(Shape::Rows, &case.bytes, &case.enums, case.words);
    let is_string = |row: &u32| words[WORDS_PER_ROW * *row as usize] == Kind::String.number();
    let strings = (0..rows_of(answer)).filter(is_string);
    let texts = strings.map(|row| {
        let (refusal, first, length) = raw::text(Shape::Rows, &case.bytes, &words, row);
        assert_eq!(refusal, 0, "{name}: row {row}");
        first..first + length
    });
    assert!(texts.eq(case.texts.iter().cloned()), "{name}");
}

/// Cases with a text that has a byte, each with its name and with numbers for more choices.
fn cases() -> impl Iterator<Item = (String, TextCase, Random)> {
    let named = |seed: u64| (format!("seed {seed}"), case(seed), Random::new(!seed));
    let has_text = |case: &TextCase| case.texts.iter().any(|text| !text.is_empty());
    (0..).map(named).filter(move |(_, case, _)| has_text(case))
}

/// The pairs whose bytes differ.
fn pairs() -> impl Iterator<Item = (String, TextCase, Vec<u8>)> {
    let paired = |(name, case, mut random): (String, TextCase, Random)| {
        let new = retyped(&mut random, &case.bytes, &case.texts);
        (name, case, new)
    };
    let differs = |(_, case, new): &(String, TextCase, Vec<u8>)| case.bytes != *new;
    cases().map(paired).filter(differs)
}

#[test]
fn retyped_files_are_answered_alike() {
    // How many pairs were accepted, and how many refused with each number.
    let mut answers: BTreeMap<u64, u32> = BTreeMap::new();
    let (mut strings, mut enclosing) = (0, 0);
    for (name, case, new) in pairs().take(PAIRS) {
        let old = reported_of(&case, &case.bytes);
        assert!(reported_of(&case, &new) == old, "{name}");
        check_parts(&name, &case, &new, &old);
        let packed = old.loads[0].0.packed;
        *answers.entry(packed >> 32).or_default() += 1;
        if packed >> 32 == 0 && case.all_texts {
            check_strings(&name, &case);
            strings += case.texts.len();
            enclosing += old.rows.len() / 2 - 1;
        }
    }
    println!("{answers:?}, {strings} texts in {enclosing} rows");
    for number in [0, 1, 8, 13, 14, 15, 16, 17, 18, 19, 20, 22, 32] {
        let count = answers.get(&number).copied().unwrap_or(0);
        assert!(count >= 30, "{number} occurs {count} times");
    }
    assert!(answers[&0] > 5_000 && strings > 20_000, "{answers:?}");
}

/// Under a list that 32 refuses, any two files of any bytes are answered alike.
#[test]
fn under_a_refused_list_any_two_files_are_answered_alike() {
    let mut random = Random::new(12);
    let refused = (0..).map(case).filter(|case| {
        let (answer, _) = load(Shape::Rows, &case.bytes, &case.enums, 0);
        answer.packed >> 32 == 32
    });
    for one in refused.take(500) {
        let length = random.below(200);
        for other in [random.bytes(length), case(random.number()).bytes] {
            let words = one.words;
            let [old, new] = [&one.bytes, &other].map(|file| {
                let loads = SHAPES.map(|shape| load(shape, file, &one.enums, words));
                (loads, rewrite(file, &one.enums, words, 0))
            });
            assert_eq!(old, new);
        }
    }
}

/// What one file gives, and what the other does, a hypothesis being broken: answers, rows in use and rewritten lengths.
type Outcome = (LoadAnswer, Vec<u32>, Option<usize>);

fn outcome(file: &[u8], enums: &[u8], words: usize) -> Outcome {
    let (answer, mut left) = load(Shape::Rows, file, enums, words);
    left.truncate(WORDS_PER_ROW * rows_of(answer) as usize);
    (answer, left, needed(file, enums, words))
}

/// Changes the second file of a pair, its list or its words.
type Break = fn(&mut Random, &mut TextCase);

/// How many of the pairs differ.
fn differing(broken: Break) -> usize {
    let pair = |(_, case, mut random): (String, TextCase, Random)| {
        let mut new = case.clone();
        new.bytes = retyped(&mut random, &case.bytes, &case.texts);
        broken(&mut random, &mut new);
        let [old, new] = [case, new].map(|case| outcome(&case.bytes, &case.enums, case.words));
        usize::from(old != new)
    };
    cases().take(BROKEN).map(pair).sum()
}

/// A text with a byte.
fn some_text(random: &mut Random, case: &TextCase) -> Range<usize> {
    let texts: Vec<_> = case.texts.iter().filter(|text| !text.is_empty()).collect();
    texts[random.below(texts.len())].clone()
}

fn byte_outside(random: &mut Random, case: &mut TextCase) {
    loop {
        let place = random.below(case.bytes.len());
        if !case.texts.iter().any(|text| text.contains(&place)) {
            case.bytes[place] ^= 1 << random.below(8);
            return;
        }
    }
}

fn invalid_text(random: &mut Random, case: &mut TextCase) {
    let text = some_text(random, case);
    let new = no_text(random, text.len());
    case.bytes[text].copy_from_slice(&new);
}

/// The last byte of a count stands before its text, and no byte of the count follows it.
fn another_count(random: &mut Random, case: &mut TextCase) {
    let text = some_text(random, case);
    case.bytes[text.start - 1] ^= 1 << random.below(7);
}

fn another_room(random: &mut Random, case: &mut TextCase) {
    let room = (case.words / WORDS_PER_ROW).min(MOST_ROWS);
    let less = random.below(room + 1);
    case.words = WORDS_PER_ROW * less;
}

fn another_list(random: &mut Random, case: &mut TextCase) {
    case.enums = (0..)
        .map(|_| fuzz::enums::case(random.number()).enums)
        .find(|enums| *enums != case.enums)
        .expect("another list");
}

#[test]
fn each_hypothesis_is_needed() {
    let hypotheses: [(&str, Break, usize); 5] = [
        ("a byte outside the texts", byte_outside, 1_000),
        ("a text that is not valid", invalid_text, 1_000),
        ("another count", another_count, 1_000),
        ("another room", another_room, 1_000),
        ("another list", another_list, 500),
    ];
    for (name, broken, least) in hypotheses {
        let differing = differing(broken);
        println!("{name}: {differing} of {BROKEN} differ");
        assert!(differing >= least, "{name}: only {differing} differ");
    }
}

/// A text of an accepted file that is not valid is refused at its count.
#[test]
fn invalid_texts_are_refused_at_their_counts() {
    let accepted = cases().filter(|(_, case, _)| {
        let (answer, _) = load(Shape::Rows, &case.bytes, &case.enums, case.words);
        rows_of(answer) > 0
    });
    for (name, mut case, mut random) in accepted.take(2_000) {
        let text = some_text(&mut random, &case);
        let new = no_text(&mut random, text.len());
        case.bytes[text.clone()].copy_from_slice(&new);
        let (answer, words) = load(Shape::Rows, &case.bytes, &case.enums, case.words);
        let (number, place) = (answer.packed >> 32, answer.packed as u32 as usize);
        assert_eq!(number, BAD_VALUE, "{name}");
        assert!((text.start - 5..text.start).contains(&place), "{name}");
        assert!(words.iter().all(|word| *word == 0), "{name}");
    }
}
