//! Both loaders over the same input: their answers and the buffers that they leave must be equal.

use crate::lent::Lent;
use fuzz::random::Random;
use fuzz::tables::in_columns;
use second::{broken_branch, reported_padding, Refusal, Table, WORDS_PER_ROW};
use std::fmt::{self, Display, Formatter};
use xnb::raw::{self, LoadAnswer};
use xnb::Shape;

/// What was called.
#[derive(Clone, Copy)]
pub enum Call {
    Load,
    Rewrite,
    Part,
    Text,
    Signed,
    Time,
}

use Call::*;

const CALLS: [(Call, &str); 6] = [
    (Load, "load"),
    (Rewrite, "rewrite"),
    (Part, "part"),
    (Text, "text"),
    (Signed, "signed"),
    (Time, "time"),
];

/// One more than the largest refusal number.
const NUMBERS: usize = 39;

/// How often each call gave each refusal number, 0 for acceptance.
pub struct Counts([[u32; NUMBERS]; CALLS.len()]);

impl Default for Counts {
    fn default() -> Counts {
        Counts([[0; NUMBERS]; CALLS.len()])
    }
}

impl Counts {
    pub fn of(&self, call: Call, number: usize) -> u32 {
        self.0[call as usize][number]
    }

    fn count<T>(&mut self, call: Call, answer: &Result<T, Refusal>) {
        self.0[call as usize][number_of(answer)] += 1;
    }

    pub fn add(&mut self, other: &Counts) {
        let sums = self.0.iter_mut().flatten();
        for (sum, count) in sums.zip(other.0.iter().flatten()) {
            *sum += count;
        }
    }

    /// Every answer that a call can give with an empty list has occurred often; a rewrite leaves its table by rows.
    pub fn check(&self, shape: Shape) {
        for (call, _) in CALLS {
            let numbers: Vec<usize> = match (call, shape) {
                (Load, _) => load_numbers().collect(),
                (Rewrite, Shape::Rows) => load_numbers().chain([21]).collect(),
                (Rewrite, Shape::Columns) => vec![],
                (Part, _) => vec![0, 23],
                (Text | Signed | Time, _) => vec![0, 23, 24],
            };
            self.check_often(call, &numbers);
        }
    }

    /// The answers that a reader's name may give have occurred often.
    pub fn check_names(&self, shape: Shape) {
        let numbers: Vec<usize> = [0, 11].into_iter().chain(33..=38).collect();
        self.check_often(Load, &numbers);
        if shape == Shape::Rows {
            self.check_often(Rewrite, &numbers);
        }
    }

    /// The answers that a mesh may give have occurred often.
    pub fn check_meshes(&self, shape: Shape) {
        let numbers = [0, 1, 8, 13, 14, 15, 16, 17, 18, 19, 20];
        self.check_often(Load, &numbers);
        if shape == Shape::Rows {
            self.check_often(Rewrite, &numbers);
        }
    }

    /// The answers that a list of nullables may give have occurred often.
    pub fn check_nullables(&self, shape: Shape) {
        let numbers = [0, 1, 15, 18, 19, 20];
        self.check_often(Load, &numbers);
        if shape == Shape::Rows {
            self.check_often(Rewrite, &numbers);
        }
    }

    /// The answers that a list of enum types may change have occurred often.
    pub fn check_with_enums(&self, shape: Shape) {
        self.check_often(Load, &[0, 1, 11, 14, 19, 20, 32]);
        if shape == Shape::Rows {
            self.check_often(Rewrite, &[0, 1, 11, 14, 19, 20, 21, 32]);
        }
    }

    fn check_often(&self, call: Call, numbers: &[usize]) {
        let name = CALLS[call as usize].1;
        for number in numbers {
            let count = self.of(call, *number);
            assert!(count >= 50, "{name} gives {number} {count} times");
        }
    }
}

/// 0, and each refusal of a file with an empty list of enum types.
fn load_numbers() -> impl Iterator<Item = usize> {
    (0..=9).chain(11..=20).chain([22]).chain(33..=38)
}

impl Display for Counts {
    fn fmt(&self, out: &mut Formatter) -> fmt::Result {
        write!(out, "refusal")?;
        for (_, name) in CALLS {
            write!(out, "{name:>10}")?;
        }
        let occurs = |number: &usize| CALLS.iter().any(|(call, _)| self.of(*call, *number) > 0);
        for number in (0..NUMBERS).filter(occurs) {
            write!(out, "\n{number:7}")?;
            for (call, _) in CALLS {
                write!(out, "{:10}", self.of(call, number))?;
            }
        }
        Ok(())
    }
}

/// A refusal or a number in the form that the library answers.
fn packed(answer: Result<usize, Refusal>) -> u64 {
    match answer {
        Ok(number) => number as u64,
        Err(refusal) => (u64::from(refusal.number) << 32) + refusal.place as u64,
    }
}

fn number_of<T>(answer: &Result<T, Refusal>) -> usize {
    match answer {
        Ok(_) => 0,
        Err(refusal) => refusal.number as usize,
    }
}

pub const SHAPES: [Shape; 2] = [Shape::Rows, Shape::Columns];

/// The shape by the second loader's name.
fn seconds(shape: Shape) -> second::Shape {
    match shape {
        Shape::Rows => second::Shape::Rows,
        Shape::Columns => second::Shape::Columns,
    }
}

/// The words of a table by rows, put into a shape.
pub fn in_shape(shape: Shape, by_rows: &[u32]) -> Vec<u32> {
    match shape {
        Shape::Rows => by_rows.to_vec(),
        Shape::Columns => in_columns(by_rows),
    }
}

/// The second loader's view of words in a shape.
pub fn seconds_table(shape: Shape, words: &[u32]) -> Table<'_> {
    Table::new(seconds(shape), words)
}

/// Comparisons over tables of one shape, with one source of garbage, and what they have met.
pub struct Sides {
    pub shape: Shape,
    /// The list of enum types that both are lent.
    pub enums: Vec<u8>,
    pub random: Random,
    pub counts: Counts,
}

impl Sides {
    pub fn new(shape: Shape, seed: u64) -> Sides {
        Sides {
            shape,
            enums: Vec::new(),
            random: Random::new(seed),
            counts: Counts::default(),
        }
    }

    /// Loads with so many words lent; answers the number of rows.
    pub fn load(&mut self, name: &str, file: &[u8], words: usize) -> Option<usize> {
        let mut linked = Lent::new(self.random.number() as u32, words);
        let mut second = vec![self.random.number() as u32; words];
        let answer = raw::load_table(self.shape, file, &self.enums, linked.middle());
        let expected = second::load_in(seconds(self.shape), file, &self.enums, &mut second);
        let packed = packed(expected.map(|it| it.rows));
        let expected_answer = LoadAnswer {
            packed,
            readers: expected.map_or(0, |it| it.readers) as u32,
            shared: expected.map_or(0, |it| it.shared) as u32,
            padding: reported_padding(expected) as u32,
        };
        assert_eq!(answer, expected_answer, "{name}: load with {words} words");
        linked.check(name, &second);
        let rows = expected.map_or(0, |it| it.rows);
        let table = seconds_table(self.shape, linked.middle());
        assert_eq!(broken_branch(table, rows), None, "{name}");
        if words == WORDS_PER_ROW * 1024 && self.enums.is_empty() {
            assert_eq!(raw::load(file), packed, "{name}: the builder's number");
        }
        self.counts.count(Load, &expected);
        expected.ok().map(|it| it.rows)
    }

    /// Rewrites to outputs of different lengths, just the needed one among them.
    pub fn rewrites(&mut self, name: &str, file: &[u8], words: usize) {
        let any = self.random.below(file.len() + 40);
        let needed = self.rewrite(name, file, words, any);
        if let Some(needed) = needed {
            let less = self.random.below(needed);
            for out in [needed, needed - 1, needed + 9, less] {
                self.rewrite(name, file, words, out);
            }
            let fewer = self.random.below(words + 1);
            self.rewrite(name, file, fewer, needed);
        }
    }

    /// Rewrites once; answers the bytes needed, unless the file is refused.
    fn rewrite(&mut self, name: &str, file: &[u8], words: usize, out: usize) -> Option<usize> {
        let mut linked = Lent::new(self.random.number() as u32, words);
        let mut second = vec![self.random.number() as u32; words];
        let garbage = self.random.byte();
        let mut linked_out = Lent::new(garbage, out);
        let mut second_out = vec![garbage; out];
        let answer = raw::rewrite(file, &self.enums, linked.middle(), linked_out.middle());
        let expected = second::rewrite(file, &self.enums, &mut second, &mut second_out);
        let label = format!("{name}: rewrite with {words} words to {out} bytes");
        assert_eq!(answer, packed(expected), "{label}");
        linked.check(&label, &second);
        linked_out.check(&label, &second_out);
        self.counts.count(Rewrite, &expected);
        match expected {
            Ok(length) => Some(length),
            Err(refusal) if refusal.number == 21 => Some(refusal.place),
            Err(_) => None,
        }
    }
}

/// The four lookups of each row number, and the row behind it and all below it.
pub fn lookups(sides: &mut Sides, name: &str, file: &[u8], words: &[u32], rows: &[u32]) {
    let shape = sides.shape;
    let table = seconds_table(shape, words);
    for &row in rows {
        let number = row as usize;
        let label = format!("{name}: row {row} of {} words", words.len());

        let part = second::part(file, table, number);
        let answer = raw::part(shape, file, words, row);
        assert_eq!(answer, span(file, part), "part, {label}");
        sides.counts.count(Part, &part);

        let text = second::text(file, table, number);
        let answer = raw::text(shape, file, words, row);
        assert_eq!(answer, span(file, text), "text, {label}");
        sides.counts.count(Text, &text);

        let signed = second::signed(file, table, number);
        let expected = (number_of(&signed) as u32, signed.unwrap_or(0));
        let answer = raw::signed(shape, file, words, row);
        assert_eq!(answer, expected, "signed, {label}");
        sides.counts.count(Signed, &signed);

        let time = second::time(file, table, number);
        let (seconds, ticks) = time.map_or((0, 0), |it| (it.seconds, it.ticks));
        let expected = (number_of(&time) as u32, seconds, ticks);
        let answer = raw::time(shape, file, words, row);
        assert_eq!(answer, expected, "time, {label}");
        sides.counts.count(Time, &time);

        let next = second::next(table, number).unwrap_or(0);
        assert_eq!(raw::next(shape, words, row) as usize, next, "next, {label}");
    }
}

/// A part as the library answers it: refusal, first byte and length.
fn span(file: &[u8], answer: Result<&[u8], Refusal>) -> (u32, usize, usize) {
    match answer {
        Ok(part) => (0, part.as_ptr().addr() - file.as_ptr().addr(), part.len()),
        Err(refusal) => (refusal.number, 0, 0),
    }
}

/// Row numbers among those in use, around the room and far past it.
pub fn some_rows(random: &mut Random, words: usize, used: usize) -> Vec<u32> {
    let room = (words / WORDS_PER_ROW).min(65_536) as u32;
    let mut rows: Vec<u32> = (room.saturating_sub(2)..room + 3).collect();
    // Seven times the first number here is 3 in 32 bits.
    rows.extend([613_566_757, 1 << 31, u32::MAX - 1, u32::MAX]);
    rows.extend((0..8).map(|_| random.below(used + 1) as u32));
    rows
}

/// Words by rows that do not belong to the file: a table with changed words, or any words.
pub fn other_words(random: &mut Random, file: &[u8], table: &[u32]) -> Vec<u32> {
    let mut words = table.to_vec();
    if words.is_empty() || random.chance(30) {
        let count = random.below(60);
        words = (0..count).map(|_| random.number() as u32).collect();
    }
    let room = (words.len() / WORDS_PER_ROW) as u32;
    for row in words.chunks_exact_mut(WORDS_PER_ROW) {
        if random.chance(60) {
            row[0] = random.pick(&[13, 13, 13, 2, 3, 5, 7, 20, 20, 12, 36, 41, 42, 43, 269]);
        }
        let end = file.len() as u32;
        if random.chance(40) {
            let near = random.below(file.len() + 3) as u32;
            row[1] = random.pick(&[near, near, row[1].wrapping_add(1), end, u32::MAX]);
        }
        if random.chance(40) {
            let rest = end.wrapping_sub(row[1]);
            let short = random.below(12) as u32;
            let overflow = 0u32.wrapping_sub(row[1]);
            let near = [rest, rest.wrapping_add(1), row[2].wrapping_add(1)];
            row[2] = random.pick(&[short, short, near[0], near[1], near[2], overflow]);
        }
        if random.chance(40) {
            let near = random.between(0, room + 1);
            row[6] = random.pick(&[near, near, room, row[6].wrapping_add(1), u32::MAX]);
        }
    }
    words
}
