//! Tables that no loader left, to ask for the row behind a row and all below it; tables by rows put into columns.

use crate::random::Random;
use corpus::writer::WORDS_PER_ROW;

/// A table has never room for more rows.
const MOST_ROWS: usize = 65_536;

/// The same rows in columns: all kinds first, then all first bytes, and so on, each column as long as the room.
///
/// Words in excess of the rows stay where they are.
pub fn in_columns(by_rows: &[u32]) -> Vec<u32> {
    let room = (by_rows.len() / WORDS_PER_ROW).min(MOST_ROWS);
    let (rows, excess) = by_rows.split_at(WORDS_PER_ROW * room);
    let column = |word| rows.iter().skip(word).step_by(WORDS_PER_ROW);
    let columns = (0..WORDS_PER_ROW).flat_map(column);
    columns.chain(excess).copied().collect()
}

/// Any words by rows, a row number, and the row number behind it and all below it, or 0.
#[derive(Clone, Debug)]
pub struct TableCase {
    pub words: Vec<u32>,
    pub row: u32,
    pub next: u32,
}

/// The case of a seed; equal seeds give equal cases.
pub fn case(seed: u64) -> TableCase {
    let mut random = Random::new(seed);
    let room = small_room(&mut random);
    let length = WORDS_PER_ROW * room as usize + random.below(WORDS_PER_ROW);
    let mut words: Vec<u32> = (0..length).map(|_| any_word(&mut random, room)).collect();
    if room == 0 || random.chance(20) {
        let row = row_past(&mut random, room);
        return TableCase {
            words,
            row,
            next: 0,
        };
    }
    let row = random.below(room as usize) as u32;
    let left = room - row;
    let (count, next) = match random.below(4) {
        0 => (0, 0),
        1 => (count_past(&mut random, row, left), 0),
        _ => {
            let count = count_within(&mut random, left);
            (count, row + count)
        }
    };
    words[WORDS_PER_ROW * row as usize + 6] = count;
    TableCase { words, row, next }
}

/// Tables at the most rows that words have room for, and with words for more.
pub fn most_rows() -> Vec<TableCase> {
    // The whole rows in the words, the row asked for, its count and the answer.
    let cases = [
        (65_535, 65_534, 1, 65_535),
        (65_535, 65_534, 2, 0),
        (65_536, 65_535, 1, 65_536),
        (65_536, 0, 65_536, 65_536),
        (65_536, 0, 65_537, 0),
        (65_537, 65_535, 1, 65_536),
        (65_537, 65_535, 2, 0),
        (65_537, 65_536, 1, 0),
        (70_000, 0, 65_536, 65_536),
        (70_000, 0, 65_537, 0),
        (70_000, 69_999, 1, 0),
    ];
    let table = |(rows, row, count, next)| {
        let mut words = vec![u32::MAX; WORDS_PER_ROW * rows];
        words[WORDS_PER_ROW * row as usize + 6] = count;
        TableCase { words, row, next }
    };
    cases.map(table).into()
}

/// Often no row or one.
fn small_room(random: &mut Random) -> u32 {
    match random.below(10) {
        0 => 0,
        1 => 1,
        2 => random.between(100, 400),
        _ => random.between(2, 12),
    }
}

/// A word as a table may have it, or any other.
fn any_word(random: &mut Random, room: u32) -> u32 {
    let (near, far) = (random.between(0, room + 2), random.number() as u32);
    random.pick(&[0, 1, near, near, far, u32::MAX])
}

/// A row number at the room's end, a few behind it, or so large that seven times it is small in 32 bits.
fn row_past(random: &mut Random, room: u32) -> u32 {
    let (near, far) = (room + random.between(0, 9), random.between(room, u32::MAX));
    let wrapped = random.pick(&[613_566_757, 1_227_133_514, 1_840_700_270]);
    random.pick(&[room, near, far, wrapped, u32::MAX])
}

/// A count that ends in the room or with it.
fn count_within(random: &mut Random, left: u32) -> u32 {
    let any = random.between(1, left);
    random.pick(&[1, any, left])
}

/// A count that ends past the room, perhaps so far that its end is small in 32 bits.
fn count_past(random: &mut Random, row: u32, left: u32) -> u32 {
    let near = left + random.between(1, 9);
    let far = random.between(left + 1, u32::MAX);
    let wrapped = 0_u32
        .wrapping_sub(row)
        .wrapping_add(random.between(0, left));
    let wrapped = if wrapped > left { wrapped } else { far };
    random.pick(&[left + 1, near, far, wrapped, u32::MAX])
}
