//! Searching all rows of one kind in columns, beside searching them by rows.

use crate::inputs;
use crate::measure::beside;
use std::hint::black_box;
use xnb::{Columns, Kind, Table, WORDS_PER_ROW};

/// Equal tables in both shapes, the kind that is asked for, and the row numbers found.
struct Lent<'f> {
    tables: Vec<(Table<'f>, Columns<'f>)>,
    /// The table of the last turn.
    turn: usize,
    kind: Kind,
    found: Vec<u32>,
}

impl<'f> Lent<'f> {
    /// The table of this turn; where there are many it has left the cache since its last turn.
    fn take_turn(&mut self) -> (&(Table<'f>, Columns<'f>), &mut Vec<u32>) {
        self.turn = (self.turn + 1) % self.tables.len();
        (black_box(&self.tables[self.turn]), &mut self.found)
    }
}

type Task = fn(&mut Lent<'_>);

/// A kind that one of five rows has, and a kind that one row has, in the most rows that a table names.
pub fn measure() {
    println!("\nsearch by kind\n");
    println!("| kind | found | tables in turn | time | words by rows | decoded rows |");
    println!("|---|---|---|---|---|---|");
    let pages = inputs::pages(xnb::MOST_ROWS);
    let rows = Table::load(&pages.bytes).expect("lawful");
    let columns = Columns::load(&pages.bytes).expect("lawful");
    for tables in [1, 40] {
        let mut lent = Lent {
            tables: vec![(rows.clone(), columns.clone()); tables],
            turn: 0,
            kind: Kind::Null,
            found: Vec::with_capacity(pages.rows),
        };
        for kind in [Kind::String, Kind::List] {
            lent.kind = kind;
            line(&mut lent, in_column, &[in_words, in_rows]);
        }
    }
}

/// Prints a line: the time in columns, and its ratio to each other task.
fn line(lent: &mut Lent, ours: Task, others: &[Task]) {
    let measured: Vec<_> = others
        .iter()
        .map(|other| beside(lent, ours, *other))
        .collect();
    let (kind, found, tables) = (lent.kind, lent.found.len(), lent.tables.len());
    let micros = measured[0].seconds * 1e6;
    print!("| {kind} | {found} | {tables} | {micros:.2} µs |");
    for one in measured {
        print!(" {:.3} |", one.ratio);
    }
    println!();
}

/// Replaces the row numbers found before.
fn keep(found: &mut Vec<u32>, rows: impl Iterator<Item = u32>) {
    found.clear();
    found.extend(rows);
    black_box(found);
}

fn in_column(lent: &mut Lent) {
    let kind = lent.kind;
    let ((_, columns), found) = lent.take_turn();
    keep(found, columns.of_kind(kind));
}

/// Only the word of the kind is looked at in each row.
fn in_words(lent: &mut Lent) {
    let kind = lent.kind.number();
    let ((table, _), found) = lent.take_turn();
    let rows = (0..).zip(table.words().chunks_exact(WORDS_PER_ROW));
    let rows = rows.filter(|(_, row)| row[0] == kind);
    keep(found, rows.map(|(number, _)| number));
}

/// Every row is decoded.
fn in_rows(lent: &mut Lent) {
    let kind = lent.kind;
    let ((table, _), found) = lent.take_turn();
    let rows = (0..).zip(table.rows()).filter(|(_, row)| row.kind == kind);
    keep(found, rows.map(|(number, _)| number));
}
