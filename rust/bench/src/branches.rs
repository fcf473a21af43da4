//! Going past all below a row, beside looking at every row.

use crate::inputs::{self, Input};
use crate::measure::beside;
use std::hint::black_box;
use xnb::{Table, WORDS_PER_ROW};

type Task = fn(&mut Table<'_>);

/// The number of shared objects.
const SHARED: usize = 200;
/// The rows that they have together.
const ROWS: usize = 65_000;

/// Finding the last shared object, and asking for the children of every row.
pub fn measure() {
    println!("\nxnb_next\n\n| task | rows | time | rows by parent | words by parent |");
    println!("|---|---|---|---|---|");
    let shared = inputs::shared_lists(SHARED, ROWS);
    let scans = [last_row, last_word];
    line("the last shared object", &shared, last_object, &scans);
    println!("\ntree\n\n| input | rows | time | one pass over the rows |");
    println!("|---|---|---|---|");
    for input in inputs::many_values(60_000).iter().chain([&shared]) {
        line(&input.name, input, tree, &[pass]);
    }
}

/// Prints a line: the library's time, and its ratio to each other task.
fn line(name: &str, input: &Input, ours: Task, others: &[Task]) {
    let mut table = Table::load(&input.bytes).expect("lawful");
    let measured: Vec<_> = others
        .iter()
        .map(|other| beside(&mut table, ours, *other))
        .collect();
    let micros = measured[0].seconds * 1e6;
    print!("| {name} | {} | {micros:.2} µs |", input.rows);
    for one in measured {
        print!(" {:.3} |", one.ratio);
    }
    println!();
}

fn last_object(table: &mut Table) {
    let last = black_box(&*table).objects().nth(SHARED);
    black_box(last).expect("a shared object");
}

/// Every row is decoded.
fn last_row(table: &mut Table) {
    let rows = (0..).zip(black_box(&*table).rows());
    let mut objects = rows.filter(|(_, row)| row.parent.is_none());
    let last: Option<(u32, _)> = objects.nth(SHARED);
    black_box(last).expect("a shared object");
}

/// Only the word of the parent is looked at in each row.
fn last_word(table: &mut Table) {
    let rows = black_box(&*table).words().chunks_exact(WORDS_PER_ROW);
    let mut objects = rows.enumerate().filter(|(_, row)| row[4] == 0);
    let last = objects.nth(SHARED);
    black_box(last).expect("a shared object");
}

/// Each object and all below it, by its children.
fn tree(table: &mut Table) {
    let table = black_box(&*table);
    let objects = table.objects().map(|number| below(table, number));
    black_box(objects.sum::<usize>());
}

/// A sum over a value and all below it.
fn below(table: &Table, number: u32) -> usize {
    let length = table.row(number).expect("a row").length;
    let children = table.children(number);
    length + children.map(|child| below(table, child)).sum::<usize>()
}

/// The same sum in one pass over the rows.
fn pass(table: &mut Table) {
    let rows = black_box(&*table).rows();
    black_box(rows.map(|row| row.length).sum::<usize>());
}
