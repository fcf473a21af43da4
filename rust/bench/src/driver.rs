//! Loads for the driver's own screen.

use crate::inputs::{input, Input};
use crate::tasks::Lent;
use corpus::readers::{dictionary_of, PAGE, STRING};
use corpus::values::*;
use corpus::writer::Value;
use second::NO_ENUMS;
use std::hint::black_box;
use xnb::Loader;

fn page_to(title: Value, next: u32) -> Value {
    page(title, rectangle([0; 4]), reference(0), reference(next))
}

/// Pages with titles, each of which leads to the next.
fn ring_of_pages(count: u32) -> Input {
    let title = |number: u32| bound_object(2, text(&format!("Page {number}")));
    let shared = (1..=count).map(|it| object(1, page_to(title(it), it % count + 1)));
    let first = object(1, page_to(title(0), 1));
    let file = file(&[PAGE, STRING], first, shared.collect());
    input("pages", format!("{} pages", count + 1), file)
}

/// A page and a dictionary of so many keys: as they are given by number, all different.
fn keys(name: &str, count: usize, key: fn(usize) -> String) -> Input {
    let readers = [
        PAGE.to_string(),
        dictionary_of("System.String", "System.Int32"),
        STRING.to_string(),
    ];
    let entry = |number| (bound_object(3, text(&key(number))), int32(number as i32));
    let entries = dictionary((0..count).map(entry).collect());
    let shared = vec![object(1, page_to(null(), 1)), object(2, entries)];
    let file = file(&readers, object(1, page_to(null(), 1)), shared);
    input("keys", format!("{count} keys, {name}"), file)
}

pub fn inputs() -> Vec<Input> {
    let mut all = vec![ring_of_pages(10), ring_of_pages(256)];
    for count in [100, 1_000, 30_000] {
        all.push(keys("rising", count, |number| format!("Key {number:06}")));
        all.push(keys("mixed", count, |number| {
            format!("Key {:06}", number * 7_919 % 1_000_003)
        }));
        all.push(keys("of 200 equal bytes before", count, |number| {
            format!("{}{number:06}", "k".repeat(200))
        }));
    }
    all
}

pub fn load(lent: &mut Lent) {
    let (file, words) = (black_box(&lent.file), black_box(&mut lent.words));
    let answer = Loader::new().load_driver_into(file, &mut words[..]);
    assert!(black_box(answer).is_ok());
}

pub fn second_load(lent: &mut Lent) {
    let (file, words) = (black_box(&lent.file), black_box(&mut lent.words));
    let answer = second::driver::load(file, NO_ENUMS, words);
    lent.judge(answer);
}
