//! Packs of over 4 GiB; apart from the other tests for the memory it asks for.
//!
//!     cargo test --release --offline --package xnb --test huge_pack -- --ignored

use corpus::lawful::file_b;
use corpus::packs::marked::MARKED;
use corpus::packs::{Places, NO_MARK};
use corpus::writer::write;
use fuzz::packs::huge::huge;
use xnb::raw::pack as raw;
use xnb::salvage::{salvage_into, Written};
use xnb::Pack;

#[test]
#[ignore = "asks for 5 GiB of memory, of which it touches little"]
fn a_pack_of_over_4_gib() -> Result<(), String> {
    let mut huge = huge(NO_MARK, write(&file_b()).bytes)?;
    let expected: Vec<u64> = huge.places.iter().flat_map(Places::entry).collect();
    assert!(expected[4] > 1 << 32);
    let pack = Pack::read(&huge.bytes).map_err(|refused| refused.to_string())?;
    assert_eq!(pack.words(), expected);
    let paths: Vec<&str> = pack.files().map(|file| file.path).collect();
    assert_eq!(paths, huge.paths);
    assert_eq!(pack.find("BEHIND 4 gib"), Some(&huge.data[..]));
    assert_eq!(pack.find("end"), Some(&[][..]));
    assert_eq!(pack.find("none"), None);
    let loaded = pack.load("Behind 4 GiB").expect("it is there");
    assert_eq!(loaded.expect("a lawful file").text(0), Ok("Hi"));

    // A table of 64-bit words past 4 GiB is no table of their lower halves.
    let mut table = pack.words().to_vec();
    table[6] += 1 << 32;
    assert_eq!(raw::find(&huge.bytes, &table, b"behind 4 gib"), (0, 0, 0));
    table[6] = u64::MAX;
    assert_eq!(raw::find(&huge.bytes, &table, b"behind 4 gib"), (0, 0, 0));

    let mut table = [7; 18];
    let no_room = raw::read(&huge.bytes, &mut table[..7]);
    assert_eq!(no_room, (31, huge.places[1].start as u64));
    assert_eq!(table[..8], [0, 0, 0, 0, 0, 0, 0, 7]);
    let last = huge.bytes.len() - 1;
    let cut = raw::read(&huge.bytes[..last], &mut table);
    assert_eq!(cut, (1, huge.places[3].size as u64));
    assert_eq!(table, [0; 18]);
    huge.bytes[0] = 3;
    let left_over = raw::read(&huge.bytes, &mut table);
    assert_eq!(left_over, (20, huge.places[3].start as u64));
    let wrong = huge.places[2].path;
    huge.bytes[wrong] = 0xFF;
    let not_text = raw::read(&huge.bytes, &mut table);
    assert_eq!(not_text, (15, huge.places[2].count as u64));
    Ok(())
}

#[test]
#[ignore = "asks for 5 GiB of memory, of which it touches little"]
fn a_damaged_pack_of_over_4_gib() -> Result<(), String> {
    let mut huge = huge(MARKED.mark, b"data".to_vec())?;
    let [first, behind, rest, end] = huge.places[..] else {
        return Err("four files".to_string());
    };
    assert!(behind.start > 1 << 32);
    for lost in [first, rest] {
        huge.bytes[lost.start] = 0;
    }
    let kept = [behind, end].map(|it| &huge.bytes[it.start..it.end]);
    let kept = [&[2, 0, 0, 0], kept[0], kept[1]].concat();
    let (mut out, mut list) = (vec![0xEE; kept.len() + 1], [7; 5]);
    let (length, stretches) = (kept.len(), 2);
    let written = salvage_into(&huge.bytes, &mut out, &mut list);
    assert_eq!(written, Ok(Written { length, stretches }));
    assert_eq!(out, [&kept[..], &[0xEE]].concat());
    let skipped = [first, rest].map(|it| [it.start, it.end - it.start].map(|word| word as u64));
    assert_eq!(list[..4], skipped.concat());
    assert_eq!(list[4], 7);
    Ok(())
}
