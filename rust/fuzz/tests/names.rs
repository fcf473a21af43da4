//! The second loader over generated reader names, and beside the slow judge of the grammar.

mod known;

use fuzz::names::grammar::{is_name_but_for_levels, judge, Verdict};
use fuzz::names::{case, named};
use known::check;
use second::{load, Refusal};
use std::collections::BTreeMap;

/// How many names are tried; FUZZ_NAMES in the environment asks for another number.
fn names() -> u64 {
    let asked = std::env::var("FUZZ_NAMES").ok();
    asked.and_then(|it| it.parse().ok()).unwrap_or(60_000)
}

/// The refusal of a file with one reader of this name, its place counted from the name's first byte.
fn verdict(name: &[u8]) -> Option<(u32, usize)> {
    let mut file = b"XNBw\x05\x00....\x01".to_vec();
    file.push(name.len() as u8 | 0x80);
    file.push((name.len() >> 7) as u8);
    file.extend_from_slice(name);
    file.extend_from_slice(&[0; 6]);
    let length = file.len() as u32;
    file[6..10].copy_from_slice(&length.to_le_bytes());
    let refusal = load(&file, &[], &mut [0; 7]).err();
    refusal.map(|Refusal { number, place }| (number, place - 13))
}

/// The second loader's verdict agrees with the judge's, which knows no heads: 11 or none where the grammar is kept.
fn agree(name: &[u8]) -> u32 {
    let found = verdict(name);
    let judged = judge(name);
    match judged.fault {
        Some(fault) => assert_eq!(found, Some(fault), "{}", name.escape_ascii()),
        None => assert!(
            found.is_none_or(|(number, _)| number == 11),
            "{}: {found:?}",
            name.escape_ascii()
        ),
    }
    keeps_the_theorem(name, &judged);
    found.map_or(0, |(number, _)| number)
}

/// "All bytes before the place begin some name that keeps every rule but the limit of 8 levels", and for 33 to 37 no
/// such name begins with the byte at the place, or the name ends there too soon.
fn keeps_the_theorem(name: &[u8], judged: &Verdict) {
    let place = judged.fault.map_or(name.len(), |(_, place)| place);
    let mut completed = name[..place].to_vec();
    completed.extend_from_slice(&judged.completion);
    let shown = completed.escape_ascii();
    assert!(is_name_but_for_levels(&completed), "{shown}");
    if judge(&completed).fault.is_none() {
        let number = verdict(&completed).map_or(11, |(number, _)| number);
        assert_eq!(number, 11, "{shown}");
    }
    match judged.fault {
        Some((33..=37, _)) if place < name.len() => {
            let with_byte = &name[..=place];
            assert_eq!(judge(with_byte).fault, judged.fault, "{shown}");
        }
        Some((33..=37, _)) => assert!(!is_name_but_for_levels(name), "{shown}"),
        _ => {}
    }
}

#[test]
fn generated_names_give_what_is_known_and_every_refusal() {
    // How often each refusal number occurs, 0 for acceptance, and in how many of them it was known.
    let mut counts = BTreeMap::new();
    for seed in 0..names() {
        let named = named(seed);
        let found = verdict(&named.bytes).unwrap_or((0, 0));
        if let Some(known) = named.known {
            assert_eq!(found, known, "seed {seed}: {}", named.bytes.escape_ascii());
        }
        let count: &mut (u32, u32) = counts.entry(found.0).or_default();
        count.0 += 1;
        count.1 += u32::from(named.known.is_some());
    }
    println!("{counts:?}");
    for number in [0, 11].into_iter().chain(33..=38) {
        let (all, known) = counts.get(&number).copied().unwrap_or_default();
        assert!(
            all >= 1000 && known >= 500,
            "{number}: {all}, {known} known"
        );
    }
}

/// A part of the same names, since the judge is slow.
#[test]
fn generated_names_are_as_the_judge_says() {
    for seed in 0..names() / 4 {
        agree(&named(seed).bytes);
    }
}

/// The same names in files: places are in the file.
#[test]
fn generated_files_give_what_is_known() {
    let mut accepted = 0;
    for seed in 0..names() {
        let answer = check(&format!("seed {seed}"), &case(seed), &[]);
        accepted += u32::from(answer.is_ok());
    }
    assert!(accepted >= 1000, "only {accepted} files are accepted");
}

/// Every name of the table, by the slow judge too.
#[test]
fn the_table_is_the_judges() {
    for named in corpus::names::all() {
        let fault = judge(named.name.as_bytes()).fault;
        let broken = (33..=38).contains(&named.number);
        let expected = broken.then_some((named.number, named.place));
        assert_eq!(fault, expected, "{}", named.name);
    }
}

/// All words of up to six bytes that matter in names.
#[test]
fn all_short_words() {
    let alphabet = b"A1`[],2-";
    let mut words: Vec<Vec<u8>> = vec![vec![]];
    let mut counts = BTreeMap::new();
    for _ in 0..6 {
        let longer = |word: &Vec<u8>| {
            let word = word.clone();
            alphabet
                .iter()
                .map(move |byte| [&word[..], &[*byte]].concat())
        };
        words = words.iter().flat_map(longer).collect();
        for word in &words {
            *counts.entry(agree(word)).or_insert(0) += 1;
        }
    }
    println!("{counts:?}");
}

/// Every cut, and every byte that matters put into every place of a name or over it.
#[test]
fn all_single_damages() {
    let eight = "A`1[[".repeat(7);
    let names = [
        "A`2[[B],[C, d]], e".to_string(),
        "A`2[[B`1[[C]], d],[E`2[[F],[G,h]]]],i".to_string(),
        format!("{eight}B`1[[C]]{}", "]]".repeat(7)),
        corpus::names::nested(8),
    ];
    let mut tried = 0;
    for name in names.iter().map(String::as_bytes) {
        for place in 0..=name.len() {
            if place > 0 {
                agree(&name[..place]);
            }
            for byte in *b"A12`[],- \0\x7F\xC3" {
                let before = &name[..place];
                agree(&[before, &[byte], &name[place..]].concat());
                if let Some(behind) = name.get(place + 1..) {
                    agree(&[before, &[byte], behind].concat());
                }
                tried += 2;
            }
        }
    }
    println!("{tried} damaged names");
}
