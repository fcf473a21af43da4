//! Salvage by the second program over damaged marked packs.

use fuzz::packs::partition::check_partition;
use fuzz::packs::salvage::{case, cuts, limits, single_damages, Salvage, SalvageCase};
use second::marks::{marked_read, MARK};
use second::salvage::{salvage, Salvaged};
use second::Refusal;
use std::ops::Range;

const PACKS: u64 = 10_000;

/// The output and the list of a salvage that is lent enough of both.
fn salvaged(pack: &[u8]) -> (Vec<u8>, Vec<u64>) {
    let mut out = vec![0; pack.len()];
    let mut list = vec![0; 2 * pack.len()];
    let Salvaged { length, stretches } = salvage(pack, &mut out, &mut list).expect("room enough");
    out.truncate(length);
    list.truncate(2 * stretches);
    (out, list)
}

/// The output and the list for what is kept and skipped.
fn expected(pack: &[u8], known: &Salvage) -> (Vec<u8>, Vec<u64>) {
    let mut out = (known.kept.len() as u32).to_le_bytes().to_vec();
    for places in &known.kept {
        out.extend_from_slice(&pack[places.clone()]);
    }
    let words = |places: &Range<usize>| [places.start as u64, places.len() as u64];
    let list = known.skipped.iter().flat_map(words).collect();
    (out, list)
}

/// Checks what is known, and what the request says of every salvage; answers how many stretches were skipped.
fn check(name: &str, case: &SalvageCase) -> usize {
    let pack = &case.bytes;
    let (out, list) = salvaged(pack);
    if let Some(known) = &case.known {
        let (expected_out, expected_list) = expected(pack, known);
        assert!(out == expected_out, "{name}: the output");
        assert_eq!(list, expected_list, "{name}");
    }

    // The output is a marked pack that the reader takes, and salvaging it again changes nothing.
    let mut table = vec![0; 4 * 4096];
    let files = marked_read(&out, &mut table).expect(name);
    let (again, nothing) = salvaged(&out);
    assert!(again == out && nothing.is_empty(), "{name}: once more");

    check_partition(name, pack, &out, &table[..4 * files], &list);
    check_rooms(name, pack, &out, &list);
    list.len() / 2
}

/// Output and list of just enough room, of more, and of too little.
fn check_rooms(name: &str, pack: &[u8], out: &[u8], list: &[u64]) {
    let try_with = |bytes: usize, words: usize| {
        let mut lent_out = vec![0xEE; bytes];
        let mut lent_list = vec![7; words];
        let answer = salvage(pack, &mut lent_out, &mut lent_list);
        match answer {
            Ok(_) => {
                assert!(lent_out[..out.len()] == *out && lent_list[..list.len()] == *list);
                assert!(lent_out[out.len()..].iter().all(|&byte| byte == 0xEE));
                assert!(lent_list[list.len()..].iter().all(|&word| word == 7));
            }
            Err(_) => {
                assert!(lent_out.iter().all(|&byte| byte == 0xEE), "{name}");
                assert!(lent_list.iter().all(|&word| word == 7), "{name}");
            }
        }
        answer
    };
    let (length, stretches) = (out.len(), list.len() / 2);
    let refused = |number, place| Err(Refusal { number, place });
    let whole = Ok(Salvaged { length, stretches });
    assert_eq!(try_with(length, list.len()), whole, "{name}");
    assert_eq!(try_with(length + 3, list.len() + 3), whole, "{name}");
    let too_small = refused(21, length);
    assert_eq!(try_with(length - 1, list.len()), too_small, "{name}");
    if stretches > 0 {
        let too_short = refused(52, stretches);
        assert_eq!(try_with(length, list.len() - 1), too_short, "{name}");
        assert_eq!(try_with(length + 9, 0), too_short, "{name}");
        assert_eq!(try_with(0, 0), too_small, "{name}: 21 before 52");
    }
}

#[test]
fn generated_packs_are_salvaged() {
    let (mut known, mut stretches) = (0, 0);
    for seed in 0..PACKS {
        let case = case(seed);
        if case.bytes.len() >= 4 {
            stretches += check(&format!("seed {seed}"), &case);
            known += case.known.iter().count();
        }
    }
    println!("{known} known, {stretches} stretches");
    assert!(known > 4000 && stretches > 10_000);
}

#[test]
fn every_cut_and_every_single_damage_and_limit() {
    let named = [
        ("cut", cuts()),
        ("damage", single_damages()),
        ("limit", limits()),
    ];
    for (name, cases) in named {
        for (number, case) in cases.iter().enumerate() {
            if case.bytes.len() >= 4 {
                check(&format!("{name} {number}"), case);
            }
        }
    }
}

/// An accepted pack comes out byte for byte with nothing skipped.
#[test]
fn accepted_packs_come_out_whole() {
    let mut accepted = 0;
    for seed in 0..PACKS {
        let pack = fuzz::packs::case(&MARK, seed).bytes;
        if marked_read(&pack, &mut vec![0; 4 * 4096]).is_ok() {
            let (out, list) = salvaged(&pack);
            assert!(out == pack && list.is_empty(), "seed {seed}");
            accepted += 1;
        }
    }
    assert!(accepted > 1000, "only {accepted} accepted");
}

#[test]
fn under_four_bytes_are_refused_first() {
    for length in 0..4 {
        let (number, place) = (1, 0);
        let answer = salvage(&[0xFD; 3][..length], &mut [], &mut []);
        assert_eq!(answer, Err(Refusal { number, place }));
    }
}
