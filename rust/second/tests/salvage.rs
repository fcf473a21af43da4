//! Salvage through the second program, word by word of Req 11.

use second::salvage::{salvage, Salvaged};
use second::Refusal;

/// One whole record.
const RECORD: &[u8] = b"\xFD\xFE\x01a\x02\0\0\0hi";

fn salvaged(pack: &[u8]) -> (Vec<u8>, Vec<u64>) {
    let mut out = vec![0xEE; pack.len() + 2];
    let mut list = vec![7; 21];
    let Salvaged { length, stretches } = salvage(pack, &mut out, &mut list).expect("room enough");
    assert!(out[length..].iter().all(|&byte| byte == 0xEE));
    assert!(list[2 * stretches..].iter().all(|&word| word == 7));
    out.truncate(length);
    list.truncate(2 * stretches);
    (out, list)
}

#[test]
fn the_count_is_set_right() {
    let pack = [b"\x09\xFD\xFE\x01", RECORD, RECORD].concat();
    let whole = [b"\x02\0\0\0", RECORD, RECORD].concat();
    assert_eq!(salvaged(&pack), (whole.clone(), vec![]));
    assert_eq!(salvaged(&whole), (whole, vec![]));
    assert_eq!(salvaged(&[9; 4]), (vec![0; 4], vec![]));
}

#[test]
fn stretches_are_joined_where_they_touch() {
    let pack = [&[0; 4], &b"xy"[..], RECORD, b"\xFD\xFE\0\xFD", RECORD, b"z"].concat();
    let kept = [b"\x02\0\0\0", RECORD, RECORD].concat();
    assert_eq!(salvaged(&pack), (kept, vec![4, 2, 16, 4, 30, 1]));
}

#[test]
fn a_record_that_lost_a_byte_takes_one_of_the_next() {
    let lost = &RECORD[..RECORD.len() - 1];
    let pack = [&[0; 4], lost, RECORD].concat();
    let kept = [b"\x01\0\0\0", lost, b"\xFD"].concat();
    assert_eq!(salvaged(&pack), (kept, vec![14, 9]));
}

#[test]
fn it_stops_after_4096_records() {
    let small = b"\xFD\xFE\x01a\0\0\0\0";
    let pack = [&[0; 4], &small.repeat(4098)[..]].concat();
    let kept = [&[0, 16, 0, 0], &small.repeat(4096)[..]].concat();
    let behind = kept.len() as u64;
    assert_eq!(salvaged(&pack), (kept, vec![behind, 16]));
}

#[test]
fn refusals_in_order() {
    let pack = [&[0; 4], &b"x"[..], RECORD].concat();
    let refused = |number, place| Err(Refusal { number, place });
    assert_eq!(salvage(&pack[..3], &mut [], &mut []), refused(1, 0));
    let (mut out, mut list) = ([0xEE; 14], [7; 2]);
    assert_eq!(salvage(&pack, &mut out[..13], &mut []), refused(21, 14));
    assert_eq!(salvage(&pack, &mut out, &mut list[..1]), refused(52, 1));
    assert_eq!((out, list), ([0xEE; 14], [7; 2]));
    let (length, stretches) = (14, 1);
    let whole = Ok(Salvaged { length, stretches });
    assert_eq!(salvage(&pack, &mut out, &mut list), whole);
    assert_eq!(list, [4, 1]);
}

#[test]
fn kept_packs_give_their_answers() {
    for sample in corpus::packs::folder::kept_damaged_packs() {
        let answer = if sample.bytes.len() < 4 {
            let refusal = salvage(&sample.bytes, &mut [], &mut []).expect_err("too short");
            Err((refusal.number, refusal.place as u64))
        } else {
            Ok(salvaged(&sample.bytes))
        };
        assert_eq!(answer, sample.expected(), "{}", sample.name);
    }
}

/// The kept pack of a padded length, with just enough room and with less.
#[test]
fn a_kept_pack_with_just_enough_room() {
    let packs = corpus::packs::folder::kept_damaged_packs();
    let found = packs.iter().find(|it| it.name == "salvage-padded-length");
    let pack = &found.expect("it is kept").bytes;
    let answer = |bytes, words| salvage(pack, &mut vec![0; bytes], &mut vec![0; words]);
    let (length, stretches) = (23, 2);
    assert_eq!(answer(23, 4), Ok(Salvaged { length, stretches }));
    let refused = |number, place| Err(Refusal { number, place });
    assert_eq!(answer(23, 3), refused(52, 2));
    assert_eq!(answer(22, 3), refused(21, 23));
}
