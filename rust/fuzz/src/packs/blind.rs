//! Damage whose outcome is not foretold.

use crate::random::Random;
use corpus::packs::{set_count, Places, WrittenPack};

/// Damages a written pack once to a few times.
pub fn damaged(random: &mut Random, written: WrittenPack) -> Vec<u8> {
    let WrittenPack { mut bytes, places } = written;
    for _ in 0..=random.below(3) {
        let place = some_place(random, &bytes, &places);
        damage(random, &mut bytes, place);
    }
    bytes
}

/// The start of a field, or any place.
fn some_place(random: &mut Random, bytes: &[u8], places: &[Places]) -> usize {
    if places.is_empty() || random.chance(40) {
        return random.below(bytes.len() + 1);
    }
    let record = random.pick(places);
    let fields = [
        record.start,
        record.count,
        record.path,
        record.size,
        record.data,
        record.end,
    ];
    // A place of an earlier state may be past the end now.
    random.pick(&fields).min(bytes.len())
}

/// A cut, a flip, another byte, an insertion, a deletion, a repetition, or another file count.
pub fn damage(random: &mut Random, bytes: &mut Vec<u8>, place: usize) {
    let edges = [
        0, 1, 2, 4, 5, 0x10, 0x7F, 0x80, 0x81, 0x84, 0xC3, 0xFD, 0xFE, 0xFF,
    ];
    let span = 1 + random.below(5);
    let end = (place + span).min(bytes.len());
    match random.below(10) {
        0 => bytes.truncate(place),
        1 => {
            let new = random.bytes(span);
            bytes.splice(place..place, new);
        }
        2 => {
            bytes.drain(place..end);
        }
        3 => {
            let copy = bytes[place..end].to_vec();
            bytes.splice(end..end, copy);
        }
        4 if bytes.len() >= 4 => {
            let count = random.pick(&[0, 1, 2, 3, 7, 4096, 4097, u32::MAX]);
            set_count(bytes, count);
        }
        5 => {
            let new = random.bytes(end - place);
            bytes.splice(place..end, new);
        }
        6..=7 => {
            if let Some(byte) = bytes.get_mut(place) {
                *byte = random.pick(&edges);
            }
        }
        _ => {
            if let Some(byte) = bytes.get_mut(place) {
                *byte ^= 1 << random.below(8);
            }
        }
    }
}
