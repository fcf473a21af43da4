//! Files with many meshes (Req 05).

mod limits;

pub(crate) use limits::bones;
pub use limits::limits;

use crate::aimed::{self, damage, Damage};
use crate::maker::{make, Planted, Wish};
use crate::random::Random;
use crate::{blind, lawful_case, some_fault, some_words, Case};
use corpus::writer::{write, Field, Written};

/// The case of a seed: a lawful file, one with a known fault, one at a limit, or one damaged at random.
pub fn case(seed: u64) -> Case {
    let mut random = Random::new(seed);
    match random.below(20) {
        0..=4 => {
            let written = write(&make(&mut random, Planted::Nothing, Wish::MESHES).file);
            lawful_case(&mut random, written)
        }
        5..=12 => aimed::aimed_case(&mut random, Wish::MESHES),
        13 => limits::many_bones(&mut random),
        _ => {
            let planted = some_fault(&mut random);
            let written = write(&make(&mut random, planted, Wish::MESHES).file);
            Case {
                bytes: blind::damaged(&mut random, &written),
                words: some_words(&mut random, written.rows.len()),
                known: None,
            }
        }
    }
}

/// How many bytes stand behind a field.
fn left_behind(written: &Written, field: Field) -> u64 {
    (written.bytes.len() - field.end) as u64
}

/// 15 at a size that is no multiple, or 1 at the data's first byte for one that the file cannot hold.
pub fn bad_index_size(
    random: &mut Random,
    written: &Written,
    field: Field,
    multiple: u32,
) -> Option<Damage> {
    if random.chance(30) {
        let left = left_behind(written, field) as u32;
        let next = left - left % multiple + multiple;
        let last = u32::MAX - (multiple - 1);
        let size = random.pick(&[next, next + multiple, 1 << 31, last]);
        return at_data(size);
    }
    let remainder = random.between(1, multiple - 1);
    let whole = random.pick(&[0, 1, 2, 100, u32::MAX / multiple]);
    damage((whole * multiple + remainder).to_le_bytes().to_vec(), 15)
}

/// 1 at the data's first byte: count times stride is more than the file holds, however its low 32 bits look.
pub fn too_many_vertices(
    random: &mut Random,
    written: &Written,
    field: Field,
    stride: u32,
) -> Option<Damage> {
    let left = left_behind(written, field);
    let stride = u64::from(stride);
    let most = u64::from(u32::MAX);
    let past = |bytes: u64| Some(bytes.checked_div(stride)?.saturating_add(1).min(most) as u32);
    let counts = [past(left)?, past(most)?, u32::MAX, 1 << 31];
    let count = random.pick(&counts);
    if u64::from(count) * stride > left {
        at_data(count)
    } else {
        None
    }
}

/// A number whose data, directly behind it, runs past the end.
fn at_data(number: u32) -> Option<Damage> {
    let bytes = number.to_le_bytes().to_vec();
    Some(Damage {
        offset: bytes.len(),
        bytes,
        number: 1,
        ..Damage::default()
    })
}

/// 15: a bone reference above the bone count.
pub fn bone_past_the_last(random: &mut Random, bones: u32) -> Option<Damage> {
    if bones < 255 {
        let byte = random.pick(&[bones + 1, random_above(bones), 255]);
        return damage(vec![byte as u8], 15);
    }
    let number = random.pick(&[bones + 1, 1 << 16, 1 << 24, u32::MAX]);
    damage(number.to_le_bytes().to_vec(), 15)
}

/// A number about half way from the bone count to 255.
fn random_above(bones: u32) -> u32 {
    bones + (255 - bones).div_ceil(2)
}
