//! Long lists, which the tuned loader takes at once: lawful ones, and such with any byte wrong or missing.

use corpus::readers::{array_of, list_of, nullable_target, INT32, STRING};
use corpus::values::{file, null};
use corpus::writer::write;
use fuzz::random::Random;

/// Words for more rows than a file here has.
pub const WORDS: usize = second::WORDS_PER_ROW * 300;

/// Value types without arguments.
const VALUES: [&str; 13] = [
    "System.Byte",
    "System.Int16",
    "System.Int32",
    "System.Double",
    "System.Boolean",
    "System.Char",
    "System.TimeSpan",
    "System.DateTime",
    "System.Decimal",
    "Microsoft.Xna.Framework.Vector3",
    "Microsoft.Xna.Framework.Matrix",
    "Microsoft.Xna.Framework.Color",
    "Coach.Door",
];

/// Bytes that values are made of: with fewer of them more lists are lawful.
const BYTES: [&[u8]; 3] = [&[0, 1], &[0, 0, 1, 2, 3], &[0, 0, 1, 1, 2, 3, b'x', 0x7F]];

/// The bytes of elements: values, nullables, or objects by their ids.
fn elements(random: &mut Random, is_text: bool) -> Vec<u8> {
    let count = random.below(200);
    if is_text {
        let letters = ["x", "\0", "\u{1}", "é", "€", "door"];
        return (0..count)
            .flat_map(|_| random.pick(&letters).bytes())
            .collect();
    }
    let bytes = random.pick(&BYTES);
    (0..count).map(|_| random.pick(bytes)).collect()
}

/// A file of one list or array of values, nullables or objects, over random bytes; `Coach.Door` may be listed.
pub fn case(seed: u64) -> Vec<u8> {
    let random = &mut Random::new(seed);
    let value = random.pick(&VALUES);
    let target = match random.below(3) {
        0 => value.to_string(),
        1 => nullable_target(value),
        _ => "System.Object".to_string(),
    };
    let list = if random.chance(50) {
        list_of(&target)
    } else {
        array_of(&target)
    };
    let readers = [list, INT32.to_string(), STRING.to_string()];
    let mut bytes = write(&file(&readers, null(), vec![])).bytes;
    let is_text = value == "System.Char" && random.chance(70);
    let elements = elements(random, is_text);
    let most = elements.len() + 2;
    bytes.pop();
    bytes.push(1);
    bytes.extend((random.below(most) as u32).to_le_bytes());
    bytes.extend(elements);
    if random.chance(20) {
        let at = random.below(bytes.len() - 10) + 10;
        bytes[at] = random.byte();
    }
    let length = bytes.len() as u32;
    bytes[6..10].copy_from_slice(&length.to_le_bytes());
    bytes
}

/// The file without the bytes that are left over.
pub fn without_rest(file: &[u8], enums: &[u8]) -> Option<Vec<u8>> {
    let refusal = second::load(file, enums, &mut [0; WORDS]).err()?;
    if refusal.number != 20 {
        return None;
    }
    let mut cut = file[..refusal.place].to_vec();
    let length = cut.len() as u32;
    cut[6..10].copy_from_slice(&length.to_le_bytes());
    Some(cut)
}
