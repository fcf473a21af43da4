//! Inputs to begin with: kept samples, and generated ones with what is lent for them.

use corpus::folder::{kept_files, kept_files_with_enums};
use corpus::packs::folder::{kept_damaged_packs, kept_marked_packs, kept_packs};
use corpus::xml::kept_samples;

/// A longer input is slow, and says no more.
const LONGEST: usize = 2048;

/// The first inputs of a target.
pub fn seeds(target: &str) -> Vec<Vec<u8>> {
    let all: Vec<Vec<u8>> = match target {
        "load" => files().map(|it| given(&it.1, &it.0)).collect(),
        "rewrite" => files()
            .map(|it| before(&[0], given(&it.1, &it.0)))
            .collect(),
        "packs" => {
            let packs = kept_packs().into_iter().chain(kept_marked_packs());
            packs.map(|it| before(&[63], it.bytes)).collect()
        }
        "salvage" => kept_damaged_packs()
            .into_iter()
            .map(|it| before(&[0, 40], it.bytes))
            .collect(),
        "xml" => {
            let exports = files().map(|it| before(&[0, 250], given(&it.1, &it.0)));
            let imports = kept_samples().into_iter();
            let imports = imports.map(|it| before(&[1, 250], it.xml));
            exports.chain(imports).collect()
        }
        _ => Vec::new(),
    };
    all.into_iter().filter(|it| it.len() <= LONGEST).collect()
}

/// Kept files, each with its list of enum types.
fn files() -> impl Iterator<Item = (Vec<u8>, Vec<u8>)> {
    let plain = kept_files().into_iter().map(|it| (it.bytes, Vec::new()));
    let listed = kept_files_with_enums().into_iter();
    plain.chain(listed.map(|it| (it.bytes, it.enums)))
}

/// A file behind what is lent for it.
fn given(enums: &[u8], file: &[u8]) -> Vec<u8> {
    match u8::try_from(enums.len()) {
        Ok(length) => before(&[255, length], [enums, file].concat()),
        Err(_) => before(&[255, 0], file.to_vec()),
    }
}

fn before(lent: &[u8], rest: Vec<u8>) -> Vec<u8> {
    [lent, &rest].concat()
}
