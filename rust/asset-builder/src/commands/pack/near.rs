//! The path that may be meant by one that is not found.

use super::Stored;
use std::ffi::OsStr;

/// So many letters may differ.
const FEW: usize = 2;

/// The path of the pack that is the one asked for but for separators, case or a few letters.
pub fn near<'f>(path: &OsStr, files: &'f [Stored]) -> Option<&'f str> {
    let asked = plain(&path.to_string_lossy());
    let paths = files.iter().map(|file| file.path.as_str());
    let distances = paths.map(|it| (distance(&asked, &plain(it)), it));
    let nearest = distances.min_by_key(|(distance, _)| *distance);
    // A short path is near to many others.
    nearest
        .filter(|(distance, _)| *distance <= FEW.min(asked.len() / 3))
        .map(|(_, it)| it)
}

/// A path with one case and one separator.
fn plain(path: &str) -> Vec<char> {
    let lower = path.chars().flat_map(char::to_lowercase);
    lower.map(|it| if it == '\\' { '/' } else { it }).collect()
}

/// How many letters are to be put in, left out or changed.
fn distance(one: &[char], other: &[char]) -> usize {
    if one.len().abs_diff(other.len()) > FEW {
        return usize::MAX;
    }
    let mut row: Vec<usize> = (0..=other.len()).collect();
    for (i, letter) in one.iter().enumerate() {
        let mut before = row[0];
        row[0] = i + 1;
        for (j, it) in other.iter().enumerate() {
            let changed = before + usize::from(letter != it);
            before = row[j + 1];
            row[j + 1] = changed.min(row[j] + 1).min(before + 1);
        }
    }
    row[other.len()]
}

#[cfg(test)]
mod tests {
    use super::*;

    fn near_one<'f>(path: &str, files: &'f [Stored]) -> Option<&'f str> {
        near(OsStr::new(path), files)
    }

    #[test]
    fn separators_case_and_a_few_letters_are_near() {
        let stored = |path: &str| Stored {
            path: path.to_string(),
            first: 0,
            length: 0,
        };
        let files = ["Fonts\\Größe", "fonts\\door", "a"].map(stored);
        assert_eq!(near_one("fonts/door", &files), Some("fonts\\door"));
        assert_eq!(near_one("FONTS/GRÖßE", &files), Some("Fonts\\Größe"));
        assert_eq!(near_one("fonts\\dor", &files), Some("fonts\\door"));
        assert_eq!(near_one("fonts\\doorbell", &files), None);
        assert_eq!(near_one("b", &files), None);
        assert_eq!(near_one("", &files), None);
    }
}
