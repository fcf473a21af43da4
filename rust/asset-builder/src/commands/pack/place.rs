//! Where a file of a pack goes below a folder.

use std::fs;
use std::io::{self, ErrorKind};
use std::path::{Path, PathBuf};

/// The parts of a path, its folders and its name; or why it names no place below a folder.
pub fn parts(path: &str) -> Result<Vec<&str>, &'static str> {
    if path.starts_with(is_separator) {
        return Err("it begins with a separator");
    }
    if path.bytes().any(|byte| byte < 0x20) {
        return Err("it has a byte below 20 hex");
    }
    let parts: Vec<&str> = path.split(is_separator).collect();
    for part in &parts {
        match part.as_bytes() {
            b"" => return Err("a part of it is empty"),
            b"." => return Err("a part of it is ."),
            b".." => return Err("a part of it is .."),
            [letter, b':', ..] if letter.is_ascii_alphabetic() => {
                return Err("it has a drive letter");
            }
            _ => {}
        }
    }
    Ok(parts)
}

fn is_separator(character: char) -> bool {
    matches!(character, '/' | '\\')
}

/// The place of these parts below a folder, the folders on the way being made.
///
/// A link on the way or at the place is an error, so the place is below the folder.
pub fn make_place(folder: &Path, parts: &[&str]) -> io::Result<PathBuf> {
    let mut place = folder.to_path_buf();
    let (name, folders) = parts.split_last().ok_or(ErrorKind::InvalidInput)?;
    for part in folders {
        place.push(part);
        if let Err(error) = fs::create_dir(&place) {
            match fs::symlink_metadata(&place) {
                Ok(there) if there.is_dir() => {}
                Ok(there) if there.is_symlink() => return Err(link_at(&place)),
                Ok(_) => return Err(ErrorKind::NotADirectory.into()),
                Err(_) => return Err(error),
            }
        }
    }
    place.push(name);
    match fs::symlink_metadata(&place) {
        Ok(there) if there.is_symlink() => Err(link_at(&place)),
        Ok(there) if there.is_dir() => Err(ErrorKind::IsADirectory.into()),
        _ => Ok(place),
    }
}

fn link_at(place: &Path) -> io::Error {
    let place = crate::names::shown(place);
    io::Error::other(format!("{place} is a link, which is not followed"))
}

#[cfg(test)]
mod tests {
    use super::*;

    #[test]
    fn separators_part_a_path() {
        assert_eq!(parts("a"), Ok(vec!["a"]));
        assert_eq!(parts("a/b\\c d/ü.x"), Ok(vec!["a", "b", "c d", "ü.x"]));
        assert_eq!(parts("..."), Ok(vec!["..."]));
        assert_eq!(parts(".a/b."), Ok(vec![".a", "b."]));
        assert_eq!(parts("1:/ab:"), Ok(vec!["1:", "ab:"]));
        assert_eq!(parts("\u{7F} "), Ok(vec!["\u{7F} "]));
    }

    #[test]
    fn other_paths_name_no_place() {
        let separator = Err("it begins with a separator");
        for path in ["/", "\\", "/a", "\\a", "//a", "\\\\host\\a"] {
            assert_eq!(parts(path), separator, "{path}");
        }
        let empty = Err("a part of it is empty");
        for path in ["", "a/", "a\\", "a//b", "a\\\\b", "a/\\b"] {
            assert_eq!(parts(path), empty, "{path}");
        }
        for path in [".", "./a", "a\\.", "a/./b"] {
            assert_eq!(parts(path), Err("a part of it is ."), "{path}");
        }
        for path in ["..", "..\\a", "a/..", "a/..\\b"] {
            assert_eq!(parts(path), Err("a part of it is .."), "{path}");
        }
        for path in ["C:", "c:\\a", "z:a", "a/B:"] {
            assert_eq!(parts(path), Err("it has a drive letter"), "{path}");
        }
        for path in ["\0", "a\n", "a/\x1F/b", "\x1B[2J"] {
            assert_eq!(parts(path), Err("it has a byte below 20 hex"), "{path:?}");
        }
    }
}
