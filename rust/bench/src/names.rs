//! Loads of long reader names, taken and refused.

use crate::inputs::{input, Input};
use corpus::names::{nested, tailed};
use corpus::values::{file, null};

const MOST_READERS: usize = 64;

/// 64 readers each; in a refused file all names but the last are taken.
pub fn inputs() -> Vec<Input> {
    let (levels, tail) = (nested(8), tailed(1024));
    let with_last = |name: &str, readers: &str, last: String| {
        let mut readers = vec![readers.to_string(); MOST_READERS];
        readers[MOST_READERS - 1] = last;
        input("names", name, file(&readers, null(), vec![]))
    };
    let refused = |name: &str, readers: &str, last: String| Input {
        is_refused: true,
        ..with_last(name, readers, last)
    };
    let all_but_last = |name: &str| name[..name.len() - 1].to_string();
    vec![
        with_last("names of 8 levels", &levels, levels.clone()),
        with_last("names of 1,024 bytes", &tail, tail.clone()),
        refused("8 levels, refused 36", &levels, all_but_last(&levels)),
        refused(
            "8 levels, refused 11",
            &levels,
            levels.replace("Byte", "Bytes"),
        ),
        refused("1,024 bytes, refused 37", &tail, all_but_last(&tail) + "]"),
    ]
}
