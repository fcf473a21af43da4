//! The second program's rewrite of a case, held to its load.

use crate::known::answer;
use fuzz::Case;
use second::{load, rewrite, Refusal, WORDS_PER_ROW};

/// Rewrites a case with a list of enums lent; answers how many bytes shorter it gets, unless it is refused.
pub fn check_rewrite(name: &str, case: &Case, enums: &[u8]) -> Option<usize> {
    let (loaded, words) = answer(case, enums);
    let mut rewritten_words = vec![0xAAAA_AAAA; case.words];
    let mut out = vec![0xEE; case.bytes.len() + 3];
    let length = rewrite(&case.bytes, enums, &mut rewritten_words, &mut out);
    assert_eq!(rewritten_words, words, "{name}");
    let Ok(length) = length else {
        assert_eq!(length.err(), loaded.err(), "{name}");
        assert!(out.iter().all(|&byte| byte == 0xEE), "{name}");
        return None;
    };
    assert!(out[length..].iter().all(|&byte| byte == 0xEE), "{name}");
    check_new_file(name, case, enums, &words, &out[..length]);
    Some(case.bytes.len() - length)
}

/// The new file has the same rows but for places and lengths, and is rewritten to itself.
fn check_new_file(name: &str, case: &Case, enums: &[u8], words: &[u32], new_file: &[u8]) {
    let mut new_words = vec![0; case.words];
    let answer = load(new_file, enums, &mut new_words);
    assert!(answer.is_ok(), "{name}");
    let rows = words.chunks_exact(WORDS_PER_ROW);
    for (old, new) in rows.zip(new_words.chunks_exact(WORDS_PER_ROW)) {
        assert_eq!((old[0], &old[3..]), (new[0], &new[3..]), "{name}");
    }
    let mut again = vec![0; new_file.len()];
    let length = rewrite(new_file, enums, &mut new_words, &mut again);
    assert_eq!(length, Ok(new_file.len()), "{name}");
    assert_eq!(again, new_file, "{name}");

    let mut too_small = vec![0xEE; new_file.len() - 1];
    let refusal = Refusal {
        number: 21,
        place: new_file.len(),
    };
    let answer = rewrite(&case.bytes, enums, &mut new_words, &mut too_small);
    assert_eq!(answer, Err(refusal), "{name}");
    assert!(too_small.iter().all(|&byte| byte == 0xEE), "{name}");
    assert!(new_words.iter().all(|&word| word == 0), "{name}");
}
