//! Searching one column.

/// The words that are compared at once, a bit for each.
const BLOCK: usize = u32::BITS as usize;

/// The places of a word in a column, in order.
pub fn places(column: &[u32], word: u32) -> impl Iterator<Item = u32> + '_ {
    let (blocks, rest) = column.as_chunks::<BLOCK>();
    let matches = blocks.iter().map(move |block| equal(block, word));
    let matches = matches.chain([equal(rest, word)]);
    let starts = (0..).step_by(BLOCK);
    starts
        .zip(matches)
        .flat_map(|(start, bits)| ones(bits).map(move |bit| start + bit))
}

/// A bit for each of at most 32 words, set where it is the one searched; without a branch, so that the compiler makes
/// vector code of it for a block.
#[inline]
fn equal(words: &[u32], word: u32) -> u32 {
    let words = words.iter().enumerate();
    words.fold(0, |bits, (place, it)| {
        bits | u32::from(*it == word) << place
    })
}

/// The numbers of the bits that are set, lowest first.
fn ones(mut bits: u32) -> impl Iterator<Item = u32> {
    std::iter::from_fn(move || {
        if bits == 0 {
            return None;
        }
        let lowest = bits.trailing_zeros();
        bits &= bits - 1;
        Some(lowest)
    })
}

#[cfg(test)]
mod tests {
    use super::*;

    #[test]
    fn each_place_is_found_once_and_in_order() {
        // Columns of every length to three blocks, with a word at each place, at every third, and nowhere.
        for length in 0..3 * BLOCK as u32 {
            for step in [1, 3, u32::MAX] {
                let is_there = |place: &u32| place % step == step - 1;
                let column: Vec<u32> = (0..length).map(|it| u32::from(is_there(&it)) + 6).collect();
                let expected: Vec<u32> = (0..length).filter(is_there).collect();
                let found: Vec<u32> = places(&column, 7).collect();
                assert_eq!(found, expected, "length {length}, step {step}");
            }
        }
    }
}
