//! Buffers that both programs are lent.

use std::fmt::Debug;

const MARGIN: usize = 8;

/// A buffer for the library, with a margin on each side that must stay, and one for the second program.
pub struct Lent<T> {
    all: Vec<T>,
    second: Vec<T>,
    garbage: T,
}

impl<T: Copy + PartialEq + Debug> Lent<T> {
    pub fn new(garbage: T, count: usize) -> Lent<T> {
        Lent {
            all: vec![garbage; count + 2 * MARGIN],
            second: vec![garbage; count],
            garbage,
        }
    }

    pub fn linked(&mut self) -> &mut [T] {
        let end = self.all.len() - MARGIN;
        &mut self.all[MARGIN..end]
    }

    pub fn second(&mut self) -> &mut [T] {
        &mut self.second
    }

    /// Stops unless both programs left the same, and the margins are as they were.
    pub fn check(&self, what: &str) {
        let end = self.all.len() - MARGIN;
        assert!(
            self.all[MARGIN..end] == self.second,
            "{what}: the buffers differ"
        );
        let margins = self.all[..MARGIN].iter().chain(&self.all[end..]);
        assert!(
            margins.copied().all(|it| it == self.garbage),
            "{what}: a margin"
        );
    }
}
