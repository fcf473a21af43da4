//! Buffers to be lent: garbage with margins that must stay as they were.

use std::fmt::Debug;

/// A buffer of garbage; its middle is lent and its margins must stay.
pub struct Lent<T> {
    all: Vec<T>,
    garbage: T,
}

const MARGIN: usize = 8;

impl<T: Copy + PartialEq + Debug> Lent<T> {
    pub fn new(garbage: T, count: usize) -> Lent<T> {
        let all = vec![garbage; count + 2 * MARGIN];
        Lent { all, garbage }
    }

    pub fn middle(&mut self) -> &mut [T] {
        let end = self.all.len() - MARGIN;
        &mut self.all[MARGIN..end]
    }

    /// Stops unless the middle is what the other program left and the margins are garbage.
    pub fn check(&mut self, name: &str, expected: &[T]) {
        assert!(self.middle() == expected, "{name}: the buffers differ");
        let end = self.all.len() - MARGIN;
        let margins = self.all[..MARGIN].iter().chain(&self.all[end..]);
        assert!(margins.copied().all(|it| it == self.garbage), "{name}");
    }
}
