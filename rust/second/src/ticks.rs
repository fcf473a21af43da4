//! Times in ticks.

const TICKS_PER_SECOND: i64 = 10_000_000;

/// Whole seconds, rounded down, and the ticks above them.
#[derive(Clone, Copy, Debug, PartialEq, Eq)]
pub struct Time {
    pub seconds: i64,
    pub ticks: u32,
}

pub fn split_ticks(ticks: i64) -> Time {
    Time {
        seconds: ticks.div_euclid(TICKS_PER_SECOND),
        ticks: ticks.rem_euclid(TICKS_PER_SECOND) as u32,
    }
}
