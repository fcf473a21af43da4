//! The proved library beside the second program, over one input of any bytes.
//!
//! A target takes the first bytes of an input for what is lent, and reads the rest. It stops where an answer, or a byte or
//! word of a lent buffer, differs. `seeds` gives inputs to begin with; `guided/run` has afl++ look for more.

mod files;
mod lent;
mod packs;
mod seeds;
mod texts;

pub use seeds::seeds;

/// Compares both programs over an input.
pub type Target = fn(&[u8]);

/// What can be compared, by name.
pub const TARGETS: [(&str, Target); 5] = [
    ("load", files::load),
    ("rewrite", files::rewrite),
    ("packs", packs::packs),
    ("salvage", packs::salvage),
    ("xml", texts::xml),
];

/// The target of this name.
pub fn target(name: &str) -> Option<Target> {
    let (_, target) = TARGETS.iter().find(|(known, _)| *known == name)?;
    Some(*target)
}

/// The answer of the second program as the library packs it.
fn packed(answer: Result<usize, second::Refusal>) -> u64 {
    match answer {
        Ok(number) => number as u64,
        Err(refusal) => (u64::from(refusal.number) << 32) + refusal.place as u64,
    }
}

/// The answer of the second program as the library gives it in two numbers.
fn in_two(answer: Result<usize, second::Refusal>) -> (u32, u64) {
    match answer {
        Ok(number) => (0, number as u64),
        Err(refusal) => (refusal.number, refusal.place as u64),
    }
}
