//! Sample XNB 5 files: some written out byte by byte, the others from descriptions in code.
//!
//! While a file is written from a description, the writer notes the rows that a loader must give for it.
//! It shares no code and no table with any loader.

pub mod damaged;
pub mod enums;
pub mod folder;
pub mod lawful;
pub mod literal;
pub mod meshes;
pub mod names;
pub mod packs;
pub mod readers;
pub mod reports;
pub mod sample;
pub mod values;
pub mod writer;
pub mod xml;

pub use sample::Sample;

/// Every sample of the corpus that is loaded with an empty list of enums; `enums::samples` has the others.
pub fn samples() -> Vec<Sample> {
    let mut samples = literal::samples();
    samples.extend(lawful::samples());
    samples.extend(damaged::samples());
    samples.extend(meshes::samples());
    samples
}
