//! Memory whose length an input decides.

use std::fmt::{self, Display, Formatter};
use std::io;

/// The system has no memory for so many bytes.
#[derive(Clone, Copy, Debug, PartialEq, Eq)]
pub struct OutOfMemory {
    /// How many were asked for.
    pub bytes: usize,
}

impl Display for OutOfMemory {
    fn fmt(&self, out: &mut Formatter) -> fmt::Result {
        write!(out, "no memory for {} bytes", self.bytes)
    }
}

impl std::error::Error for OutOfMemory {}

impl From<OutOfMemory> for io::Error {
    fn from(error: OutOfMemory) -> io::Error {
        io::Error::new(io::ErrorKind::OutOfMemory, error)
    }
}

/// Why nothing was made: what was given breaks a rule, or the system has no memory for what is made.
#[derive(Clone, Copy, Debug, PartialEq, Eq)]
pub enum NotMade<R> {
    /// What was given breaks a rule.
    Refused(R),
    /// The system has no memory for what is made.
    OutOfMemory(OutOfMemory),
}

impl<R> NotMade<R> {
    /// The rule that is broken, if one is.
    pub fn refused(self) -> Option<R> {
        match self {
            NotMade::Refused(refused) => Some(refused),
            NotMade::OutOfMemory(_) => None,
        }
    }
}

impl<R> From<OutOfMemory> for NotMade<R> {
    fn from(error: OutOfMemory) -> NotMade<R> {
        NotMade::OutOfMemory(error)
    }
}

impl<R: Display> Display for NotMade<R> {
    fn fmt(&self, out: &mut Formatter) -> fmt::Result {
        match self {
            NotMade::Refused(refused) => refused.fmt(out),
            NotMade::OutOfMemory(error) => error.fmt(out),
        }
    }
}

impl<R: fmt::Debug + Display> std::error::Error for NotMade<R> {}

/// An empty vector with room for so many; a refusal of the system's is an error, where `Vec` would end the program.
pub(crate) fn with_room<T>(length: usize) -> Result<Vec<T>, OutOfMemory> {
    let mut room = Vec::new();
    let bytes = length.saturating_mul(size_of::<T>());
    let reserved = room.try_reserve_exact(length);
    reserved.map_err(|_| OutOfMemory { bytes })?;
    Ok(room)
}

/// So many zeros.
pub(crate) fn zeros<T: Clone + Default>(length: usize) -> Result<Vec<T>, OutOfMemory> {
    let mut zeros = with_room(length)?;
    zeros.resize(length, T::default());
    Ok(zeros)
}

#[cfg(test)]
mod tests {
    use super::*;

    #[test]
    fn memory_that_is_refused_is_an_error() {
        assert_eq!(zeros(3), Ok(vec![0u64; 3]));
        let most = usize::MAX / 8;
        let refused = zeros::<u64>(most).expect_err("more than there is");
        assert_eq!(refused.bytes, most * 8);
        assert_eq!(
            refused.to_string(),
            format!("no memory for {} bytes", most * 8)
        );
    }
}
