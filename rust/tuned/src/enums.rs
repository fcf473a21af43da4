//! The lent list of enum types (Req 02).

use crate::kinds::kind_of_target;
use crate::names::is_head;
use crate::refusal::{refuse, Refusal, ENUM_LIST};
use std::collections::BTreeMap;

/// The listed names with their sizes.
pub struct EnumList<'l>(BTreeMap<&'l [u8], u8>);

impl<'l> EnumList<'l> {
    /// Reads a list; 32 is placed at the first unlawful entry's number from 0.
    pub fn read(list: &'l [u8]) -> Result<EnumList<'l>, Refusal> {
        let mut sizes = BTreeMap::new();
        let mut rest = list;
        while !rest.is_empty() {
            let number = sizes.len();
            let Some((name, size, behind)) = entry(rest) else {
                return refuse(ENUM_LIST, number);
            };
            if sizes.insert(name, size).is_some() {
                return refuse(ENUM_LIST, number);
            }
            rest = behind;
        }
        Ok(EnumList(sizes))
    }

    /// The size of a listed name.
    pub fn size(&self, name: &[u8]) -> Option<u8> {
        if self.0.is_empty() {
            return None;
        }
        self.0.get(name).copied()
    }
}

/// The name and the size of the first entry and the bytes behind it, if it is whole and lawful by itself.
fn entry(bytes: &[u8]) -> Option<(&[u8], u8, &[u8])> {
    let (&length, rest) = bytes.split_first()?;
    let (name, rest) = rest.split_at_checked(usize::from(length))?;
    let (&size, behind) = rest.split_first()?;
    let lawful = is_head(name) && matches!(size, 1 | 2 | 4 | 8) && kind_of_target(name).is_none();
    lawful.then_some((name, size, behind))
}
