//! The lent list of enum types: Req 02 of document 02.

use crate::kinds::kind_of_target;
use crate::name::is_head;
use crate::refusal::{refuse, Refusal, ENUM_LIST};
use std::collections::BTreeMap;

/// "Sizes 1, 2, 4 or 8."
const SIZES: [u8; 4] = [1, 2, 4, 8];

/// The listed names with their sizes.
pub struct EnumList<'l> {
    sizes: BTreeMap<&'l [u8], usize>,
}

impl<'l> EnumList<'l> {
    /// Reads a list: "for each a name length byte, the name, a size byte".
    ///
    /// 32 is placed at the first unlawful entry's number from 0.
    pub fn read(list: &'l [u8]) -> Result<EnumList<'l>, Refusal> {
        let mut sizes = BTreeMap::new();
        let mut rest = list;
        let mut number = 0;
        while !rest.is_empty() {
            let Some((name, size, behind)) = entry(rest) else {
                return refuse(ENUM_LIST, number);
            };
            let listed_earlier = sizes.insert(name, size).is_some();
            if listed_earlier {
                return refuse(ENUM_LIST, number);
            }
            rest = behind;
            number += 1;
        }
        Ok(EnumList { sizes })
    }

    /// The size of a listed name.
    pub fn size(&self, name: &[u8]) -> Option<usize> {
        self.sizes.get(name).copied()
    }
}

/// The name and the size of the first entry and the bytes behind it, if it is whole and lawful by itself.
fn entry(bytes: &[u8]) -> Option<(&[u8], usize, &[u8])> {
    let (length, rest) = bytes.split_first()?;
    let (name, rest) = rest.split_at_checked(usize::from(*length))?;
    let (size, behind) = rest.split_first()?;
    let is_target_name = kind_of_target(name).is_some();
    let lawful = is_head(name) && !is_target_name && SIZES.contains(size);
    lawful.then_some((name, usize::from(*size), behind))
}
