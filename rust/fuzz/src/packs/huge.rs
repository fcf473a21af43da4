//! A pack of over 4 GiB in zeroed memory that is hardly touched.

use corpus::packs::{stored, write_pack, Places};
use std::alloc::{alloc_zeroed, Layout};

/// The length of the pack, 5 GiB.
pub const LENGTH: usize = 5 << 30;

/// A pack whose later files stand behind the 4 GiB of its first one.
pub struct Huge {
    pub bytes: Vec<u8>,
    pub places: Vec<Places>,
    /// The paths of the files, in order.
    pub paths: Vec<&'static str>,
    /// The data of the second file; that of all others is zero.
    pub data: Vec<u8>,
}

/// The pack with this mark before each record, or a word on why there is none.
///
/// Its second file holds the data given; the last has none and stands at the very end.
pub fn huge(mark: &[u8], data: Vec<u8>) -> Result<Huge, String> {
    let mut bytes = zeroed(LENGTH).ok_or("5 GiB of memory cannot be had")?;
    let paths = vec!["First", "Behind 4 GiB", "Rest", "End"];
    bytes[..4].copy_from_slice(&(paths.len() as u32).to_le_bytes());
    let mut places: Vec<Places> = Vec::new();
    for (number, path) in paths.iter().enumerate() {
        let start = places.last().map_or(4, |record| record.end);
        // A record without data, moved here.
        let empty = write_pack(mark, &[stored(*path, "")]);
        let head = &empty.bytes[4..];
        let data_at = start + head.len();
        let last_head = mark.len() + 1 + "End".len() + 4;
        let size = match number {
            0 => u32::MAX as usize,
            1 => data.len(),
            2 => LENGTH - last_head - data_at,
            _ => 0,
        };
        let record = empty.places[0];
        let moved = |place: usize| place - 4 + start;
        bytes[start..data_at].copy_from_slice(head);
        bytes[moved(record.size)..data_at].copy_from_slice(&(size as u32).to_le_bytes());
        if number == 1 {
            bytes[data_at..data_at + size].copy_from_slice(&data);
        }
        places.push(Places {
            start,
            count: moved(record.count),
            path: moved(record.path),
            size: moved(record.size),
            data: data_at,
            end: data_at + size,
        });
    }
    assert_eq!(places[3].end, LENGTH);
    Ok(Huge {
        bytes,
        places,
        paths,
        data,
    })
}

/// Zeroed bytes that take no memory before they are written, or nothing where they are refused.
fn zeroed(length: usize) -> Option<Vec<u8>> {
    let layout = Layout::array::<u8>(length).ok()?;
    // SAFETY: the layout is not empty.
    let start = unsafe { alloc_zeroed(layout) };
    if start.is_null() {
        return None;
    }
    // SAFETY: the memory is the global allocator's, of just this layout, and every byte is zero.
    Some(unsafe { Vec::from_raw_parts(start, length, length) })
}
