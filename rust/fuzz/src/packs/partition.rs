//! What Req 11 says of every salvage, in its own words.

use super::salvage::MARK;

/// Stops unless kept records with marks, skipped bytes and the four count bytes make up the input.
///
/// The table is that of the output as a marked pack, four words a file; the list has two words a
/// stretch. Stretches stand in file order, joined where they touch, and none is empty.
pub fn check_partition(name: &str, pack: &[u8], out: &[u8], table: &[u64], list: &[u64]) {
    let count = (table.len() / 4) as u32;
    assert_eq!(out[..4], count.to_le_bytes(), "{name}: the right count");
    let mut skipped = list.chunks_exact(2).peekable();
    let mut skip_at = |at: usize| {
        let stretch = skipped.next_if(|stretch| stretch[0] == at as u64);
        let length = stretch.map_or(0, |stretch| stretch[1] as usize);
        assert_eq!(stretch.is_some(), length > 0, "{name}: an empty stretch");
        at + length
    };
    let (mut at, mut out_at) = (4, 4);
    for file in table.chunks_exact(4) {
        at = skip_at(at);
        let end = (file[2] + file[3]) as usize;
        let record = &out[out_at..end];
        assert!(record.starts_with(MARK), "{name}: the mark at {out_at}");
        assert!(pack[at..].starts_with(record), "{name}: the record at {at}");
        (at, out_at) = (at + record.len(), end);
    }
    at = skip_at(at);
    assert_eq!((at, out_at), (pack.len(), out.len()), "{name}: the ends");
    assert_eq!(skipped.next(), None, "{name}: a stretch is left");
}
