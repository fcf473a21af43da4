//! A pack of over 4 GiB through the second program; apart from the other tests for the memory it asks for.

use corpus::packs::Places;
use fuzz::packs::huge::huge;
use second::pack::{find, marked_read};
use second::Refusal;

#[test]
#[ignore = "asks for 5 GiB of memory, of which it touches little"]
fn a_pack_of_over_4_gib() -> Result<(), String> {
    for mark in [&[][..], &[0xFD, 0xFE]] {
        let mut huge = huge(mark, b"the second file".to_vec())?;
        let expected: Vec<u64> = huge.places.iter().flat_map(Places::entry).collect();
        let mut table = vec![7; 18];
        assert_eq!(marked_read(&huge.bytes, mark, &mut table), Ok(4));
        assert_eq!(table[..16], expected[..]);
        assert_eq!(table[16..], [0; 2]);
        assert!(table[4] > 1 << 32);
        let found = find(&huge.bytes, &table, b"BEHIND 4 gib");
        assert_eq!(found, Some(&b"the second file"[..]));
        assert_eq!(find(&huge.bytes, &table, b"end"), Some(&[][..]));
        assert_eq!(find(&huge.bytes, &table, b"none"), None);

        let refused = |number, place| Err(Refusal { number, place });
        let place = huge.places[1].start;
        let no_room = marked_read(&huge.bytes, mark, &mut table[..7]);
        assert_eq!(no_room, refused(31, place));
        let last = huge.bytes.len() - 1;
        let cut = marked_read(&huge.bytes[..last], mark, &mut table);
        assert_eq!(cut, refused(1, huge.places[3].size));
        huge.bytes[0] = 3;
        let left_over = marked_read(&huge.bytes, mark, &mut table);
        assert_eq!(left_over, refused(20, huge.places[3].start));
    }
    Ok(())
}
