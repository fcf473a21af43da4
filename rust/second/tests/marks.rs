//! Marked packs through the second program, word by word of Req 10.

use corpus::packs::folder::{kept_marked_packs, kept_packs};
use second::marks::{mark, marked_read, unmark};
use second::{pack, Refusal};

/// A pack of two files, the first with its path's length in two bytes.
const PLAIN: &[u8] = b"\x02\0\0\0\x83\0One\x02\0\0\0hi\x01b\0\0\0\0";
const MARKED: &[u8] = b"\x02\0\0\0\xFD\xFE\x83\0One\x02\0\0\0hi\xFD\xFE\x01b\0\0\0\0";

fn refused<T>(number: u32, place: usize) -> Result<T, Refusal> {
    Err(Refusal { number, place })
}

#[test]
fn both_ways_round() {
    let mut out = [0xEE; 30];
    assert_eq!(mark(PLAIN, &mut out), Ok(MARKED.len()));
    assert_eq!(out[..MARKED.len()], *MARKED);
    assert!(out[MARKED.len()..].iter().all(|&byte| byte == 0xEE));
    let mut out = [0xEE; 30];
    assert_eq!(unmark(MARKED, &mut out), Ok(PLAIN.len()));
    assert_eq!(out[..PLAIN.len()], *PLAIN);
    assert!(out[PLAIN.len()..].iter().all(|&byte| byte == 0xEE));
    let mut out = [0xEE; 4];
    assert_eq!(mark(&[0; 4], &mut out), Ok(4));
    assert_eq!(out, [0; 4]);
}

#[test]
fn tables_and_lookups() {
    let mut table = [7; 9];
    assert_eq!(marked_read(MARKED, &mut table), Ok(2));
    assert_eq!(table, [8, 3, 15, 2, 20, 1, 25, 0, 0]);
    assert_eq!(pack::find(MARKED, &table, b"one"), Some(&b"hi"[..]));
    assert_eq!(marked_read(MARKED, &mut table[..4]), refused(31, 17));
    assert_eq!(table[..4], [0; 4]);
}

#[test]
fn refusals_leave_the_output() {
    let mut out = [0xEE; 30];
    let needed = MARKED.len();
    assert_eq!(mark(PLAIN, &mut out[..needed - 1]), refused(21, needed));
    let needed = PLAIN.len();
    assert_eq!(unmark(MARKED, &mut out[..needed - 1]), refused(21, needed));
    assert_eq!(unmark(PLAIN, &mut out), refused(51, 4));
    assert_eq!(unmark(&MARKED[..18], &mut out), refused(1, 17));
    assert_eq!(mark(&PLAIN[..3], &mut out), refused(1, 0));
    let longer = [PLAIN, b"\0"].concat();
    assert_eq!(mark(&longer, &mut []), refused(20, PLAIN.len()));
    assert_eq!(out, [0xEE; 30]);
}

#[test]
fn kept_packs_give_their_answers() {
    for sample in kept_marked_packs() {
        let answers = sample.answers_of(
            |pack, table| marked_read(pack, table).map_err(|it| (it.number, it.place as u64)),
            |pack, table, path| {
                let data = pack::find(pack, table, path)?;
                let start = data.as_ptr().addr() - pack.as_ptr().addr();
                Some((start as u64, data.len() as u64))
            },
        );
        assert_eq!(answers, sample.answers, "{}", sample.name);
    }
}

/// `ok-marked-NAME` is `ok-pack-NAME` with marks.
#[test]
fn kept_packs_are_converted_to_each_other() {
    let marked_packs = kept_marked_packs();
    let mut pairs = 0;
    for plain in kept_packs() {
        let name = plain.name.replace("ok-pack-", "ok-marked-");
        let twin = marked_packs.iter().find(|sample| sample.name == name);
        let Some(marked) = twin else {
            continue;
        };
        let mut out = vec![0xEE; marked.bytes.len()];
        assert_eq!(mark(&plain.bytes, &mut out), Ok(out.len()), "{name}");
        assert_eq!(out, marked.bytes, "{name}");
        let mut out = vec![0xEE; plain.bytes.len()];
        assert_eq!(unmark(&marked.bytes, &mut out), Ok(out.len()), "{name}");
        assert_eq!(out, plain.bytes, "{name}");
        pairs += 1;
    }
    assert!(pairs >= 10, "only {pairs} pairs");
}
