//! Reports by the second program: the samples, and the words of Req 14 one by one.

use corpus::packs::folder::kept_packs;
use corpus::reports::{kept_samples, Expected, REPORT_WORDS, ROW_WORDS};
use second::report::{add, sum, Report};
use second::{pack, Refusal};

/// Adds a pack to a report with garbage in both tables, and checks what is left in them.
fn added(pack: &[u8], expected: &Expected) -> Result<Report, (u32, u64)> {
    let (mut table, mut words) = (vec![7; expected.table], vec![7; expected.words]);
    let mut report = expected.before;
    let answer = add(pack, &expected.enums, &mut table, &mut words, &mut report);
    // "The row table is left zero, the pack table as by its reader, zero after 71 and 72."
    assert!(words.iter().all(|&word| word == 0));
    let mut read_table = vec![0; expected.table];
    let read = pack::read(pack, &mut read_table);
    match answer {
        Ok(()) => assert!(read.is_ok() && table == read_table),
        Err(_) => {
            assert!(table.iter().all(|&word| word == 0));
            assert_eq!(report, expected.before, "a refused pack changes no figure");
        }
    }
    match answer {
        Ok(()) => Ok(report),
        Err(refusal) => Err((refusal.number, refusal.place as u64)),
    }
}

#[test]
fn kept_packs_give_their_reports() {
    for sample in kept_samples() {
        let expected = sample.expected();
        assert_eq!(
            added(&sample.pack, &expected),
            expected.answer,
            "{}",
            sample.name
        );
    }
}

/// "Refusals: 72 at 0, first", "those of the pack's reader; then 71".
#[test]
fn refusals_in_order() {
    for sample in kept_packs() {
        let mut table = vec![7; sample.words()];
        let read = pack::read(&sample.bytes, &mut table);
        let expected = |words, before| Expected {
            enums: vec![],
            table: sample.words(),
            words,
            before,
            answer: Err((0, 0)),
        };
        let full = [u64::MAX; REPORT_WORDS];
        let no_room = added(&sample.bytes, &expected(ROW_WORDS - 1, full));
        assert_eq!(no_room, Err((72, 0)), "{}", sample.name);
        let answer = added(&sample.bytes, &expected(ROW_WORDS + 1, full));
        let refused = match read {
            Err(refusal) => Err((refusal.number, refusal.place as u64)),
            Ok(0) => Ok(full),
            Ok(_) => Err((71, 0)),
        };
        assert_eq!(answer, refused, "{}", sample.name);
    }
}

#[test]
fn reports_add() {
    let mut one = [0; REPORT_WORDS];
    let mut other = [0; REPORT_WORDS];
    for word in 0..REPORT_WORDS {
        one[word] = word as u64;
        other[word] = u64::MAX - word as u64;
    }
    let mut total = one;
    assert_eq!(sum(&mut total, &other), Ok(()));
    assert_eq!(total, [u64::MAX; REPORT_WORDS]);
    let (number, place) = (71, 0);
    for word in 0..REPORT_WORDS {
        let mut more = [0; REPORT_WORDS];
        more[word] = 1;
        assert_eq!(sum(&mut total, &more), Err(Refusal { number, place }));
        assert_eq!(total, [u64::MAX; REPORT_WORDS]);
    }
}
