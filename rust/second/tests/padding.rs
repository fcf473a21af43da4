//! Req 06: how many bytes the seven-bit numbers have more than their shortest forms.

use corpus::folder::kept_files;
use corpus::lawful::{file_a, file_b, pad_file};
use corpus::values::{object, padded, text};
use corpus::writer::write;
use second::{load, load_in, read_seven, reported_padding, rewrite, shortest_seven, Shape};
use second::{Refusal, WORDS_PER_ROW};

/// The padding that is reported of a file, with room for 1,024 rows.
fn reported(file: &[u8]) -> usize {
    reported_padding(load(file, &[], &mut vec![7; WORDS_PER_ROW * 1024]))
}

/// The number in so many bytes.
fn in_bytes(number: u32, width: usize) -> Vec<u8> {
    let groups = (0..width).map(|index| (u64::from(number) >> (7 * index)) as u8 | 0x80);
    let mut bytes: Vec<u8> = groups.collect();
    bytes[width - 1] &= 0x7F;
    bytes
}

#[test]
fn a_number_says_its_padding() {
    for shift in 0..32 {
        for number in [0, 1 << shift, (1 << shift) - 1, u32::MAX << shift] {
            let shortest = shortest_seven(number);
            for width in shortest.len()..=5 {
                let mut bytes = in_bytes(number, width);
                // What stands behind the number is not looked at.
                bytes.extend([0xFF, 0]);
                let seven = read_seven(&bytes).expect("a number");
                assert_eq!((seven.value, seven.width), (number, width));
                assert_eq!(seven.padding, width - shortest.len(), "{number}");
            }
        }
    }
}

#[test]
fn files_a_and_b() {
    assert_eq!(reported(&write(&file_a()).bytes), 0);
    assert_eq!(reported(&write(&file_b()).bytes), 0);
    // P4: B with its text count as 82 00.
    let mut file = file_b();
    file.objects = vec![object(1, padded(2, text("Hi")))];
    assert_eq!(reported(&write(&file).bytes), 1);
    // The reader count, a name's length, the shared count, a type id and a text count.
    for width in 1..=5 {
        let mut file = file_b();
        pad_file(width, &mut file);
        assert_eq!(reported(&write(&file).bytes), 5 * (width - 1));
    }
}

#[test]
fn kept_files_report_their_padding() {
    for file in kept_files() {
        assert_eq!(reported(&file.bytes), file.padding, "{}", file.name);
    }
    for sample in corpus::samples() {
        assert_eq!(reported(&sample.bytes), sample.padding, "{}", sample.name);
    }
}

/// "It is proved equal to the file's length less the rewritten file's length."
#[test]
fn the_total_is_what_a_rewrite_takes_away() {
    for sample in corpus::samples() {
        let file = sample.bytes;
        let mut words = vec![7; WORDS_PER_ROW * 1024];
        for shape in Shape::BOTH {
            let answer = load_in(shape, &file, &[], &mut words);
            let mut out = vec![0; file.len()];
            let Ok(length) = rewrite(&file, &[], &mut words, &mut out) else {
                assert_eq!(reported_padding(answer), 0, "{}", sample.name);
                continue;
            };
            let padding = reported_padding(answer);
            assert_eq!(padding, file.len() - length, "{}", sample.name);
            let is_shortest = out[..length] == file;
            assert_eq!(padding == 0, is_shortest, "{}", sample.name);
            assert_eq!(reported(&out[..length]), 0, "{}", sample.name);
        }
    }
}

/// Padded numbers are read before each of these faults.
#[test]
fn refused_files_report_0() {
    let mut file = file_b();
    pad_file(5, &mut file);
    let bytes = write(&file).bytes;
    let refused = |words: usize, bytes: &[u8], number| {
        let answer = load(bytes, &[], &mut vec![7; words]);
        let found = answer.map_err(|Refusal { number, .. }| number);
        assert_eq!(found.map(|_| ()), Err(number));
        assert_eq!(reported_padding(answer), 0, "refusal {number}");
    };
    refused(WORDS_PER_ROW - 1, &bytes, 19);
    let mut longer = bytes.clone();
    longer.push(0);
    longer[6] += 1;
    refused(WORDS_PER_ROW, &longer, 20);
    let mut cut = bytes.clone();
    cut.pop();
    cut[6] -= 1;
    refused(WORDS_PER_ROW, &cut, 1);
}
