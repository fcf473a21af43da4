//! The rewriter.

use corpus::lawful::{file_a, file_b, pad_file};
use corpus::values::{object, padded, text};
use corpus::writer::write;
use second::{load, rewrite, Refusal, WORDS_PER_ROW};

/// File B of 01 with its text count as 82 00.
fn padded_b() -> Vec<u8> {
    let mut file = file_b();
    file.objects = vec![object(1, padded(2, text("Hi")))];
    write(&file).bytes
}

#[test]
fn p4_the_padded_text_count() {
    let b = write(&file_b()).bytes;
    let padded = padded_b();
    assert_eq!(padded[62..64], [0x82, 0x00]);
    let mut words = [7; 10];
    assert!(load(&padded, &[], &mut words).is_ok());
    assert_eq!(words, [13, 61, 5, 0, 0, 1, 1, 0, 0, 0]);

    let mut words = [7; 10];
    let mut out = [0xEE; 80];
    assert_eq!(rewrite(&padded, &[], &mut words, &mut out), Ok(65));
    assert_eq!(out[..65], b[..]);
    assert_eq!(out[65..], [0xEE; 15]);
    assert_eq!(words, [13, 61, 5, 0, 0, 1, 1, 0, 0, 0]);
}

#[test]
fn an_output_of_just_the_bytes_needed() {
    let mut out = [0xEE; 65];
    assert_eq!(rewrite(&padded_b(), &[], &mut [0; 7], &mut out), Ok(65));
    let mut words = [7; 7];
    let mut out = [0xEE; 64];
    let refusal = Refusal {
        number: 21,
        place: 65,
    };
    assert_eq!(
        rewrite(&padded_b(), &[], &mut words, &mut out),
        Err(refusal)
    );
    assert_eq!(out, [0xEE; 64]);
    assert_eq!(words, [0; 7]);
}

#[test]
fn load_faults_come_before_the_output() {
    let mut file = write(&file_a()).bytes;
    file[12] = 1;
    let mut words = [7; 7];
    let refusal = Refusal {
        number: 13,
        place: 12,
    };
    assert_eq!(rewrite(&file, &[], &mut words, &mut []), Err(refusal));
    assert_eq!(words, [0; 7]);
    let no_room = Refusal {
        number: 19,
        place: 12,
    };
    file[12] = 0;
    assert_eq!(rewrite(&file, &[], &mut [], &mut [0; 99]), Err(no_room));
}

#[test]
fn every_lawful_sample_in_every_padding_becomes_its_shortest_form() {
    for (name, file) in shortest_files() {
        let shortest = write(&file).bytes;
        for width in 1..=5 {
            let mut padded = file.clone();
            pad_file(width, &mut padded);
            let input = write(&padded).bytes;
            let mut words = vec![7; WORDS_PER_ROW * 64];
            let mut expected_words = words.clone();
            assert!(load(&input, &[], &mut expected_words).is_ok());
            let mut out = vec![0xEE; input.len()];
            let length = rewrite(&input, &[], &mut words, &mut out);
            assert_eq!(length, Ok(shortest.len()), "{name}");
            assert_eq!(out[..shortest.len()], shortest[..], "{name}");
            assert!(out[shortest.len()..].iter().all(|&byte| byte == 0xEE));
            assert_eq!(words, expected_words);
        }
    }
}

/// Files with every kind of seven-bit number.
fn shortest_files() -> Vec<(&'static str, corpus::writer::File)> {
    use corpus::lawful::{font_fields, font_readers, page_to, PAGE_READERS};
    use corpus::values::{file, font, texture};
    let ring = file(
        &PAGE_READERS,
        object(1, page_to("a", 2, 1)),
        vec![
            object(1, page_to("b", 2, 1)),
            object(3, texture(0, 1, 1, 1)),
        ],
    );
    let letters = file(&font_readers(), object(1, font(font_fields("az"))), vec![]);
    vec![
        ("a", file_a()),
        ("b", file_b()),
        ("ring", ring),
        ("font", letters),
    ]
}
