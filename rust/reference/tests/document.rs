//! The examples and the edges of document 01.

mod common;

use common::{filled, header_a, hex, read, seal, seal_a, with, HEADER_A, HEADER_FOUR};
use reference::inputs::{lent, lent_table};
use reference::*;

fn encoded(text: &str) -> Result<Vec<u8>, (usize, usize)> {
    filled(8192, |out| c40_write(text.as_bytes(), out))
}

fn decoded(bytes: &str) -> Result<Vec<u8>, (usize, usize)> {
    filled(8192, |out| c40_read(&hex(bytes), out))
}

#[test]
fn c40_examples() {
    let cases = [
        ("VISA01", "DE 51 58 26"),
        ("XKCD", "EB 11 FE 45"),
        ("XK CD", "EB 04 66 A9"),
        ("ZZZ", "FA 00"),
        ("D  ", "6A BC"),
        ("", ""),
    ];
    for (text, bytes) in cases {
        assert_eq!(encoded(text), Ok(hex(bytes)));
        assert_eq!(decoded(bytes), Ok(text.as_bytes().to_vec()));
    }
    assert_eq!(decoded("FA 01"), Err((41, 0)));
}

#[test]
fn every_text_of_three_characters_is_one_pair() {
    let chart = b" 0123456789ABCDEFGHIJKLMNOPQRSTUVWXYZ";
    let mut good = 0;
    for number in 0..=u16::MAX {
        let mut out = [0; 3];
        let answer = c40_read(&number.to_be_bytes(), &mut out);
        let text = &out[..answer.count];
        if answer.number == 0 {
            good += 1;
            assert!(text.iter().all(|character| chart.contains(character)));
            assert_eq!(filled(2, |out| c40_write(text, out)), Ok(number.to_be_bytes().to_vec()));
        } else {
            assert!([41, 46, 47].contains(&answer.number) && answer.place == 0);
        }
    }
    assert_eq!(good, 37 * 37 * 37 + 37 * 37 + 37);
}

#[test]
fn dates_of_the_document() {
    let day = Date { month: 3, day: 25, year: 1957 };
    assert_eq!(date_to_number(day), Numbered { number: 0, place: 0, value: 0x319EF5 });
    assert_eq!(date_from_number(0x319EF5), Dated { number: 0, place: 0, date: day });
    assert_eq!(date_from_number(1_010_001).date, Date::FIRST);
    assert_eq!(date_from_number(12_319_999).date, Date::LAST);
    assert_eq!(date_from_number(1_310_001).number, 0);
    for wrong in [1_320_001, 1_010_000, 1_000_001, 10_001, 13_010_001, 12_320_000, usize::MAX] {
        assert_eq!(date_from_number(wrong), Dated { number: 6, ..Dated::default() });
    }
    for (month, day, year) in
        [(0, 1, 1), (13, 1, 1), (1, 0, 1), (1, 32, 1), (1, 1, 0), (1, 1, 10_000), (usize::MAX, 1, 1)]
    {
        assert_eq!(date_to_number(Date { month, day, year }), Numbered { number: 22, ..Numbered::default() });
    }
}

/// Document 02, Ticket 3: "29 February 2000 is good; 29 February 1900 is not."
#[test]
fn days_of_the_calendar() {
    let good = |month, day, year| date_to_number(Date { month, day, year }).number == 0;
    assert_eq!([1900, 2000, 2004, 2100].map(|year| good(2, 29, year)), [false, true, true, false]);
    for (year, february) in [(1, 28), (4, 29), (100, 28), (400, 29), (1957, 28), (2000, 29), (2100, 28), (9996, 29)] {
        let last = [31, february, 31, 30, 31, 30, 31, 31, 30, 31, 30, 31];
        for (month, last) in (1..).zip(last) {
            assert!((1..=last).all(|day| good(month, day, year)), "{month} {year}");
            assert!((last + 1..40).all(|day| !good(month, day, year)), "{month} {year}");
        }
    }
    assert!((0..=10_000).all(|year| !good(2, 30, year)));
}

#[test]
fn integers_of_the_document() {
    let cases = [
        (0, "02 01 00"),
        (127, "02 01 7F"),
        (128, "02 02 00 80"),
        (-129, "02 02 FF 7F"),
        (-25357, "02 02 9C F3"),
        (-128, "02 01 80"),
        (i64::MAX, "02 08 7F FF FF FF FF FF FF FF"),
        (i64::MIN, "02 08 80 00 00 00 00 00 00 00"),
    ];
    for (value, bytes) in cases {
        let bytes = hex(bytes);
        assert_eq!(filled(12, |out| integer_write(value, out)), Ok(bytes.clone()));
        assert_eq!(filled(bytes.len(), |out| integer_write(value, out)), Ok(bytes.clone()));
        assert_eq!(filled(bytes.len() - 1, |out| integer_write(value, out)), Err((63, 0)));
        assert_eq!(integer_read(&bytes), Integer { number: 0, place: 0, value });
    }
}

#[test]
fn signatures_of_the_document() {
    let mut raw = vec![0; 56];
    (raw[27], raw[55]) = (1, 128);
    let der = hex("30 07 02 01 01 02 02 00 80");
    assert_eq!(filled(9, |out| signature_to_der(28, &raw, out)), Ok(der.clone()));
    assert_eq!(filled(56, |out| signature_to_raw(28, &der, out)), Ok(raw));
    for n in SIGNATURE_SIZES {
        let (zero, most) = (vec![0; 2 * n], vec![0xFF; 2 * n]);
        let least = filled(200, |out| signature_to_der(n, &zero, out));
        assert_eq!(least, Ok(hex("30 06 02 01 00 02 01 00")));
        let greatest = filled(200, |out| signature_to_der(n, &most, out)).unwrap();
        assert_eq!(greatest.len(), if n < 64 { 2 * n + 8 } else { 2 * n + 9 });
        assert_eq!(filled(2 * n, |out| signature_to_raw(n, &greatest, out)), Ok(most));
    }
    let bits: Vec<usize> = SIGNATURE_SIZES.iter().map(|&n| hash(n).bits).collect();
    assert_eq!(bits, [224, 256, 384, 512, 512]);
    assert_eq!(hash(65), Hashed { number: 60, ..Hashed::default() });
}

#[test]
fn seal_a_is_read() {
    let seal = seal_a();
    assert_eq!(seal.len(), 82);
    let (mut table, mut text) = (lent_table(6), lent(11));
    let answer = reference::read(&seal, &mut table, &mut text);
    let ends = Ends { header: 18, message: 24, seal: 82 };
    let signature = Part { place: 26, length: 56 };
    assert_eq!(answer, Reading { number: 0, place: 0, header: header_a(), ends, signature, count: 1, front: 82 });
    assert_eq!(table, [&[10, 18, 20, 4], &lent_table(6)[4..]].concat());
    assert_eq!(text, [&b"UTAB00001"[..], &lent(11)[9..]].concat());
}

#[test]
fn seal_a_is_written() {
    let written = |room| {
        filled(room, |out| write(&header_a(), b"UTAB00001", &[10, 0, 1, 4], &hex("00 DE 51 58 26"), &[0xAA; 56], out))
    };
    assert_eq!(written(100), Ok(seal_a()));
    assert_eq!(written(82), Ok(seal_a()));
    assert_eq!(written(81), Err((28, 0)));
}

#[test]
fn edges_of_seal_a() {
    assert_eq!(read(&[]), (2, 0));
    assert_eq!(read(&[seal_a(), vec![0]].concat()), (11, 82));
    assert_eq!(read(&seal_a()[..81]), (2, 26));
    assert_eq!(read(&seal(HEADER_A, "0A 04 DE 51 58 26 0A 00")), (9, 24));
}

#[test]
fn version_four_names() {
    let text = |length: usize| [&b"UTAB"[..], &b"00001"[5 - length..]].concat();
    let four = |length| Header { version: 4, length, ..header_a() };
    let written = filled(200, |out| write(&four(5), &text(5), &[], &[], &[0xAA; 56], out)).unwrap();
    assert_eq!(written[4..12], hex("D9 B7 5E 6A 19 A5 19 C9"));
    assert_eq!(written, seal(HEADER_FOUR, ""));
    let written = filled(200, |out| write(&four(1), b"UTAB7", &[], &[], &[0xAA; 56], out)).unwrap();
    assert_eq!(written[4..10], hex("D9 B7 5E 66 FE 38"));
    let mut out = [0; 5];
    assert_eq!(reference::read(&written, &mut [], &mut out).header, four(1));
    assert_eq!(&out, b"UTAB7");
}

#[test]
fn lengths_of_both_versions() {
    let value = "55".repeat(128);
    assert_eq!(read(&seal(HEADER_FOUR, &format!("07 81 7F {}", "55".repeat(127)))), (8, 21));
    assert_eq!(read(&seal(HEADER_FOUR, &format!("07 81 80 {value}"))), (0, 0));
    assert_eq!(read(&seal(HEADER_A, &format!("07 80 {value}"))), (0, 0));
    assert_eq!(read(&seal(HEADER_FOUR, &format!("07 80 {value}"))), (8, 21));
    // FF as a version 3 length, and FF inside a value, are no mark.
    assert_eq!(read(&seal(HEADER_A, &format!("07 FF {}", "FF".repeat(255)))), (0, 0));
}

#[test]
fn days_of_a_seal() {
    let day = |month: usize, day: usize, year: usize| {
        let number = month * 1_000_000 + day * 10_000 + year;
        format!("{number:06X}")
    };
    for place in [10, 13] {
        assert_eq!(read(&with(&seal_a(), place, &day(1, 31, 1957))), (0, 0));
        assert_eq!(read(&with(&seal_a(), place, &day(2, 29, 2000))), (0, 0));
        assert_eq!(read(&with(&seal_a(), place, &day(2, 29, 1900))), (6, place));
        assert_eq!(read(&with(&seal_a(), place, &day(2, 30, 1957))), (6, place));
        assert_eq!(read(&with(&seal_a(), place, &day(1, 32, 1957))), (6, place));
        assert_eq!(read(&with(&seal_a(), place, &day(1, 31, 0))), (6, place));
        assert_eq!(read(&with(&seal_a(), place, &day(13, 31, 1))), (6, place));
        assert_eq!(read(&with(&seal_a(), place, "FF FF FF")), (6, place));
    }
}

#[test]
fn words_of_the_numbers() {
    let list: Vec<usize> = (0..=12).chain(20..=28).chain(40..=47).chain(50..=51).chain(60..=63).chain([65]).collect();
    let with_words: Vec<usize> = (0..1000).filter(|&number| !words(number).is_empty()).collect();
    assert_eq!(with_words, list);
    assert_eq!(words(usize::MAX), "");
    assert_eq!(list.iter().map(|&number| words(number).len()).max(), Some(92));
    assert_eq!(filled(16, |out| put_words(9, out)), Ok(b"tag already used".to_vec()));
    assert_eq!(filled(15, |out| put_words(9, out)), Err((63, 0)));
    assert_eq!(filled(0, |out| put_words(13, out)), Ok(vec![]));
}
