//! Document 02, Ticket 10: "Mark the tag as well as the value." First the reader's rows, then the writer's.

mod common;

use common::{filled, frames_are_features, header_a, hex, read_in, rows, seal, seal_a, HEADER_A, HEADER_FOUR};
use reference::*;

const TEXT: &[u8] = b"UTAB00001";
const SIGNATURE: [u8; 56] = [0xAA; 56];

/// Second numbers: none, small ones, places of Seal A, and great ones.
const SECOND: [usize; 12] = [0, 1, 4, 10, 18, 20, 82, 4096, 1 << 32, 1 << 63, usize::MAX - 1, usize::MAX];

/// A message in hexadecimal: each feature's tag, its length as it is coded, and so many bytes 55.
fn message(features: &[(&str, usize)]) -> String {
    features.iter().map(|(front, length)| format!("{front} {}", "55".repeat(*length))).collect()
}

/// So many empty features, with tags from 0.
fn empty_features(count: usize) -> String {
    (0..count).map(|tag| format!("{tag:02X} 00 ")).collect()
}

/// The rows of an accepted seal, as numbers.
fn numbers(seal: &[u8]) -> Vec<[usize; Row::WIDTH]> {
    rows(seal).into_iter().map(Row::numbers).collect()
}

/// "Each row becomes four numbers: tag, tag place, value place, value length."
#[test]
fn seal_a_has_one_row() {
    assert_eq!(read_in(&seal_a(), 4, 9).1, [10, 18, 20, 4]);
    let (answer, table) = read_in(&seal_a(), 6, 9);
    assert_eq!((answer.count, &table[..4]), (1, &[10, 18, 20, 4][..]));
    frames_are_features(&seal_a());
}

/// In version 4 a value is 2, 3 or 4 bytes behind its tag.
#[test]
fn tags_before_lengths_of_one_two_and_three_bytes() {
    let features =
        [("07 00", 0), ("FE 7F", 127), ("00 81 80", 128), ("0A 81 FF", 255), ("0B 82 01 00", 256), ("0C 00", 0)];
    let seal = seal(HEADER_FOUR, &message(&features));
    let expected = [
        [7, 20, 22, 0],
        [254, 22, 24, 127],
        [0, 151, 154, 128],
        [10, 282, 285, 255],
        [11, 540, 544, 256],
        [12, 800, 802, 0],
    ];
    assert_eq!(numbers(&seal), expected);
    assert_eq!((judge(&seal).ends.header, judge(&seal).ends.message, seal[802]), (20, 802, 0xFF));
    frames_are_features(&seal);
}

/// In version 3 it is 2 behind, whatever the length.
#[test]
fn tags_before_plain_lengths() {
    let seal = seal(HEADER_A, &message(&[("07 00", 0), ("FE 7F", 127), ("00 80", 128), ("0A FF", 255), ("0C 01", 1)]));
    let expected = [[7, 18, 20, 0], [254, 20, 22, 127], [0, 149, 151, 128], [10, 279, 281, 255], [12, 536, 538, 1]];
    assert_eq!(numbers(&seal), expected);
    assert_eq!((judge(&seal).ends.message, seal[539]), (539, 0xFF));
    frames_are_features(&seal);
}

/// The first tag stands at the header's end, wherever that is.
#[test]
fn tags_behind_headers_of_every_length() {
    for length in 1..=255 {
        let header = Header { version: 4, length, ..header_a() };
        let text = [b"UTAB", &[b'Z'; 255][..length]].concat();
        let given =
            Row::table(&[(9, 130), (8, 0)].map(|(tag, value_length)| Row { tag, value_length, ..Row::default() }));
        let seal =
            filled(4096, |out| write(&header, &text, &given, &[0xFF; 130], &SIGNATURE, out)).expect("a legal content");
        let first = 12 + 2 * (6 + length).div_ceil(3);
        let expected = [[9, first, first + 3, 130], [8, first + 133, first + 135, 0]];
        assert_eq!(numbers(&seal), expected);
        frames_are_features(&seal);
    }
}

/// "The camera overlay must frame a whole feature": values that look like tags, lengths and marks frame nothing.
#[test]
fn frames_of_values_that_look_like_features() {
    for header in [HEADER_A, HEADER_FOUR] {
        let seal = seal(header, "0A 04 0B 02 FF 38 FE 03 FF 38 AA 00 00 0B 02 0A 04");
        let found: Vec<_> = rows(&seal).iter().map(|row| (row.tag, row.value_place - row.tag_place)).collect();
        assert_eq!(found, [(10, 2), (254, 2), (0, 2), (11, 2)]);
        frames_are_features(&seal);
    }
    for count in [0, 1, 2, 254, 255] {
        frames_are_features(&seal(HEADER_A, &empty_features(count)));
        frames_are_features(&seal(HEADER_FOUR, &empty_features(count)));
    }
}

/// "Answer 12 is given below 4 numbers a feature": in every room up to enough, 3 numbers a feature and one short among
/// them. A longer room, or one that is not in fours, is fine.
#[test]
fn rooms_below_four_numbers_a_feature() {
    for count in [0, 1, 2, 3, 4, 5, 64, 255] {
        for header in [HEADER_A, HEADER_FOUR] {
            let seal = seal(header, &empty_features(count));
            for room in 0..4 * count + 9 {
                let number = if room < 4 * count { 12 } else { 0 };
                let answer = read_in(&seal, room, 9).0;
                assert_eq!((answer.number, answer.place), (number, 0), "{room} numbers for {count} features");
            }
        }
    }
}

/// 12 comes last: a seal that is not good has its own number in a room of 3 numbers a feature.
#[test]
fn twelve_is_last() {
    let good = seal(HEADER_A, "01 00 02 00");
    for room in [0, 6, 7, 8] {
        assert_eq!(read_in(&[&good[..], &[0]].concat(), room, 9).0.number, 11);
        assert_eq!(read_in(&good[..79], room, 9).0.number, 2);
    }
    assert_eq!(read_in(&good, 8, 8).0.number, 12);
}

/// The answer to a writing of these numbers over the value of Seal A, with a byte before it.
fn written(table: &[usize]) -> Result<Vec<u8>, (usize, usize)> {
    let values = hex("00 DE 51 58 26");
    filled(4096, |out| write(&header_a(), TEXT, table, &values, &SIGNATURE, out))
}

/// "24 for a table not in fours."
#[test]
fn tables_of_every_length() {
    let whole: Vec<usize> = (0..255).flat_map(|tag| [tag, 0, 1, 1]).collect();
    for length in (0..=40).chain(1000..=1020) {
        let number = if length % 4 == 0 { Ok(length / 4) } else { Err((24, 0)) };
        assert_eq!(written(&whole[..length]).map(|seal| rows(&seal).len()), number, "{length} numbers");
    }
}

/// Rows of three, as they were: 24, also where four of them make a table in fours, for then tags are used twice.
#[test]
fn tables_in_threes() {
    for count in 1..=8 {
        let table: Vec<usize> = (1..=count).flat_map(|tag| [tag, 0, 0]).collect();
        assert_eq!(written(&table), Err((24, 0)), "{count} rows of three");
    }
}

/// "The writer takes these rows and ignores the second number."
#[test]
fn the_second_number_does_not_matter() {
    for second in SECOND {
        assert_eq!(written(&[10, second, 1, 4]), Ok(seal_a()), "{second}");
        for other in SECOND {
            let two = written(&[10, second, 1, 4, 254, other, 0, 5]);
            assert_eq!(two, Ok(seal(HEADER_A, "0A 04 DE 51 58 26 FE 05 00 DE 51 58 26")), "{second} {other}");
        }
        // It makes no wrong row good, and the others still count.
        for wrong in [[255, second, 1, 4], [10, second, 1, 5], [10, second, 6, 0], [10, second, usize::MAX, 4]] {
            assert_eq!(written(&wrong), Err((24, 0)), "{second}");
        }
        assert_eq!(written(&[10, second, 1, 4, 10, second, 1, 4]), Err((24, 0)));
        assert_eq!(written(&[10, second, 0, 4]), Ok(seal(HEADER_A, "0A 04 00 DE 51 58")));
    }
}

/// The rows that the reader gave are taken over the seal's own bytes, and other second numbers change nothing.
#[test]
fn rows_that_were_read_are_written() {
    let features = [("07 00", 0), ("FE 7F", 127), ("00 81 80", 128), ("0B 82 01 00", 256)];
    let seal = seal(HEADER_FOUR, &message(&features));
    let header = judge(&seal).header;
    for second in [None].into_iter().chain(SECOND.map(Some)) {
        let table: Vec<usize> = rows(&seal)
            .into_iter()
            .flat_map(|row| Row { tag_place: second.unwrap_or(row.tag_place), ..row }.numbers())
            .collect();
        let again = filled(seal.len(), |out| write(&header, TEXT, &table, &seal, &SIGNATURE, out));
        assert_eq!(again.as_ref(), Ok(&seal), "{second:?}");
    }
}
