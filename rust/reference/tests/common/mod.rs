//! What the test programs share: bytes from hexadecimal, Seal A, and calls that also watch the lent memory.
#![allow(dead_code)]

pub mod codes;
pub mod walks;

use codes::rules;
use reference::inputs::{lent, lent_table};
use reference::{why, write, Date, Filled, Header, Reading, Reason, Row};

/// Bytes from hexadecimal digits; spaces do not matter.
pub fn hex(digits: &str) -> Vec<u8> {
    let digits: Vec<u8> = digits.bytes().filter(|digit| !digit.is_ascii_whitespace()).collect();
    digits.chunks(2).map(|two| u8::from_str_radix(std::str::from_utf8(two).unwrap(), 16).unwrap()).collect()
}

/// The two bytes of three C40 values, in hexadecimal.
pub fn pair(a: usize, b: usize, c: usize) -> String {
    format!("{:04X}", 1600 * a + 40 * b + c + 1)
}

/// The header zone of Seal A.
pub const HEADER_A: &str = "DC 02 D9 C5 D9 B7 5E 65 19 A6 31 9E F5 31 9E F5 01 02";

/// The header zone of version 4 with the signer UTAB and the reference 00001.
pub const HEADER_FOUR: &str = "DC 03 D9 C5 D9 B7 5E 6A 19 A5 19 C9 31 9E F5 31 9E F5 01 02";

/// A seal: header and message in hexadecimal, then FF 38 and 56 bytes AA.
pub fn seal(header: &str, message: &str) -> Vec<u8> {
    [hex(header), hex(message), hex("FF 38"), vec![0xAA; 56]].concat()
}

/// "Seal A, 82 bytes."
pub fn seal_a() -> Vec<u8> {
    seal(HEADER_A, "0A 04 DE 51 58 26")
}

/// The header that Seal A has.
pub fn header_a() -> Header {
    let day = Date { month: 3, day: 25, year: 1957 };
    Header { version: 3, country: *b"UTO", length: 5, issued_on: day, signed_on: day, definition: 1, category: 2 }
}

/// The bytes with those at a place put in the stead of what was there.
pub fn with(bytes: &[u8], place: usize, new: &str) -> Vec<u8> {
    let mut bytes = bytes.to_vec();
    let new = hex(new);
    bytes[place..place + new.len()].copy_from_slice(&new);
    bytes
}

/// Number and place of a reading that lends much room, as the judge gives them.
pub fn read(seal: &[u8]) -> (usize, usize) {
    let answer = read_in(seal, 256 * Row::WIDTH, 300).0;
    assert_eq!(answer, reference::judge(seal));
    (answer.number, answer.place)
}

/// Item, rule, place, and how many bytes were judged. The number goes with the rule, the bytes judged begin at the
/// place and lie in the seal, and the reader gives the same number and place.
pub fn told(seal: &[u8]) -> (usize, usize, usize, usize) {
    let Reason { number, place, item, rule, judged } = why(seal);
    assert_eq!((number, place), read(seal));
    assert_eq!((number, place), (rules::number(rule), judged.place));
    assert!(judged.place + judged.length <= seal.len());
    (item, rule, place, judged.length)
}

/// A version 4 seal with a reference of so many Z, which begins at 8.
pub fn with_reference(length: usize) -> Vec<u8> {
    let header = Header { version: 4, length, ..header_a() };
    let text = [b"UTAB", &vec![b'Z'; length][..]].concat();
    filled(4096, |out| write(&header, &text, &[], &[], &[0xAA; 56], out)).expect("a legal content")
}

/// A reading in a room for so many numbers and so many characters, and the table after it. Memory past what is written
/// must stay; a refusal must leave all of it, and every other field must be 0.
pub fn read_in(seal: &[u8], numbers: usize, characters: usize) -> (Reading, Vec<usize>) {
    let (mut table, mut text) = (lent_table(numbers), lent(characters));
    let answer = reference::read(seal, &mut table, &mut text);
    let (rows, names) = if answer.number == 0 {
        (Row::WIDTH * answer.count, 4 + answer.header.length)
    } else {
        assert_eq!(
            answer,
            Reading { number: answer.number, place: answer.place, front: answer.front, ..Reading::default() }
        );
        (0, 0)
    };
    assert_eq!(table[rows..], lent_table(numbers)[rows..]);
    assert_eq!(text[names..], lent(characters)[names..]);
    (answer, table)
}

/// The rows of an accepted seal, out of just enough room.
pub fn rows(seal: &[u8]) -> Vec<Row> {
    let verdict = reference::judge(seal);
    let (answer, table) = read_in(seal, Row::WIDTH * verdict.count, 4 + verdict.header.length);
    assert_eq!((answer.number, answer), (0, verdict));
    Row::all(&table).expect("whole rows")
}

/// The rows frame the features: from the header's end to FF, one after another and nothing between, each from its tag's
/// place to its value's end as it is published.
pub fn frames_are_features(seal: &[u8]) {
    let Reading { header, ends, .. } = reference::judge(seal);
    let mut end = ends.header;
    for row in rows(seal) {
        assert_eq!(row.tag_place, end);
        assert_eq!(usize::from(seal[row.tag_place]), row.tag);
        end = row.value_place + row.value_length;
        let value = &seal[row.value_place..end];
        assert_eq!(seal[row.tag_place..end], published(header.version, seal[row.tag_place], value));
    }
    assert_eq!((end, seal[end]), (ends.message, 0xFF));
}

/// A feature's bytes: tag, length, value. "A feature's length is one plain byte in version 3 and a DER length in
/// version 4."
pub fn published(version: usize, tag: u8, value: &[u8]) -> Vec<u8> {
    let [.., high, low] = value.len().to_be_bytes();
    let length = match value.len() {
        0..=127 => vec![low],
        _ if version == 3 => vec![low],
        128..=255 => vec![0x81, low],
        _ => vec![0x82, high, low],
    };
    [&[tag][..], &length, value].concat()
}

/// What a call that fills a buffer says and writes in a room; memory past what is written must stay.
pub fn filled(room: usize, call: impl FnOnce(&mut [u8]) -> Filled) -> Result<Vec<u8>, (usize, usize)> {
    let mut out = lent(room);
    let answer = call(&mut out);
    assert_eq!(out[answer.count..], lent(room)[answer.count..]);
    if answer.number != 0 {
        assert_eq!(answer.count, 0);
        return Err((answer.number, answer.place));
    }
    assert_eq!(answer.place, 0);
    Ok(out[..answer.count].to_vec())
}
