//! Reasons against the reference: seals with every byte changed to every other and cut at every place, and with every
//! C40 pair in the header. How often each rule is the reason of a pair was counted by hand.

use std::collections::BTreeMap;

use fenderrope::plain;
use reference::inputs::lent;
use reference::{Date, Header, Row};

/// A seal of a version with a reference of so many characters, and with features of which one has a long length in
/// version 4.
fn seal(version: usize, length: usize) -> Vec<u8> {
    let day = Date { month: 3, day: 25, year: 1957 };
    let header =
        Header { version, country: *b"UTO", length, issued_on: day, signed_on: day, definition: 1, category: 2 };
    let rows = [(10, 4), (0, 0), (254, 130)].map(|(tag, value_length)| Row { tag, value_length, ..Row::default() });
    let text = [b"UTAB", &[b'7'; 255][..length]].concat();
    let mut out = [0; 4096];
    let filled = reference::write(&header, &text, &Row::table(&rows), &lent(130), &[0xAA; 56], &mut out);
    assert_eq!(filled.number, 0);
    out[..filled.count].to_vec()
}

/// The library's reason, of which all six numbers are the reference's: item, rule and how many bytes were judged.
fn reason(seal: &[u8]) -> (usize, usize, usize) {
    let (found, expected) = (plain::why(seal), reference::why(seal));
    assert_eq!((found.number, found.place), (expected.number, expected.place), "{seal:02X?}");
    assert_eq!((found.item, found.rule), (expected.item, expected.rule), "{seal:02X?}");
    let judged = (found.judged.place, found.judged.length);
    assert_eq!(judged, (expected.judged.place, expected.judged.length), "{seal:02X?}");
    (found.item, found.rule, found.judged.length)
}

/// With how many bytes at a place the seal is accepted.
fn accepted(seal: &[u8], place: usize) -> usize {
    let mut seal = seal.to_vec();
    let mut with = |byte| {
        seal[place] = byte;
        reason(&seal)
    };
    (0..=255).filter(|&byte| with(byte) == (0, 0, 0)).count()
}

/// How many bytes are accepted is known of the mark, definition and category, the first tag, the first value, FF, and
/// the signature's length and first byte. A tag may be all but FF and the two others.
#[test]
fn every_byte_changed_to_every_other() {
    for (version, length) in [(3, 5), (4, 1), (4, 2), (4, 6)] {
        let seal = seal(version, length);
        let ends = plain::judge(&seal).ends;
        let (header, message) = (ends.header, ends.message);
        let counts: Vec<usize> = (0..message + 3).map(|place| accepted(&seal, place)).collect();
        assert_eq!((counts[0], counts[header - 2], counts[header - 1]), (1, 254, 254));
        assert_eq!((counts[header], counts[header + 2]), (253, 256));
        assert_eq!(counts[message..], [1, 1, 256]);
    }
}

#[test]
fn every_cut() {
    for (version, length) in [(3, 5), (4, 1), (4, 5), (4, 255)] {
        let seal = seal(version, length);
        for cut in 0..seal.len() {
            let (item, rule, there) = reason(&seal[..cut]);
            assert!(item > 0 && [2, 17].contains(&rule) && there <= cut);
        }
        assert_eq!(reason(&[&seal[..], &[0]].concat()), (17, 11, 1));
    }
}

/// Puts every pair at a place of a seal; how often each rule of the item is the reason, by item and rule. What is
/// behind the item is counted as item 0.
fn counted(seal: &[u8], place: usize, item: usize) -> BTreeMap<(usize, usize), usize> {
    let mut counts = BTreeMap::new();
    for pair in 0..=u16::MAX {
        let pair = pair.to_be_bytes();
        let (found, rule, _) = reason(&[&seal[..place], &pair, &seal[place + 2..]].concat());
        *counts.entry(if found == item { (item, rule) } else { (0, 0) }).or_default() += 1;
    }
    counts
}

/// Of all pairs 37 x 37 x 37 stand for three characters, 37 x 37 for two and 37 for one. Of 37 characters 36 are
/// letters and digits, 26 letters, 16 hexadecimal digits.
#[test]
fn every_pair_of_the_header() {
    let (three, two, one) = (37 * 37 * 37, 37 * 37, 37);
    let wrong = |characters: usize| 65_536 - characters;
    let countries = 26 + 26 * 26 + 26 * 26 * 26;
    for (version, length) in [(3, 5), (4, 1)] {
        let country = [((4, 5), wrong(three)), ((4, 12), three - countries), ((0, 0), countries)];
        assert_eq!(counted(&seal(version, length), 2, 4), country.into());
        let item = version + 2;
        let signers = 26 * 26 * 36;
        let signer = [((item, 5), wrong(three)), ((item, 13), three - signers), ((0, 0), signers)];
        assert_eq!(counted(&seal(version, length), 4, item), signer.into());
    }
    // The signer's last character, then the reference's first two, or the length's digits.
    let (good, spaced) = (36 * 36 * 36, 36 * (two - 36 * 36));
    let second = [((5, 5), wrong(three)), ((5, 13), two), ((5, 14), spaced), ((0, 0), good)];
    assert_eq!(counted(&seal(3, 5), 6, 5), second.into());
    let third = [((5, 5), wrong(three)), ((5, 14), three - good), ((0, 0), good)];
    assert_eq!(counted(&seal(3, 5), 8, 5), third.into());
    let digits = 36 * (two - 16 * 16);
    let length = [((6, 5), wrong(three)), ((6, 13), two), ((6, 15), digits), ((6, 16), 36), ((0, 0), 36 * 255)];
    assert_eq!(counted(&seal(4, 1), 6, 6), length.into());
    for (length, coded, good) in [(1, one, 36), (2, two, 36 * 36), (3, three, good), (4, three, good), (6, three, good)]
    {
        let reference = [((7, 5), wrong(coded)), ((7, 14), coded - good), ((0, 0), good)];
        assert_eq!(counted(&seal(4, length), 8, 7), reference.into());
    }
    assert_eq!(counted(&seal(4, 4), 10, 7), [((7, 5), wrong(one)), ((7, 14), 1), ((0, 0), 36)].into());
}
