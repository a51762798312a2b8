//! Document 02, Ticket 11: "Tell the crew why." A seal for every rule of every item of the header, in both versions, at
//! the first place and the last, and with faults behind.

mod common;

use common::codes::{items, rules};
use common::{pair, read, seal, seal_a, told, with, with_reference, HEADER_A, HEADER_FOUR};
use reference::{why, Part, Reason};

/// The version 4 seal of signer UTAB, reference 00001, without features.
fn four() -> Vec<u8> {
    seal(HEADER_FOUR, "")
}

/// "For an accepted seal it says so": every field is 0.
#[test]
fn an_accepted_seal_has_no_reason() {
    for seal in [seal_a(), four(), with_reference(1), with_reference(255), seal(HEADER_A, "00 00 FE 00")] {
        assert_eq!(why(&seal), Reason { number: 0, place: 0, item: 0, rule: 0, judged: Part { place: 0, length: 0 } });
        assert_eq!(read(&seal), (0, 0));
    }
}

#[test]
fn a_seal_that_is_too_long() {
    for length in [4097, 4098, 5000, 70_000] {
        for first in [seal_a(), four(), vec![]] {
            let mut seal = first;
            seal.resize(length, 0);
            assert_eq!(told(&seal), (items::SEAL, rules::NOT_TOO_LONG, 4096, 1));
        }
    }
    assert_eq!(told(&[0; 4096]), (items::MARK, rules::MARK, 0, 1));
    assert_eq!(told(&[seal_a(), vec![0; 4096 - 82]].concat()), (items::END, rules::NOTHING_AFTER, 82, 1));
}

#[test]
fn mark_and_version() {
    assert_eq!(told(&[]), (items::MARK, rules::THERE, 0, 0));
    assert_eq!(told(&[0xDC]), (items::VERSION, rules::THERE, 1, 0));
    for byte in 0..=255 {
        if byte != 0xDC {
            assert_eq!(told(&[byte]), (items::MARK, rules::MARK, 0, 1));
            assert_eq!(told(&[&[byte], &seal_a()[1..]].concat()), (items::MARK, rules::MARK, 0, 1));
        }
        if byte != 2 && byte != 3 {
            assert_eq!(told(&[0xDC, byte]), (items::VERSION, rules::VERSION, 1, 1));
            assert_eq!(told(&[&[0xDC, byte], &seal_a()[2..]].concat()), (items::VERSION, rules::VERSION, 1, 1));
        }
    }
}

#[test]
fn the_country() {
    let (space, digit, letter) = (3, 5, 20);
    for good in [seal_a(), four()] {
        assert_eq!(told(&good[..2]), (items::COUNTRY, rules::THERE, 2, 0));
        assert_eq!(told(&good[..3]), (items::COUNTRY, rules::THERE, 2, 1));
        for wrong in ["00 00", "FA 01", "FE 42", "FE 00", "FF FF"] {
            assert_eq!(told(&with(&good, 2, wrong)), (items::COUNTRY, rules::WELL_CODED, 2, 2));
        }
        for (a, b, c) in [(letter, letter, 0), (letter, letter, 1), (0, letter, letter), (letter, 2, space)] {
            assert_eq!(told(&with(&good, 2, &pair(a, b, c))), (items::COUNTRY, rules::WELL_CODED, 2, 2));
        }
        for (a, b, c) in [
            (digit, letter, letter),
            (letter, digit, letter),
            (letter, letter, digit),
            (space, letter, letter),
            (letter, space, letter),
            (space, space, space),
        ] {
            assert_eq!(told(&with(&good, 2, &pair(a, b, c))), (items::COUNTRY, rules::COUNTRY, 2, 2));
        }
    }
}

/// Version 3: the signer's characters are looked at before the reference's, and both before the date.
#[test]
fn nine_characters() {
    let (space, digit, letter) = (3, 5, 20);
    let good = seal_a();
    for place in [4, 6, 8] {
        for wrong in [pair(letter, letter, 0), pair(letter, 1, letter), "FE 42".into(), "00 00".into(), "FA 01".into()]
        {
            assert_eq!(told(&with(&good, place, &wrong)), (items::NAMES, rules::WELL_CODED, place, 2));
        }
    }
    for first in [(digit, letter, letter), (letter, digit, letter), (letter, letter, space), (space, space, space)] {
        let wrong = with(&good, 4, &pair(first.0, first.1, first.2));
        assert_eq!(told(&wrong), (items::NAMES, rules::SIGNER, 4, 6));
        assert_eq!(told(&with(&wrong, 8, &pair(space, space, space))), (items::NAMES, rules::SIGNER, 4, 6));
        assert_eq!(told(&with(&wrong, 8, "FE 42")), (items::NAMES, rules::WELL_CODED, 8, 2));
    }
    // The second pair holds the signer's last character, and the reference's first two.
    assert_eq!(told(&with(&good, 6, &pair(space, letter, letter))), (items::NAMES, rules::SIGNER, 4, 6));
    assert_eq!(told(&with(&good, 6, &pair(letter, space, letter))), (items::NAMES, rules::REFERENCE, 4, 6));
    for last in [(space, letter, letter), (letter, space, letter), (letter, letter, space)] {
        assert_eq!(told(&with(&good, 8, &pair(last.0, last.1, last.2))), (items::NAMES, rules::REFERENCE, 4, 6));
    }
}

/// Version 4: the signer, then two hexadecimal digits, then not 00. The reference behind is not looked at.
#[test]
fn signer_and_length() {
    let (space, zero, f, g, u) = (3, 4, 19, 20, 34);
    let good = four();
    for place in [4, 6] {
        for wrong in [pair(u, u, 0), "FE 42".into(), "00 00".into(), "FA 01".into()] {
            assert_eq!(told(&with(&good, place, &wrong)), (items::SIGNER_AND_LENGTH, rules::WELL_CODED, place, 2));
        }
    }
    for last in [(u, zero, zero), (u, g, zero), (u, zero, space), (u, f, f)] {
        let digits = with(&good, 6, &pair(last.0, last.1, last.2));
        let wrong = with(&digits, 4, &pair(zero, u, u));
        assert_eq!(told(&wrong), (items::SIGNER_AND_LENGTH, rules::SIGNER, 4, 4));
        assert_eq!(told(&with(&wrong, 8, "00 00")), (items::SIGNER_AND_LENGTH, rules::SIGNER, 4, 4));
    }
    assert_eq!(told(&with(&good, 6, &pair(space, zero, zero))), (items::SIGNER_AND_LENGTH, rules::SIGNER, 4, 4));
    for (high, low) in [(g, zero), (zero, g), (space, zero), (zero, space), (39, 39), (g, g)] {
        let wrong = with(&good, 6, &pair(u, high, low));
        assert_eq!(told(&wrong), (items::SIGNER_AND_LENGTH, rules::HEXADECIMAL, 4, 4));
        assert_eq!(told(&with(&wrong, 8, "00 00")), (items::SIGNER_AND_LENGTH, rules::HEXADECIMAL, 4, 4));
    }
    let wrong = with(&good, 6, &pair(u, zero, zero));
    assert_eq!(told(&wrong), (items::SIGNER_AND_LENGTH, rules::NOT_ZERO, 4, 4));
    assert_eq!(told(&wrong[..8]), (items::SIGNER_AND_LENGTH, rules::NOT_ZERO, 4, 4));
    assert_eq!(told(&with(&good, 6, &pair(u, f, f))), (items::REFERENCE, rules::THERE, 8, good.len() - 8));
}

/// The reference of every length: its first and last pair wrongly coded, a last pair of another number of characters,
/// a space first and last, and cut.
#[test]
fn references_of_every_length() {
    for length in 1..=255 {
        let good = with_reference(length);
        let (size, last) = (2 * length.div_ceil(3), 6 + 2 * length.div_ceil(3));
        for place in [8, last] {
            for wrong in ["00 00", "00 01", "FA 01", "FE 00"] {
                assert_eq!(told(&with(&good, place, wrong)), (items::REFERENCE, rules::WELL_CODED, place, 2));
            }
        }
        let ends = ["FE 5B".to_string(), pair(39, 39, 0), pair(39, 39, 39)];
        let left = (length - 1) % 3;
        for (count, end) in ends.iter().enumerate().filter(|(count, _)| *count != left) {
            assert_eq!(told(&with(&good, last, end)), (items::REFERENCE, rules::WELL_CODED, last, 2), "{count}");
        }
        let space_last = ["FE 21".to_string(), pair(39, 3, 0), pair(39, 39, 3)][left].clone();
        assert_eq!(told(&with(&good, last, &space_last)), (items::REFERENCE, rules::REFERENCE, 8, size));
        if length > 2 {
            assert_eq!(told(&with(&good, 8, &pair(3, 39, 39))), (items::REFERENCE, rules::REFERENCE, 8, size));
        }
        for there in [0, 1, size - 1] {
            assert_eq!(told(&good[..8 + there]), (items::REFERENCE, rules::THERE, 8, there));
        }
    }
}

#[test]
fn dates_definition_and_category() {
    for (good, first) in [(seal_a(), 10), (four(), 12), (with_reference(255), 178)] {
        for (item, place) in [(items::ISSUED, first), (items::SIGNED, first + 3)] {
            // 0, 30 February 2000, 29 February 1900, day 32, year 0, month 13, the greatest.
            for number in [0, 2_302_000, 2_291_900, 1_320_001, 1_010_000, 13_010_001, 0xFF_FFFF] {
                assert_eq!(told(&with(&good, place, &format!("{number:06X}"))), (item, rules::DAY, place, 3));
            }
            assert_eq!(told(&with(&good, place, &format!("{:06X}", 2_292_000))), (0, 0, 0, 0));
        }
        for (item, place) in [(items::DEFINITION, first + 6), (items::CATEGORY, first + 7)] {
            for byte in ["00", "FF"] {
                assert_eq!(told(&with(&good, place, byte)), (item, rules::ONE_TO_254, place, 1));
            }
            for byte in ["01", "FE"] {
                assert_eq!(told(&with(&good, place, byte)), (0, 0, 0, 0));
            }
        }
    }
}
