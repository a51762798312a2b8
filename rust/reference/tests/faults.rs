//! Document 02, Ticket 1: "Which fault in the C40?" First the codec's three numbers, then the place of the header's 5.

mod common;

use common::{filled, header_a, hex, pair, read, seal_a, with};
use reference::{c40_read, write, Header};

/// Pairs that are faulty wherever they stand, and their numbers.
const FAULTY: [(&str, usize); 10] = [
    ("00 00", 41),
    ("FA 01", 41),
    ("FD FF", 41),
    ("FF 00", 41),
    ("FF FF", 41),
    ("00 01", 46),
    ("57 81", 46),
    ("FE 00", 47),
    ("FE 41", 47),
    ("FE FF", 47),
];

/// Pairs that are well coded as the last alone, and their numbers elsewhere: `A`, and `XK`.
const SHORT: [(&str, usize); 2] = [("FE 42", 47), ("EB 01", 46)];

fn decoded(bytes: &str) -> Result<Vec<u8>, (usize, usize)> {
    filled(99, |out| c40_read(&hex(bytes), out))
}

/// "41 stays for a pair value of 0 or over 64,000 that does not begin with FE."
#[test]
fn pair_values_that_three_values_do_not_make() {
    for number in 0..=u16::MAX {
        let [first, _] = number.to_be_bytes();
        let expected = (number == 0 || number > 64_000) && first != 0xFE;
        for bytes in [format!("{number:04X}"), format!("{number:04X} FA 00"), format!("FA 00 {number:04X}")] {
            assert_eq!(decoded(&bytes).is_err_and(|(answer, _)| answer == 41), expected, "{bytes}");
        }
    }
}

/// "46 shift value where none may stand": "values 1 and 2 never occur; 0 only as the third of the last pair".
#[test]
fn shift_values_in_each_position() {
    for (position, shift) in (0..3).flat_map(|position| (0..3).map(move |shift| (position, shift))) {
        let mut values = [20; 3];
        values[position] = shift;
        let shifted = pair(values[0], values[1], values[2]);
        let (alone, behind) = (decoded(&shifted), decoded(&format!("FA 00 {shifted}")));
        if (position, shift) == (2, 0) {
            assert_eq!((alone, behind), (Ok(b"GG".to_vec()), Ok(b"ZZZGG".to_vec())));
        } else {
            assert_eq!((alone, behind), (Err((46, 0)), Err((46, 2))), "{shifted}");
        }
        assert_eq!(decoded(&format!("{shifted} FA 00")), Err((46, 0)), "{shifted}");
        assert_eq!(decoded(&format!("FA 00 {shifted} FA 00")), Err((46, 2)), "{shifted}");
    }
}

/// "47 FE misplaced or followed by a code outside the chart": the code is the character's plus 1.
#[test]
fn every_code_behind_fe() {
    let chart = b" 0123456789ABCDEFGHIJKLMNOPQRSTUVWXYZ";
    for code in 0..=255u8 {
        let alone = match code.checked_sub(1) {
            Some(character) if chart.contains(&character) => Ok(vec![character]),
            _ => Err((47, 0)),
        };
        assert_eq!(decoded(&format!("FE {code:02X}")), alone, "{code:02X}");
        assert_eq!(decoded(&format!("FE {code:02X} FA 00")), Err((47, 0)), "{code:02X}");
        assert_eq!(decoded(&format!("FA 00 FE {code:02X} FA 00")), Err((47, 2)), "{code:02X}");
    }
    for code in ["00", "22", "40", "41", "5C", "FF"] {
        assert_eq!(decoded(&format!("FE {code}")), Err((47, 0)));
    }
    for (code, character) in [("21", b' '), ("42", b'A'), ("5B", b'Z')] {
        assert_eq!(decoded(&format!("FE {code}")), Ok(vec![character]));
    }
}

#[test]
fn each_fault_in_the_first_a_middle_and_the_last_pair() {
    for (faulty, number) in FAULTY {
        assert_eq!(decoded(faulty), Err((number, 0)), "{faulty}");
    }
    for place in [0, 2, 4] {
        let bytes = |faulty| with(&hex("FA 00 FA 00 FA 00"), place, faulty);
        for (faulty, number) in FAULTY {
            assert_eq!(filled(9, |out| c40_read(&bytes(faulty), out)), Err((number, place)), "{faulty}");
        }
        for (short, number) in SHORT {
            let answer = filled(9, |out| c40_read(&bytes(short), out));
            assert_eq!(answer.err(), (place < 4).then_some((number, place)), "{short}");
        }
    }
}

#[test]
fn the_first_faulty_pair_decides() {
    for (first, number) in FAULTY.into_iter().chain(SHORT) {
        for (second, _) in FAULTY.into_iter().chain(SHORT) {
            assert_eq!(decoded(&format!("{first} {second}")), Err((number, 0)));
            assert_eq!(decoded(&format!("{first} FA 00 {second}")), Err((number, 0)));
            assert_eq!(decoded(&format!("FA 00 {first} {second} FA 00")), Err((number, 2)));
        }
    }
}

/// A version 4 seal of the signer UTAB with this reference, which begins at 8.
fn four(reference: &[u8]) -> Vec<u8> {
    let header = Header { version: 4, length: reference.len(), ..header_a() };
    let text = [b"UTAB", reference].concat();
    filled(4096, |out| write(&header, &text, &[], &[], &[0xAA; 56], out)).expect("a legal content")
}

/// Each text item of some seals: the seal, the item's first byte, and how many characters it has.
fn items() -> Vec<(Vec<u8>, usize, usize)> {
    let mut items = vec![(seal_a(), 2, 3), (seal_a(), 4, 9), (four(b"7"), 2, 3), (four(b"7"), 4, 6)];
    items.extend((1..=13).map(|length| (four(&b"0123456789ABC"[..length]), 8, length)));
    items
}

/// The places of an item's pairs, and how many characters each has.
fn pairs(first: usize, characters: usize) -> Vec<(usize, usize)> {
    (0..characters).step_by(3).map(|index| (first + index / 3 * 2, (characters - index).min(3))).collect()
}

/// A pair of so many spaces.
fn spaces(characters: usize) -> String {
    ["FE 21".to_string(), pair(3, 3, 0), pair(3, 3, 3)][characters - 1].clone()
}

/// A pair of so many letters.
fn letters(characters: usize) -> String {
    ["FE 42".to_string(), pair(14, 14, 0), pair(14, 14, 14)][characters - 1].clone()
}

/// "Header answer 5 then has the first byte of the item's first wrongly coded pair."
#[test]
fn each_wrongly_coded_pair_of_each_item() {
    for (seal, first, characters) in items() {
        let pairs = pairs(first, characters);
        let last = pairs[pairs.len() - 1].0;
        assert_eq!(read(&seal), (0, 0));
        for &(place, width) in &pairs {
            // "A wrong character alone keeps the item's first byte."
            assert_eq!(read(&with(&seal, place, &spaces(width))), (5, first));
            for (faulty, _) in FAULTY.into_iter().chain(SHORT).filter(|pair| place < last || !SHORT.contains(pair)) {
                assert_eq!(read(&with(&seal, place, faulty)), (5, place), "{faulty}");
            }
        }
    }
}

/// A wrongly coded pair with another in the same item, and with a wrong character before it or behind it.
#[test]
fn the_first_wrongly_coded_pair_of_an_item() {
    for (seal, first, characters) in items() {
        for (place, faulty) in pairs(first, characters).into_iter().flat_map(|(place, _)| FAULTY.map(|f| (place, f.0)))
        {
            let wrong = with(&seal, place, faulty);
            for (other, width) in pairs(first, characters).into_iter().filter(|&(other, _)| other != place) {
                assert_eq!(read(&with(&wrong, other, &spaces(width))), (5, place), "{faulty} and spaces at {other}");
                for (again, _) in FAULTY {
                    assert_eq!(read(&with(&wrong, other, again)), (5, place.min(other)), "{faulty} and {again}");
                }
            }
        }
    }
}

#[test]
fn each_wrongly_coded_pair_of_the_longest_reference() {
    let seal = four(&[b'Z'; 255]);
    for place in (8..8 + 170).step_by(2) {
        for (faulty, _) in FAULTY.into_iter().chain(SHORT) {
            assert_eq!(read(&with(&seal, place, faulty)), (5, place), "{faulty}");
        }
    }
}

/// "A last pair that does not fit the number of characters included."
#[test]
fn a_last_pair_that_does_not_fit() {
    for length in 1..=13 {
        let seal = four(&b"0123456789ABC"[..length]);
        let last = 6 + 2 * length.div_ceil(3);
        for characters in 1..=3 {
            let fits = characters == (length - 1) % 3 + 1;
            let answer = |fitting| if fits { fitting } else { (5, last) };
            assert_eq!(read(&with(&seal, last, &letters(characters))), answer((0, 0)));
            // FE 21 that fits is a space, and so a wrong character.
            assert_eq!(read(&with(&seal, last, &spaces(characters))), answer((5, 8)));
            // A wrong character before it.
            if last > 8 {
                let wrong = with(&with(&seal, 8, &pair(3, 20, 20)), last, &letters(characters));
                assert_eq!(read(&wrong), answer((5, 8)));
            }
        }
    }
    // The country, the nine characters, and signer with L are full triples.
    for short in [letters(1), letters(2), spaces(1), spaces(2)] {
        for place in [2, 4, 6, 8] {
            assert_eq!(read(&with(&seal_a(), place, &short)), (5, place));
        }
        assert_eq!(read(&with(&with(&seal_a(), 4, &pair(5, 5, 5)), 8, &short)), (5, 8));
        for place in [2, 4, 6] {
            assert_eq!(read(&with(&four(b"7"), place, &short)), (5, place));
        }
    }
}

/// L of 00 or not hexadecimal is a wrong character. The reference behind it is not looked at.
#[test]
fn a_wrong_length_is_a_wrong_character() {
    let (zero, g, b) = (4, 20, 15);
    for (high, low) in [(zero, zero), (zero, g), (g, zero), (3, zero), (zero, 3)] {
        let seal = with(&four(b"7"), 6, &pair(b, high, low));
        assert_eq!(read(&seal), (5, 4));
        for (faulty, _) in FAULTY.into_iter().chain(SHORT) {
            assert_eq!(read(&with(&seal, 4, faulty)), (5, 4));
            assert_eq!(read(&with(&seal, 8, faulty)), (5, 4));
        }
    }
    // A wrong character of the signer before a second pair that is wrongly coded.
    for (faulty, _) in FAULTY.into_iter().chain(SHORT) {
        assert_eq!(read(&with(&four(b"7"), 4, &format!("{} {faulty}", pair(zero, g, g)))), (5, 6));
    }
}

/// "An item cut short is 2, before its content is judged."
#[test]
fn a_cut_item_is_not_judged() {
    for (seal, first, characters) in items() {
        let end = first + 2 * characters.div_ceil(3);
        for (faulty, _) in FAULTY {
            let wrong = with(&seal, first, faulty);
            assert_eq!(read(&wrong[..end - 1]), (2, first));
            assert_eq!(read(&wrong[..end]), (5, first));
        }
    }
}
