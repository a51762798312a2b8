//! The points that document 01 leaves to be settled, each as it was settled: the reader.

mod common;

use common::{hex, pair, read, read_in, seal, seal_a, with, HEADER_A, HEADER_FOUR};
use reference::judge;

#[test]
fn items_of_the_header_in_order() {
    let good = seal_a();
    // Every cut of the header is 2 at the item that is not whole.
    let firsts = [0, 1, 2, 2, 4, 4, 4, 4, 4, 4, 10, 10, 10, 13, 13, 13, 16, 17, 18];
    for (length, first) in firsts.into_iter().enumerate() {
        assert_eq!(read(&good[..length]), (2, first));
    }
    for (place, new, number) in [
        (0, "DD", 3),
        (1, "00", 4),
        (1, "01", 4),
        (1, "04", 4),
        (16, "00", 7),
        (16, "FF", 7),
        (17, "00", 7),
        (17, "FF", 7),
    ] {
        assert_eq!(read(&with(&good, place, new)), (number, place));
    }
    for (place, new) in [(16, "FE"), (16, "02"), (17, "FE"), (17, "01")] {
        assert_eq!(read(&with(&good, place, new)), (0, 0));
    }
    // An item cut short is 2 before its content is judged.
    assert_eq!(read(&hex("DC 02 00")), (2, 2));
    assert_eq!(read(&hex("DC 02 00 00")), (5, 2));
}

#[test]
fn the_country_has_letters_then_fillers() {
    let good = seal_a();
    let (letter, space, digit) = (20, 3, 5);
    for (values, country) in
        [((letter, space, space), *b"G<<"), ((letter, letter, space), *b"GG<"), ((letter, 14, 39), *b"GAZ")]
    {
        let seal = with(&good, 2, &pair(values.0, values.1, values.2));
        assert_eq!(judge(&seal).header.country, country);
    }
    let wrong = [
        (space, letter, letter),
        (letter, space, letter),
        (space, space, space),
        (letter, letter, digit),
        (digit, letter, letter),
    ];
    for (a, b, c) in
        wrong.into_iter().chain([(letter, letter, 0), (letter, letter, 1), (letter, letter, 2), (letter, 0, 0)])
    {
        assert_eq!(read(&with(&good, 2, &pair(a, b, c))), (5, 2));
    }
    for new in ["00 00", "FA 01", "FE 42", "FF FF"] {
        assert_eq!(read(&with(&good, 2, new)), (5, 2));
    }
}

#[test]
fn the_nine_character_field_has_full_triples() {
    let good = seal_a();
    for place in [4, 6, 8] {
        for new in [pair(20, 20, 0), pair(20, 20, 1), "FE 42".into(), "00 00".into(), "FA 01".into()] {
            assert_eq!(read(&with(&good, place, &new)), (5, place), "{place} {new}");
        }
        assert_eq!(read(&with(&good, place, &pair(3, 20, 20))), (5, 4), "{place}");
    }
    // The signer's first two are letters, its last two and the reference letters or digits: Z of the reference is no
    // fault.
    assert_eq!(read(&with(&good, 4, &pair(5, 20, 20))), (5, 4));
    assert_eq!(read(&with(&good, 4, &pair(20, 5, 20))), (5, 4));
    assert_eq!(read(&with(&good, 4, &pair(20, 20, 5))), (0, 0));
    assert_eq!(read(&with(&good, 8, &pair(39, 39, 39))), (0, 0));
    assert_eq!(read(&with(&good, 8, &pair(4, 4, 4))), (0, 0));
    assert_eq!(read(&with(&good, 8, &pair(4, 3, 4))), (5, 4));
}

#[test]
fn version_four_names_are_two_items() {
    let good = seal(HEADER_FOUR, "");
    let (u, a, b, zero) = (34, 14, 15, 4);
    let first = pair(u, 33, a);
    assert_eq!(read(&good), (0, 0));
    for length in 4..8 {
        assert_eq!(read(&good[..length]), (2, 4));
    }
    for length in 8..12 {
        assert_eq!(read(&good[..length]), (2, 8));
    }
    // L of 00, and L with a digit that is not hexadecimal or with a space.
    for (high, low) in [(zero, zero), (zero, 20), (20, zero), (3, 9), (9, 3)] {
        assert_eq!(read(&with(&good, 4, &format!("{first} {}", pair(b, high, low)))), (5, 4));
    }
    // L is 6: the reference's last pair has only two characters. L is 4: it should begin with FE.
    assert_eq!(read(&with(&good, 4, &format!("{first} {}", pair(b, zero, 10)))), (5, 10));
    assert_eq!(read(&with(&good, 4, &format!("{first} {}", pair(b, zero, 8)))), (5, 10));
    // L is 5: a full last pair, one after FE, a space.
    for new in [pair(zero, zero, zero), "FE 42".into(), pair(zero, 0, 0), pair(zero, zero, 1)] {
        assert_eq!(read(&with(&good, 10, &new)), (5, 10));
    }
    assert_eq!(read(&with(&good, 10, &pair(zero, 3, 0))), (5, 8));
    assert_eq!(read(&with(&good, 10, &pair(39, zero, 0))), (0, 0));
    // FE before the last pair.
    assert_eq!(read(&with(&good, 8, "FE 42")), (5, 8));
}

#[test]
fn the_end_of_input_at_tags_and_after_ff() {
    let seal = seal_a();
    assert_eq!(read(&seal[..18]), (2, 18));
    assert_eq!(read(&seal[..19]), (2, 19));
    assert_eq!(read(&seal[..20]), (2, 20));
    assert_eq!(read(&seal[..23]), (2, 20));
    assert_eq!(read(&seal[..24]), (2, 24));
    assert_eq!(read(&seal[..25]), (2, 25));
    assert_eq!(read(&seal[..26]), (2, 26));
}

#[test]
fn lengths_are_judged_by_their_first_byte_first() {
    let cases = [
        ("80", 8),
        ("85", 8),
        ("FF", 8),
        ("81", 2),
        ("82 00", 2),
        ("83 00 00", 2),
        ("84 00 00 00", 2),
        ("81 7F", 8),
        ("82 00 80", 8),
        ("82 00 FF", 8),
        ("83 00 01 00", 8),
        ("84 00 01 00 00", 8),
    ];
    for (length, number) in cases {
        assert_eq!(read(&hex(&format!("{HEADER_FOUR} 07 {length}"))), (number, 21), "{length}");
        assert_eq!(read(&hex(&format!("{HEADER_FOUR} FF {length}"))), (number, 21), "{length}");
        assert_eq!(read(&hex(&format!("{HEADER_A} FF {length}"))), (number, 19), "{length}");
    }
    // A great length is good, and its value is cut.
    for (length, place) in
        [("81 80", 23), ("82 01 00", 24), ("83 01 00 00", 25), ("84 FF FF FF FF", 26), ("84 01 00 00 00", 26)]
    {
        assert_eq!(read(&seal(HEADER_FOUR, &format!("07 {length}"))), (2, place));
    }
}

#[test]
fn the_signature_has_one_of_five_lengths() {
    let with_length = |length: &str, count: usize| [hex(HEADER_A), hex("FF"), hex(length), vec![0xAA; count]].concat();
    for (length, count) in [("38", 56), ("40", 64), ("60", 96), ("81 80", 128), ("81 84", 132)] {
        assert_eq!(read(&with_length(length, count)), (0, 0));
        let place = 19 + hex(length).len();
        assert_eq!(read(&with_length(length, count - 1)), (2, place));
        assert_eq!(read(&with_length(length, 0)), (2, place));
        assert_eq!(read(&with_length(length, count + 3)), (11, place + count));
    }
    // 10 comes before a missing signature byte.
    for length in ["00", "37", "39", "42", "7F", "81 81", "81 82", "81 83", "81 85", "82 01 00", "84 FF FF FF FF"] {
        assert_eq!(read(&with_length(length, 0)), (10, 19));
        assert_eq!(read(&with_length(length, 300)), (10, 19));
    }
    for length in ["81 38", "82 00 80", "80", "84 00 00 00 84"] {
        assert_eq!(read(&with_length(length, 132)), (8, 19));
    }
}

#[test]
fn the_first_tag_that_repeats_is_named() {
    assert_eq!(read(&seal(HEADER_A, "01 00 02 00 03 00 02 00 01 00")), (9, 24));
    // The tag is judged before its length is looked for.
    assert_eq!(read(&hex(&format!("{HEADER_A} 01 00 01"))), (9, 20));
    assert_eq!(read(&hex(&format!("{HEADER_FOUR} 01 00 01 80"))), (9, 22));
    let all: String = (0..255).map(|tag| format!("{tag:02X} 00 ")).collect();
    assert_eq!(read(&seal(HEADER_A, &all)), (0, 0));
    assert_eq!(judge(&seal(HEADER_FOUR, &all)).count, 255);
    assert_eq!(read(&hex(&format!("{HEADER_A} {all} 00"))), (9, 18 + 510));
    assert_eq!(read(&hex(&format!("{HEADER_A} {all} FE"))), (9, 18 + 510));
}

#[test]
fn a_seal_has_at_most_4096_bytes() {
    // 20 for the header, 58 for the signature, 4 for tag and length.
    let long = |length: usize| seal(HEADER_FOUR, &format!("07 82 {length:04X} {}", "FF".repeat(length)));
    assert_eq!(long(4014).len(), 4096);
    assert_eq!(read(&long(4014)), (0, 0));
    assert_eq!(read(&long(4015)), (1, 4096));
    assert_eq!(read(&vec![0; 4096]), (3, 0));
    assert_eq!(read(&vec![0; 4097]), (1, 4096));
}

#[test]
fn room_is_looked_at_last() {
    let seal = seal(HEADER_A, "01 00 02 00");
    let answers = [(8, 9, 0), (9, 9, 0), (10, 300, 0), (7, 9, 12), (8, 8, 12), (0, 0, 12), (4, 9, 12), (6, 9, 12)];
    for (numbers, characters, number) in answers {
        let answer = read_in(&seal, numbers, characters).0;
        assert_eq!((answer.number, answer.place), (number, 0));
    }
    let bad = [&seal[..], &[0]].concat();
    assert_eq!(reference::read(&bad, &mut [], &mut []).number, 11);
}
