//! Document 02, Ticket 2: "a long job gets a second tag hung behind the first." What is shown for a tag number.

mod common;

use common::{hex, read, seal, seal_a, with, HEADER_A, HEADER_FOUR};
use reference::{shown, Part, Shown, EXTENSION, MAIN};

/// "50 feature in neither seal."
const NEITHER: Shown = Shown { number: 50, place: 0, which: 0, value: Part { place: 0, length: 0 } };

/// The answer that shows this part of a seal.
fn part(which: usize, place: usize, length: usize) -> Shown {
    Shown { number: 0, place: 0, which, value: Part { place, length } }
}

/// A refused seal's number and place: it "shows an empty part".
fn refused(which: usize, (number, place): (usize, usize)) -> Shown {
    Shown { number, place, which, value: Part { place: 0, length: 0 } }
}

/// A seal for each of the numbers 1 to 11, with its number and place. Feature 10 stands in most of them.
fn refused_seals() -> Vec<(Vec<u8>, (usize, usize))> {
    let a = seal_a();
    vec![
        ([a.clone(), vec![0; 4096]].concat(), (1, 4096)),
        (vec![], (2, 0)),
        (a[..81].to_vec(), (2, 26)),
        (with(&a, 0, "DD"), (3, 0)),
        (with(&a, 1, "04"), (4, 1)),
        (with(&a, 8, "00 00"), (5, 8)),
        (with(&a, 13, "FF"), (6, 13)),
        (with(&a, 16, "00"), (7, 16)),
        (seal(HEADER_FOUR, "0A 00 0B 81 7F"), (8, 23)),
        (seal(HEADER_A, "0A 04 DE 51 58 26 0A 00"), (9, 24)),
        (with(&a, 25, "37"), (10, 25)),
        ([a, vec![0]].concat(), (11, 82)),
    ]
}

/// "The value out of the extension seal if it has that feature, otherwise out of the main seal."
#[test]
fn out_of_the_extension_then_out_of_the_main_seal() {
    let main = seal(HEADER_A, "0A 04 DE 51 58 26 0B 01 01 00 00");
    let extension = seal(HEADER_A, "0B 02 02 02 FE 01 03");
    assert_eq!(shown(&main, &extension, 11), part(EXTENSION, 20, 2));
    assert_eq!(shown(&main, &extension, 254), part(EXTENSION, 24, 1));
    assert_eq!(shown(&main, &extension, 10), part(MAIN, 20, 4));
    assert_eq!(shown(&main, &extension, 0), part(MAIN, 29, 0));
    assert_eq!(shown(&main, &extension, 12), NEITHER);
    // The other way about, the other one is the extension.
    assert_eq!(shown(&extension, &main, 11), part(EXTENSION, 26, 1));
    assert_eq!(shown(&extension, &main, 254), part(MAIN, 24, 1));
    assert_eq!(shown(&extension, &main, 0), part(EXTENSION, 29, 0));
}

/// The two seals may have other versions, each with lengths of its own.
#[test]
fn seals_of_both_versions() {
    let long = "55".repeat(200);
    let three = seal(HEADER_A, &format!("07 C8 {long} 08 01 55"));
    let four = seal(HEADER_FOUR, &format!("07 81 C8 {long} 09 01 55"));
    assert_eq!(shown(&three, &four, 7), part(EXTENSION, 23, 200));
    assert_eq!(shown(&four, &three, 7), part(EXTENSION, 20, 200));
    assert_eq!(shown(&three, &four, 8), part(MAIN, 222, 1));
    assert_eq!(shown(&four, &three, 9), part(MAIN, 225, 1));
    assert_eq!(shown(&four, &four, 9), part(EXTENSION, 225, 1));
}

/// An empty value is found, and covers that of the main seal: its part has length 0 at the value's place.
#[test]
fn empty_values() {
    for (extension, place) in [(seal(HEADER_A, "0A 00"), 20), (seal(HEADER_FOUR, "0A 00"), 22)] {
        assert_eq!(shown(&seal_a(), &extension, 10), part(EXTENSION, place, 0));
        assert_eq!(shown(&extension, &seal(HEADER_A, ""), 10), part(MAIN, place, 0));
        assert_eq!(shown(&extension, &extension, 10), part(EXTENSION, place, 0));
    }
}

/// "For a given tag number": a number over 254 is in no seal. FF, the mark, is no tag, and 266 is no tag 10.
#[test]
fn every_tag_number() {
    let even: String = (0..255).step_by(2).map(|tag| format!("{tag:02X} 00")).collect();
    let third: String = (0..255).step_by(3).map(|tag| format!("{tag:02X} 01 FF")).collect();
    for (main, extension) in [(HEADER_A, HEADER_A), (HEADER_A, HEADER_FOUR), (HEADER_FOUR, HEADER_FOUR)] {
        let (main, extension) = (seal(main, &even), seal(extension, &third));
        for tag in 0..255 {
            let answer = shown(&main, &extension, tag);
            let (bytes, expected) = match (tag % 2, tag % 3) {
                (_, 0) => (&extension, part(EXTENSION, answer.value.place, 1)),
                (0, _) => (&main, part(MAIN, answer.value.place, 0)),
                _ => (&main, NEITHER),
            };
            assert_eq!(answer, expected, "{tag}");
            if answer.number == 0 {
                assert_eq!(usize::from(bytes[answer.value.place - 2]), tag);
            }
        }
        for tag in [255, 256, 266, 510, 512, 1 << 32, (1 << 32) + 2, usize::MAX - 1, usize::MAX] {
            assert_eq!(shown(&main, &extension, tag), NEITHER, "{tag}");
        }
    }
}

/// "A refused seal gives its number and place, the main one's first", even where the other seal has the tag.
#[test]
fn refused_seals_come_first() {
    for tag in [0, 10, 11, 254, 255, usize::MAX] {
        for (wrong, told) in refused_seals() {
            assert_eq!(read(&wrong), told);
            assert_eq!(shown(&wrong, &seal_a(), tag), refused(MAIN, told));
            assert_eq!(shown(&seal_a(), &wrong, tag), refused(EXTENSION, told));
            for (other, told_of_other) in refused_seals() {
                assert_eq!(shown(&wrong, &other, tag), refused(MAIN, told));
                assert_eq!(shown(&other, &wrong, tag), refused(MAIN, told_of_other));
            }
        }
    }
}

/// The value shown is that of the feature, whatever else in a value looks like it.
#[test]
fn values_that_look_like_features() {
    let main = seal(HEADER_A, "01 06 0A 04 DE 51 58 26 0A 01 77");
    let extension = seal(HEADER_FOUR, "02 03 0A 01 99 FE 02 FF 38");
    assert_eq!(shown(&main, &extension, 10), part(MAIN, 28, 1));
    assert_eq!(main[28..29], hex("77"));
    assert_eq!(shown(&main, &extension, 0xFE), part(EXTENSION, 27, 2));
    assert_eq!(shown(&main, &extension, 0xFF), NEITHER);
    // Feature 11, the locked press, stands on both tags, feature 12 on the first alone.
    let (main, extension) = (seal(HEADER_A, "0B 02 DE 51 0C 02 58 26"), seal(HEADER_A, "0B 02 58 26"));
    assert_eq!(shown(&main, &extension, 11), part(EXTENSION, 20, 2));
    assert_eq!(shown(&main, &extension, 12), part(MAIN, 24, 2));
}
