//! Document 02, Ticket 2: "Walking the features." First the opening and the whole walk, then single steps.

mod common;

use common::walks::{found, opens_no_walk, walks, END};
use common::{hex, read, seal, seal_a, with, with_reference, HEADER_A, HEADER_FOUR};
use reference::{walk, walk_next, walk_open, Opened, Row};

#[test]
fn seal_a_is_walked() {
    let seal = seal_a();
    assert_eq!(walk_open(&seal), Opened { number: 0, place: 0, at: 18 });
    assert_eq!(walk_next(&seal, 18), found(10, 18, 20, 4));
    assert_eq!(walk_next(&seal, 24), END);
    assert_eq!(walk_next(&seal, 0), END);
    assert_eq!(walk(&seal), [Row { tag: 10, tag_place: 18, value_place: 20, value_length: 4 }]);
    walks(&seal);
}

/// The first step is at the header's end, wherever that is.
#[test]
fn walks_behind_headers_of_every_length() {
    for length in 1..=255 {
        let seal = with_reference(length);
        assert_eq!(walk_open(&seal).at, 12 + 2 * (6 + length).div_ceil(3));
        walks(&seal);
    }
}

/// "In any order, and that order is kept": no features, all of them, empty values, and values that look like features.
#[test]
fn walks_of_many_shapes() {
    for header in [HEADER_A, HEADER_FOUR] {
        for message in ["", "00 00", "FE 00", "FE 00 00 00", "0A 04 0B 02 FF 38 FE 03 FF 38 AA 00 00 0B 02 0A 04"] {
            walks(&seal(header, message));
        }
        let all: String = (0..255).rev().map(|tag| format!("{tag:02X} 01 FF ")).collect();
        walks(&seal(header, &all));
        let tags: Vec<usize> = walk(&seal(header, &all)).iter().map(|row| row.tag).collect();
        assert!(tags.into_iter().eq((0..255).rev()));
    }
    for (length, front) in [(127, "7F"), (128, "81 80"), (255, "81 FF"), (256, "82 01 00"), (4000, "82 0F A0")] {
        walks(&seal(HEADER_FOUR, &format!("07 {front} {} 08 00", "FF".repeat(length))));
    }
    for (length, front) in [(127, "7F"), (128, "80"), (255, "FF")] {
        walks(&seal(HEADER_A, &format!("07 {front} {} 08 00", "FF".repeat(length))));
    }
}

/// Every cut, and a fault for each of the numbers 1 to 11.
#[test]
fn refused_seals_open_no_walk() {
    for good in [seal_a(), seal(HEADER_FOUR, "07 81 80 07 00")] {
        (0..good.len()).for_each(|length| opens_no_walk(&good[..length]));
    }
    let a = seal_a();
    let faults = [
        ([a.clone(), vec![0; 4096]].concat(), (1, 4096)),
        (a[..81].to_vec(), (2, 26)),
        (with(&a, 0, "DD"), (3, 0)),
        (with(&a, 1, "04"), (4, 1)),
        (with(&a, 2, "00 00"), (5, 2)),
        (with(&a, 10, "FF"), (6, 10)),
        (with(&a, 17, "00"), (7, 17)),
        (seal(HEADER_FOUR, "0A 81 7F"), (8, 21)),
        (seal(HEADER_A, "0A 04 DE 51 58 26 0A 00"), (9, 24)),
        (with(&a, 25, "37"), (10, 25)),
        ([a, vec![0]].concat(), (11, 82)),
    ];
    for (seal, told) in faults {
        assert_eq!(read(&seal), told);
        opens_no_walk(&seal);
    }
}

/// Every place of Seal A, and places past its end. Where a tag, a plain length and so many bytes stand, a step finds
/// them, though no feature of the seal begins there.
#[test]
fn every_place_of_seal_a() {
    let features = [
        found(0x65, 7, 9, 0x19),
        found(0xA6, 9, 11, 0x31),
        found(0xF5, 12, 14, 0x31),
        found(0xF5, 15, 17, 1),
        found(1, 16, 18, 2),
        found(2, 17, 19, 10),
        found(10, 18, 20, 4),
        found(0x58, 22, 24, 0x26),
    ];
    for place in (0..100).chain([4096, 1 << 32, 1 << 63, usize::MAX - 1, usize::MAX]) {
        let expected = features.iter().find(|step| step.row.tag_place == place).copied().unwrap_or(END);
        assert_eq!(walk_next(&seal_a(), place), expected, "{place}");
    }
}

/// The length in a version of a feature that stands at place 2, behind these two bytes; nothing where it is 51.
fn value_length(version: &str, feature: &str, value: usize) -> Option<usize> {
    let bytes = [hex("DC"), hex(version), hex(feature), vec![0x55; value]].concat();
    let step = walk_next(&bytes, 2);
    if step == END {
        return None;
    }
    let front = hex(feature).len();
    assert_eq!(step, found(usize::from(hex(feature)[0]), 2, 2 + front, step.row.value_length));
    Some(step.row.value_length)
}

/// "One plain byte in version 3": each of them is a good length, and the value must be whole.
#[test]
fn plain_lengths() {
    for length in 0..=255 {
        let feature = format!("07 {length:02X}");
        assert_eq!(value_length("02", &feature, length), Some(length));
        assert_eq!(value_length("02", &feature, length + 1), Some(length));
        if length > 0 {
            assert_eq!(value_length("02", &feature, length - 1), None);
        }
    }
    assert_eq!(value_length("02", "07", 0), None);
}

/// "A DER length is the shortest: one byte below 128; else 81 to 84, then 1 to 4 bytes accordingly, with no leading
/// zero." There is no limit of 4,096 here.
#[test]
fn der_lengths() {
    let good = [
        ("00", 0),
        ("7F", 127),
        ("81 80", 128),
        ("81 FF", 255),
        ("82 01 00", 256),
        ("82 FF FF", 65_535),
        ("83 01 00 00", 65_536),
        ("83 FF FF FF", 0xFF_FFFF),
        ("84 01 00 00 00", 0x100_0000),
    ];
    for (front, length) in good {
        let feature = format!("07 {front}");
        assert_eq!(value_length("03", &feature, length), Some(length), "{front}");
        assert_eq!(value_length("03", &feature, length + 9), Some(length), "{front}");
        if length > 0 {
            assert_eq!(value_length("03", &feature, length - 1), None, "{front}");
        }
        // A byte of the length is missing.
        assert_eq!(value_length("03", feature.rsplit_once(' ').unwrap().0, 0), None, "{front}");
    }
}

/// "80 and 85 to FF are malformed", and so is what is not the shortest. A great length is good, and its value is cut.
#[test]
fn wrong_der_lengths() {
    for front in [
        "80",
        "81 00",
        "81 7F",
        "82 00 80",
        "82 00 00",
        "82 00 FF",
        "83 00 01 00",
        "83 00 FF FF",
        "84 00 01 00 00",
        "84 00 00 00 00",
        "84 FF FF FF FF",
        "84 80 00 00 00",
    ] {
        assert_eq!(value_length("03", &format!("07 {front}"), 70_000), None, "{front}");
    }
    for first in 0x85..=0xFF {
        assert_eq!(value_length("03", &format!("07 {first:02X}"), 600), None);
        assert_eq!(value_length("03", &format!("07 {first:02X} 00 00 00 00 00 00 00 00"), 600), None);
    }
}

/// "02 is version 3, 03 is version 4", and no other byte is a version. FF is no tag, and every other byte is one.
#[test]
fn every_version_and_every_tag() {
    for byte in 0..=255 {
        let expected = [None, Some(2)][usize::from(byte == 2 || byte == 3)];
        assert_eq!(value_length(&format!("{byte:02X}"), "07 02", 2), expected, "{byte}");
        for version in ["02", "03"] {
            let expected = [Some(2), None][usize::from(byte == 0xFF)];
            assert_eq!(value_length(version, &format!("{byte:02X} 02"), 2), expected, "{byte}");
        }
    }
    for bytes in ["", "DC", "02", "03", "DC 02", "DC 03", "03 03", "02 00 00", "03 00 00"] {
        for place in [0, 1, 2, 3, 4, usize::MAX] {
            assert_eq!(walk_next(&hex(bytes), place), END, "{bytes} at {place}");
        }
    }
    // The version byte itself may be asked for, as any place may, and place 0 is closed whatever stands there.
    assert_eq!(walk_next(&hex("00 02 00"), 1), found(2, 1, 3, 0));
    assert_eq!(walk_next(&hex("00 03 01 07"), 1), found(3, 1, 3, 1));
    assert_eq!(walk_next(&hex("00 02 00"), 0), END);
}

/// A step "does not judge the seal again, asks nothing of tags used before": the rows of seals that are refused.
#[test]
fn steps_do_not_judge() {
    let twice = seal(HEADER_A, "0A 04 DE 51 58 26 0A 00");
    assert_eq!((read(&twice), walk_next(&twice, 18)), ((9, 24), found(10, 18, 20, 4)));
    assert_eq!((walk_next(&twice, 24), walk_next(&twice, 26)), (found(10, 24, 26, 0), END));
    let spoilt = with(&with(&seal_a(), 0, "00"), 2, &"00".repeat(16));
    assert_eq!((read(&spoilt), walk_next(&spoilt, 18)), ((3, 0), found(10, 18, 20, 4)));
    let (cut, short) = (&seal_a()[..24], &seal_a()[..23]);
    assert_eq!((walk_next(cut, 18), walk_next(cut, 24), walk_next(short, 18)), (found(10, 18, 20, 4), END, END));
    let long = [seal_a(), vec![0; 5000]].concat();
    assert_eq!((read(&long), walk_next(&long, 5000)), ((1, 4096), found(0, 5000, 5002, 0)));
}
