//! Document 02, Ticket 11, behind the header: tags, lengths, values, the signature and the end. Then seals of both
//! versions cut at every byte, and several faults at once, of which the first is the reason.

mod common;

use common::codes::{items, rules};
use common::{hex, pair, seal, seal_a, told, with, with_reference, HEADER_A, HEADER_FOUR};

/// Both header zones, with the place behind each.
const HEADERS: [(&str, usize); 2] = [(HEADER_A, 18), (HEADER_FOUR, 20)];

/// The first tag that repeats one, right behind it or behind all others. Its length is not looked for.
#[test]
fn tags_used_before() {
    for (header, first) in HEADERS {
        let told = |message: &str| told(&hex(&format!("{header} {message}")));
        let used = |place| (items::TAG, rules::NOT_USED_BEFORE, place, 1);
        for tag in ["00", "0A", "FE"] {
            assert_eq!(told(&format!("{tag} 00 {tag}")), used(first + 2));
            assert_eq!(told(&format!("{tag} 01 {tag} {tag} 80")), used(first + 3));
        }
        assert_eq!(told("01 00 02 00 03 00 02 00 01 00"), used(first + 6));
        let all: String = (0..255).map(|tag| format!("{tag:02X} 00 ")).collect();
        for tag in ["00", "7F", "FE"] {
            assert_eq!(told(&format!("{all} {tag}")), used(first + 510));
        }
        assert_eq!(told(&all), (items::TAG, rules::THERE, first + 510, 0));
        // FF ends the features: a second one is a length.
        assert_eq!(told("0A 00 FF FF"), (items::SIGNATURE_LENGTH, rules::BEGINS_LENGTH, first + 3, 1));
        assert_eq!(told("0A 01 FF FF 0A"), (items::SIGNATURE_LENGTH, rules::SIGNATURE_SIZE, first + 4, 1));
    }
}

/// Lengths in DER that are wrong, the rule, and how many bytes are judged.
const WRONG_LENGTHS: [(&str, usize, usize); 21] = [
    ("", rules::THERE, 0),
    ("80", rules::BEGINS_LENGTH, 1),
    ("80 80", rules::BEGINS_LENGTH, 1),
    ("85", rules::BEGINS_LENGTH, 1),
    ("85 01 02 03 04 05", rules::BEGINS_LENGTH, 1),
    ("FF", rules::BEGINS_LENGTH, 1),
    ("81", rules::REST_THERE, 1),
    ("82", rules::REST_THERE, 1),
    ("82 00", rules::REST_THERE, 2),
    ("82 01", rules::REST_THERE, 2),
    ("83 00 00", rules::REST_THERE, 3),
    ("84", rules::REST_THERE, 1),
    ("84 FF FF FF", rules::REST_THERE, 4),
    ("81 00", rules::SHORTEST, 2),
    ("81 38", rules::SHORTEST, 2),
    ("81 7F", rules::SHORTEST, 2),
    ("82 00 00", rules::SHORTEST, 3),
    ("82 00 80", rules::SHORTEST, 3),
    ("82 00 FF", rules::SHORTEST, 3),
    ("83 00 FF FF", rules::SHORTEST, 4),
    ("84 00 FF FF FF", rules::SHORTEST, 5),
];

/// A feature's length in version 4, first and behind another feature, and the signature's in both versions.
#[test]
fn wrong_lengths() {
    for (length, rule, judged) in WRONG_LENGTHS {
        let told = |header: &str, front: &str| told(&hex(&format!("{header} {front} {length}")));
        assert_eq!(told(HEADER_FOUR, "07"), (items::LENGTH, rule, 21, judged), "{length}");
        assert_eq!(told(HEADER_FOUR, "07 00 08"), (items::LENGTH, rule, 23, judged), "{length}");
        for (header, first) in HEADERS {
            assert_eq!(told(header, "FF"), (items::SIGNATURE_LENGTH, rule, first + 1, judged), "{length}");
            assert_eq!(told(header, "07 01 55 FF"), (items::SIGNATURE_LENGTH, rule, first + 4, judged), "{length}");
        }
    }
    // In version 3 a feature's length is any byte, and it is there or not.
    assert_eq!(told(&hex(&format!("{HEADER_A} 07"))), (items::LENGTH, rules::THERE, 19, 0));
    for length in ["80", "85", "FF", "81"] {
        assert_eq!(told(&hex(&format!("{HEADER_A} 07 {length}"))), (items::VALUE, rules::THERE, 20, 0));
    }
}

#[test]
fn values_that_are_cut() {
    for (header, first) in HEADERS {
        for (length, there) in [("01", 0), ("02", 1), ("7F", 126)] {
            let seal = hex(&format!("{header} 07 {length} {}", "FF".repeat(there)));
            assert_eq!(told(&seal), (items::VALUE, rules::THERE, first + 2, there));
        }
    }
    for (length, behind) in [("81 80", 23), ("82 01 00", 24), ("83 01 00 00", 25), ("84 FF FF FF FF", 26)] {
        for there in [0, 1, 127] {
            let seal = hex(&format!("{HEADER_FOUR} 07 {length} {}", "00".repeat(there)));
            assert_eq!(told(&seal), (items::VALUE, rules::THERE, behind, there));
        }
    }
}

/// The five lengths, and others in their right form: "10 comes before a missing signature byte".
#[test]
fn signatures_and_what_follows() {
    for (header, first) in HEADERS {
        let with_length = |length: &str, count| [hex(header), hex("FF"), hex(length), vec![0xAA; count]].concat();
        for (length, count) in [("38", 56), ("40", 64), ("60", 96), ("81 80", 128), ("81 84", 132)] {
            let place = first + 1 + hex(length).len();
            assert_eq!(told(&with_length(length, count)), (0, 0, 0, 0));
            for there in [0, 1, count - 1] {
                assert_eq!(told(&with_length(length, there)), (items::SIGNATURE, rules::THERE, place, there));
            }
            for more in [1, 2, 300] {
                let end = (items::END, rules::NOTHING_AFTER, place + count, 1);
                assert_eq!(told(&with_length(length, count + more)), end);
            }
        }
        for length in ["00", "37", "39", "7F", "81 81", "81 85", "82 01 00", "83 01 00 00", "84 FF FF FF FF"] {
            let wrong = (items::SIGNATURE_LENGTH, rules::SIGNATURE_SIZE, first + 1, hex(length).len());
            for count in [0, 1, 300] {
                assert_eq!(told(&with_length(length, count)), wrong, "{length}");
            }
        }
    }
}

/// Cuts a seal at every byte: these items with their sizes are the whole seal, and the one that is cut is the reason,
/// with those of its bytes that are there.
fn cut_everywhere(seal: &[u8], layout: &[(usize, usize)]) {
    assert_eq!(layout.iter().map(|(_, size)| size).sum::<usize>(), seal.len());
    assert_eq!(told(seal), (0, 0, 0, 0));
    let mut place = 0;
    for &(item, size) in layout {
        for there in 0..size {
            let is_length = item == items::LENGTH || item == items::SIGNATURE_LENGTH;
            let rule = if is_length && there > 0 { rules::REST_THERE } else { rules::THERE };
            assert_eq!(told(&seal[..place + there]), (item, rule, place, there));
        }
        place += size;
    }
    assert_eq!(told(&[seal, &[0]].concat()), (items::END, rules::NOTHING_AFTER, place, 1));
}

/// The items of a header, and how long they are: six bytes for the names of version 3, and what a reference has.
fn header_layout(version: usize, reference: usize) -> Vec<(usize, usize)> {
    let names = [vec![(items::NAMES, 6)], vec![(items::SIGNER_AND_LENGTH, 4), (items::REFERENCE, reference)]];
    [
        vec![(items::MARK, 1), (items::VERSION, 1), (items::COUNTRY, 2)],
        names[version - 3].clone(),
        vec![(items::ISSUED, 3), (items::SIGNED, 3), (items::DEFINITION, 1), (items::CATEGORY, 1)],
    ]
    .concat()
}

/// The items of features with lengths of so many bytes and values of so many.
fn features_layout(features: &[(usize, usize)]) -> Vec<(usize, usize)> {
    let feature = |&(length, value)| [(items::TAG, 1), (items::LENGTH, length), (items::VALUE, value)];
    features.iter().flat_map(feature).collect()
}

/// The mark, a length of so many bytes, and the signature.
fn signature_layout(length: usize, signature: usize) -> Vec<(usize, usize)> {
    vec![(items::TAG, 1), (items::SIGNATURE_LENGTH, length), (items::SIGNATURE, signature)]
}

#[test]
fn seals_cut_at_every_byte() {
    let layout = |header: Vec<_>, features: &[_]| [header, features_layout(features), signature_layout(1, 56)].concat();
    cut_everywhere(&seal_a(), &layout(header_layout(3, 0), &[(1, 4)]));
    cut_everywhere(&seal(HEADER_A, ""), &layout(header_layout(3, 0), &[]));
    cut_everywhere(&seal(HEADER_FOUR, ""), &layout(header_layout(4, 4), &[]));
    for length in [1, 2, 3, 4, 159, 160, 255] {
        cut_everywhere(&with_reference(length), &layout(header_layout(4, 2 * length.div_ceil(3)), &[]));
    }
    // Values that look like tags, lengths and marks; lengths of one, two and three bytes.
    let values = "00 00 FE 03 FF 38 AA 0A 02 DC 02";
    let long = format!("07 81 80 {} 08 82 01 00 {} 09 00", "FF".repeat(128), "38".repeat(256));
    cut_everywhere(&seal(HEADER_A, values), &layout(header_layout(3, 0), &[(1, 0), (1, 3), (1, 2)]));
    let four = [(1, 0), (1, 3), (1, 2), (2, 128), (3, 256), (1, 0)];
    cut_everywhere(&seal(HEADER_FOUR, &format!("{values} {long}")), &layout(header_layout(4, 4), &four));
    for (version, header) in [(3, HEADER_A), (4, HEADER_FOUR)] {
        let seal = [hex(header), hex("FF 81 84"), vec![0x84; 132]].concat();
        cut_everywhere(&seal, &[header_layout(version, 4), signature_layout(2, 132)].concat());
    }
}

/// A fault: a place, what is put there, and the reason.
type Fault = (usize, String, (usize, usize, usize, usize));

/// Each fault alone, and each two at once, of which the first in this order is the reason; then all from one on, also
/// with bytes after the seal, cut at the place, and too long.
fn first_is_named(seal: &[u8], faults: &[Fault]) {
    for (index, (place, new, reason)) in faults.iter().enumerate() {
        assert_eq!(told(&with(seal, *place, new)), *reason, "{new} at {place}");
        for (later, other, _) in &faults[index + 1..] {
            let both = with(&with(seal, *later, other), *place, new);
            assert_eq!(told(&both), *reason, "{new} at {place}, {other} at {later}");
        }
        let all = faults[index..].iter().rev().fold(seal.to_vec(), |seal, (place, new, _)| with(&seal, *place, new));
        assert_eq!(told(&all), *reason, "all from {new} at {place}");
        assert_eq!(told(&[&all[..], &[0; 9]].concat()), *reason, "all from {new} at {place}, and bytes after");
        assert_eq!(told(&all[..reason.2]).1, rules::THERE, "cut at {place}");
        let long = [&all[..], &[0; 4096]].concat();
        assert_eq!(told(&long), (items::SEAL, rules::NOT_TOO_LONG, 4096, 1), "too long");
    }
}

/// Faults in the first three items.
fn front_faults() -> Vec<Fault> {
    vec![
        (0, "DD".into(), (items::MARK, rules::MARK, 0, 1)),
        (1, "04".into(), (items::VERSION, rules::VERSION, 1, 1)),
        (2, "00 00".into(), (items::COUNTRY, rules::WELL_CODED, 2, 2)),
        (2, pair(5, 20, 20), (items::COUNTRY, rules::COUNTRY, 2, 2)),
    ]
}

/// Faults from the first date to the last byte of the header.
fn date_faults(place: usize) -> Vec<Fault> {
    vec![
        (place, format!("{:06X}", 2_302_000), (items::ISSUED, rules::DAY, place, 3)),
        (place + 3, "00 00 00".into(), (items::SIGNED, rules::DAY, place + 3, 3)),
        (place + 6, "FF".into(), (items::DEFINITION, rules::ONE_TO_254, place + 6, 1)),
        (place + 7, "00".into(), (items::CATEGORY, rules::ONE_TO_254, place + 7, 1)),
    ]
}

#[test]
fn faults_of_version_three() {
    let names = vec![
        (4, "FE 42".into(), (items::NAMES, rules::WELL_CODED, 4, 2)),
        (6, "00 00".into(), (items::NAMES, rules::WELL_CODED, 6, 2)),
        (8, pair(20, 20, 0), (items::NAMES, rules::WELL_CODED, 8, 2)),
        (4, pair(5, 20, 20), (items::NAMES, rules::SIGNER, 4, 6)),
        (8, pair(20, 20, 3), (items::NAMES, rules::REFERENCE, 4, 6)),
    ];
    let message = vec![
        (20, "0A".into(), (items::TAG, rules::NOT_USED_BEFORE, 20, 1)),
        (24, "39".into(), (items::SIGNATURE_LENGTH, rules::SIGNATURE_SIZE, 24, 1)),
    ];
    let faults = [front_faults(), names, date_faults(10), message].concat();
    first_is_named(&seal(HEADER_A, "0A 00 0B 01 55"), &faults);
}

#[test]
fn faults_of_version_four() {
    let names = vec![
        (4, "FE 42".into(), (items::SIGNER_AND_LENGTH, rules::WELL_CODED, 4, 2)),
        (6, "00 00".into(), (items::SIGNER_AND_LENGTH, rules::WELL_CODED, 6, 2)),
        (4, pair(5, 20, 20), (items::SIGNER_AND_LENGTH, rules::SIGNER, 4, 4)),
        (6, pair(20, 20, 4), (items::SIGNER_AND_LENGTH, rules::HEXADECIMAL, 4, 4)),
        (6, pair(20, 4, 4), (items::SIGNER_AND_LENGTH, rules::NOT_ZERO, 4, 4)),
        (8, "00 00".into(), (items::REFERENCE, rules::WELL_CODED, 8, 2)),
        (10, "FE 42".into(), (items::REFERENCE, rules::WELL_CODED, 10, 2)),
        (8, pair(3, 20, 20), (items::REFERENCE, rules::REFERENCE, 8, 4)),
    ];
    let message = vec![
        (21, "80".into(), (items::LENGTH, rules::BEGINS_LENGTH, 21, 1)),
        (22, "0A".into(), (items::TAG, rules::NOT_USED_BEFORE, 22, 1)),
        (23, "81 55".into(), (items::LENGTH, rules::SHORTEST, 23, 2)),
        (26, "FF".into(), (items::SIGNATURE_LENGTH, rules::BEGINS_LENGTH, 26, 1)),
        (26, "81 38".into(), (items::SIGNATURE_LENGTH, rules::SHORTEST, 26, 2)),
        (26, "39".into(), (items::SIGNATURE_LENGTH, rules::SIGNATURE_SIZE, 26, 1)),
    ];
    let faults = [front_faults(), names, date_faults(12), message].concat();
    first_is_named(&seal(HEADER_FOUR, "0A 00 0B 01 55"), &faults);
}
