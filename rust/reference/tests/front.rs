//! Document 02, Ticket 12: the longest front part of an input with which some accepted seal begins. The items one after
//! another, and the cases. The room is in `front_room`.

mod common;

use common::{header_a, hex, pair, read_in, seal, seal_a, told, with, with_reference, HEADER_A, HEADER_FOUR};
use reference::{front, judge, Reading};

/// Number, place and front part, as the judge and a reading in much room and in none give them.
fn answer(seal: &[u8]) -> (usize, usize, usize) {
    let Reading { number, place, front, .. } = judge(seal);
    assert_eq!(front, reference::front(seal), "{seal:02X?}");
    assert_eq!(read_in(seal, 1020, 259).0, judge(seal));
    assert_eq!(read_in(seal, 0, 0).0.front, front);
    (number, place, front)
}

/// The bytes behind a front part with which some accepted seal goes on.
fn hopeful(before: &[u8]) -> Vec<u8> {
    assert_eq!(front(before), before.len(), "{before:02X?}");
    let with = |byte: &u8| [before, &[*byte]].concat();
    (0..=255).filter(|byte| front(&with(byte)) == before.len() + 1).collect()
}

/// How many bytes go on, the least and the greatest.
fn between(before: &[u8]) -> (usize, u8, u8) {
    let bytes = hopeful(before);
    (bytes.len(), bytes[0], bytes[bytes.len() - 1])
}

#[test]
fn seal_a_and_its_refusals() {
    let seal = seal_a();
    assert_eq!(answer(&[]), (2, 0, 0));
    assert_eq!(answer(&seal), (0, 0, 82));
    assert_eq!(answer(&[&seal[..], &[0]].concat()), (11, 82, 82));
    assert_eq!(answer(&seal[..81]), (2, 26, 81));
    assert_eq!(answer(&[&seal[..24], &hex("0A"), &seal[24..]].concat()), (9, 24, 24));
    assert_eq!(answer(&seal[..24]), (2, 24, 24));
}

/// "For an accepted seal it is the whole length", and with no room for table and text the seal is as good.
#[test]
fn good_seals_and_no_room() {
    for seal in [seal_a(), seal(HEADER_A, ""), seal(HEADER_FOUR, "0A 01 55"), with_reference(255)] {
        assert_eq!(answer(&seal), (0, 0, seal.len()));
        let expected = Reading { number: 12, front: seal.len(), ..Reading::default() };
        assert_eq!(read_in(&seal, 1020, 4).0, expected);
        for cut in 0..seal.len() {
            assert_eq!(answer(&seal[..cut]).2, cut);
            assert_eq!(told(&seal[..cut]).1 % 15, 2);
        }
    }
}

#[test]
fn mark_and_version() {
    assert_eq!(hopeful(&[]), [0xDC]);
    assert_eq!(hopeful(&hex("DC")), [2, 3]);
    assert_eq!(answer(&with(&seal_a(), 0, "DD")), (3, 0, 0));
    assert_eq!(answer(&with(&seal_a(), 1, "04")), (4, 1, 1));
    assert_eq!(answer(&hex("DC 00")), (4, 1, 1));
}

/// A pair's first byte is hopeful if one with it is good, and then the second decides. The country's letters are 14 to
/// 39, its filler is 3.
#[test]
fn country() {
    // From A and two fillers to ZZZ.
    let (least, greatest) = (hex(&pair(14, 3, 3)), hex(&pair(39, 39, 39)));
    assert_eq!(between(&hex("DC 02")), (145, least[0], greatest[0]));
    assert_eq!(answer(&with(&seal_a(), 2, "00")), (5, 2, 2));
    assert_eq!(answer(&with(&seal_a(), 2, "FE 42")), (5, 2, 2));
    assert_eq!(answer(&with(&seal_a(), 2, "FB")), (5, 2, 2));
    // UT and a digit, and ZZZ or one more.
    assert_eq!(answer(&with(&seal_a(), 2, &pair(34, 33, 4))), (5, 2, 3));
    assert_eq!(hopeful(&hex("DC 02 FA")), [0x00]);
    assert_eq!(answer(&with(&seal_a(), 2, "FA 01")), (5, 2, 3));
    // One byte alone, which may be a country's or not.
    assert_eq!((answer(&hex("DC 03 D9")), answer(&hex("DC 03 0A"))), ((2, 2, 3), (2, 2, 2)));
}

/// The nine characters of version 3: each byte of each pair. A space is 3.
#[test]
fn nine_characters() {
    for (place, number, place_of, wrong, front) in [
        (4, 5, 4, "00".to_string(), 4),
        (4, 5, 4, pair(34, 33, 3), 5), // UT and a space
        (4, 5, 4, "FE 42".into(), 4),
        (6, 5, 6, "00".into(), 6),
        (6, 5, 4, pair(14, 14, 3), 7), // AA and a space
        (6, 5, 6, "FE".into(), 6),
        (8, 5, 8, "FF".into(), 8),
        (8, 5, 4, pair(4, 5, 3), 9),   // 01 and a space
        (8, 5, 8, pair(14, 14, 0), 9), // two characters
        (8, 5, 8, "FE 42".into(), 8),
    ] {
        assert_eq!(answer(&with(&seal_a(), place, &wrong)), (number, place_of, front), "{place} {wrong}");
    }
    // The signer begins with two letters, what stands from the third on may be digits.
    assert_eq!(between(&hex("DC 02 D9 C5")).1, hex(&pair(14, 14, 4))[0]);
    assert_eq!(between(&hex("DC 02 D9 C5 D9 B7")).1, hex(&pair(4, 4, 4))[0]);
}

/// Signer, L and reference of version 4. "L = 00" is seen at the pair's second byte.
#[test]
fn signer_and_length() {
    let seal = seal(HEADER_FOUR, "");
    for (digits, front) in [([4, 4], 7), ([4, 20], 7), ([20, 4], 7), ([3, 5], 7)] {
        assert_eq!(answer(&with(&seal, 6, &pair(15, digits[0], digits[1]))), (5, 4, front), "{digits:?}");
    }
    assert_eq!(answer(&with(&seal, 6, "00")), (5, 6, 6));
    assert_eq!(answer(&with(&seal, 6, "FA")), (5, 6, 6));
    // B and the digits 01 to FF: from 5E 66 on; before it only AFF and its like.
    assert!(hopeful(&hex("DC 03 D9 C5 D9 B7 5E")).starts_with(&[0x66, 0x67]));
}

/// A last pair of one character begins with FE; one of two or three does not.
#[test]
fn references() {
    assert_eq!(hopeful(&with_reference(1)[..8]), [0xFE]);
    let codes: Vec<u8> = (b'0'..=b'9').chain(b'A'..=b'Z').map(|code| code + 1).collect();
    assert_eq!(hopeful(&with_reference(1)[..9]), codes);
    for length in [2, 3, 5, 6, 254, 255] {
        let seal = with_reference(length);
        let last = 8 + 2 * length.div_ceil(3) - 2;
        let (own, other) = if length % 3 == 2 { (0, 14) } else { (14, 0) };
        assert_eq!(answer(&with(&seal, last, "FE 42")).2, last);
        assert_eq!(answer(&with(&seal, last, &pair(14, 14, own))).2, seal.len());
        assert_eq!(answer(&with(&seal, last, &pair(14, 14, other))).2, last + 1);
        assert_eq!(answer(&with(&seal, last, &pair(14, 3, own))).2, last + 1);
        assert_eq!(answer(&with(&seal, last, "00 00")).2, last);
    }
    // Of a reference that is cut the wrong byte is found all the same.
    assert_eq!(answer(&hex("DC 03 D9 C5 D9 B7 5E 6A 19 A5 00")), (2, 8, 10));
}

/// "A date's place is its first byte even where only the third is bad."
#[test]
fn dates() {
    for (place, number, front) in [
        (10, 0, 10),
        (10, 13_010_001, 10),
        (10, 0xFF_FFFF, 10),
        (10, 3_321_957, 11), // 32 March
        (10, 2_301_957, 11), // 30 February
        (10, 4_311_957, 11),
        (10, 3_250_000, 12), // year 0, beside 24 March 9999 and 25 March 1
        (10, 2_291_900, 12), // beside 29 February 1904
        (10, 2_292_100, 12),
        (10, 1_010_000, 12),
        (10, 12_320_000, 11), // BB FC FF is the last there is
        (13, 13_010_001, 13),
        (13, 3_321_957, 14),
        (13, 2_291_900, 15),
    ] {
        let three = format!("{number:06X}");
        assert_eq!(answer(&with(&seal_a(), place, &three)), (6, place, front), "{number}");
    }
    // From January to December, 1 January of year 1 to 31 December 9999.
    let header = hex(HEADER_A);
    assert_eq!(between(&header[..10]), (69, 0x0F, 0xBB));
    assert_eq!(between(&[&header[..10], &[0x0F]].concat()), (151, 0x69, 0xFF));
    assert_eq!(hopeful(&[&header[..10], &[0x0F, 0x69]].concat()), (0x51..=0xFF).collect::<Vec<u8>>());
    assert_eq!(between(&[&header[..10], &[0xBB]].concat()), (253, 0x00, 0xFC));
    assert_eq!(hopeful(&[&header[..10], &hex("BB FC")].concat()).len(), 256);
}

#[test]
fn definition_and_category() {
    let middle: Vec<u8> = (1..=254).collect();
    assert_eq!((hopeful(&hex(HEADER_A)[..16]), hopeful(&hex(HEADER_A)[..17])), (middle.clone(), middle));
    assert_eq!(answer(&with(&seal_a(), 16, "00")), (7, 16, 16));
    assert_eq!(answer(&with(&seal_a(), 17, "FF")), (7, 17, 17));
    assert_eq!(header_a().definition, 1);
}

/// A used tag; with all 255 used FF alone goes on.
#[test]
fn tags() {
    for header in [HEADER_A, HEADER_FOUR] {
        let message = [hex(header), hex("0A 01 00 07 00")].concat();
        assert_eq!(hopeful(&message), (0..=255).filter(|byte| ![10, 7].contains(byte)).collect::<Vec<u8>>());
        let all: Vec<u8> = (0..255).flat_map(|tag| [tag, 0]).collect();
        let full = [hex(header), all].concat();
        assert_eq!(hopeful(&full), [0xFF]);
        assert_eq!(answer(&[&full[..], &[0xFE]].concat()), (9, full.len(), full.len()));
        // One tag is left, and FF.
        assert_eq!(hopeful(&full[..full.len() - 2]), [0xFE, 0xFF]);
    }
}

/// A plain byte in version 3. A DER length in version 4: 83 and 84 never fit, 81 7F and 82 00 are not the shortest.
#[test]
fn lengths() {
    let (three, four) = ([hex(HEADER_A), hex("0A")].concat(), [hex(HEADER_FOUR), hex("0A")].concat());
    assert_eq!(hopeful(&three), (0..=255).collect::<Vec<u8>>());
    assert_eq!(hopeful(&four), (0..=127).chain([0x81, 0x82]).collect::<Vec<u8>>());
    assert_eq!(hopeful(&[&four[..], &[0x81]].concat()), (0x80..=255).collect::<Vec<u8>>());
    // 4,096 less 24 bytes up to the value, and 58 behind it: 4,014 is 0F AE.
    assert_eq!(hopeful(&[&four[..], &[0x82]].concat()), (1..=0x0F).collect::<Vec<u8>>());
    assert_eq!(hopeful(&[&four[..], &hex("82 0F")].concat()), (0..=0xAE).collect::<Vec<u8>>());
    for (length, number, place, front) in [
        ("80", 8, 21, 21),
        ("85", 8, 21, 21),
        ("81 7F", 8, 21, 22),
        ("82 00 80", 8, 21, 22),
        ("82 10 00", 2, 24, 22),
        ("82 0F AF", 2, 24, 23),
        ("83 01 00 00", 2, 25, 21),
        ("84 01 00 00 00", 2, 26, 21),
        ("81", 2, 21, 22),
        ("82 01", 2, 21, 23),
    ] {
        assert_eq!(answer(&[&four[..], &hex(length)].concat()), (number, place, front), "{length}");
    }
}

/// "Signature length": 38, 40, 60, 81 80 and 81 84.
#[test]
fn signature_lengths() {
    for header in [HEADER_A, HEADER_FOUR] {
        let mark = [hex(header), hex("FF")].concat();
        let at = mark.len();
        assert_eq!(hopeful(&mark), [0x38, 0x40, 0x60, 0x81]);
        assert_eq!(hopeful(&[&mark[..], &[0x81]].concat()), [0x80, 0x84]);
        for (length, number, front) in
            [("39", 10, 0), ("80", 8, 0), ("82 00 38", 8, 0), ("81 38", 8, 1), ("81 81", 10, 1), ("82", 2, 0)]
        {
            assert_eq!(answer(&[&mark[..], &hex(length)].concat()), (number, at, at + front), "{length}");
        }
        for size in [56, 64, 96] {
            let seal = [&mark[..], &[size], &vec![0xFF; usize::from(size)]].concat();
            assert_eq!(answer(&seal), (0, 0, seal.len()));
            assert!(hopeful(&seal).is_empty());
        }
    }
}
