//! Document 02, Ticket 12: "the 4,096 limit, used tags and the room that a signature needs all count".

mod common;

use common::{hex, published, HEADER_A, HEADER_FOUR};
use reference::{front, judge, LONGEST_SEAL};

const VERSIONS: [(usize, &str); 2] = [(3, HEADER_A), (4, HEADER_FOUR)];

/// A header and features up to a place where a tag stands: all of 100 bytes, and the last of those that are left.
fn up_to(version: usize, header: &str, place: usize) -> Vec<u8> {
    let mut bytes = hex(header);
    for tag in 0.. {
        let left = place - bytes.len();
        let size = if left > 110 { 100 } else { left };
        match size {
            0 => break,
            _ => bytes.extend(published(version, tag, &vec![0x5A; size - 2])),
        }
    }
    assert_eq!(bytes.len(), place);
    bytes
}

/// The bytes that go on behind a tag's place with so many bytes left to 4,096.
fn hopeful(before: &[u8]) -> Vec<u8> {
    assert_eq!(front(before), before.len());
    (0..=255).filter(|&byte| front(&[before, &[byte]].concat()) > before.len()).collect()
}

/// Whether the last byte of these is hopeful; all before it are.
fn last_is_hopeful(bytes: &[u8]) -> bool {
    let front = front(bytes);
    assert!(front + 1 >= bytes.len(), "{front} of {}", bytes.len());
    front == bytes.len()
}

/// "A tag needs itself, a length and the 58 that a signature zone needs at least: FF, 38, 56 bytes."
#[test]
fn room_at_a_tag() {
    for (version, header) in VERSIONS {
        for left in [58, 59, 60, 61, 62, 120, 1000] {
            let before = up_to(version, header, LONGEST_SEAL - left);
            let tags = hopeful(&before);
            assert_eq!(tags.contains(&0xFF), left >= 58);
            assert_eq!(tags.contains(&0xFE), left >= 60, "{left}");
            assert!(tags.len() == 1 || tags.len() > 150);
        }
        // With 57 left the last length is already hopeless, with one more byte for it not.
        let long = up_to(version, header, LONGEST_SEAL - 57);
        let whole = [&long[..], &hex("FF 38"), &[0xAA; 56]].concat();
        let length = front(&long);
        assert!(length < long.len() && usize::from(long[length]) + 58 + length + 1 == LONGEST_SEAL + 1);
        assert_eq!((judge(&whole).number, front(&whole)), (1, length));
    }
}

/// The signature zone fills the seal up to 4,096, and one byte more does not fit.
#[test]
fn room_behind_the_mark() {
    for (version, header) in VERSIONS {
        for (size, coded) in [(56, "38"), (64, "40"), (96, "60"), (128, "81 80"), (132, "81 84")] {
            let coded = hex(coded);
            let needed = 1 + coded.len() + size;
            for left in [needed - 1, needed, needed + 1] {
                if left < 58 {
                    continue;
                }
                let before = up_to(version, header, LONGEST_SEAL - left);
                let mark = [&before[..], &[0xFF]].concat();
                assert_eq!(front(&mark), mark.len());
                let sized = [&mark[..], &coded].concat();
                let fits = left >= needed;
                // Of 81 84 the first byte needs room for 81 80 alone.
                let first = if size == 132 { left >= 131 } else { fits };
                assert_eq!(last_is_hopeful(&sized[..mark.len() + 1]), first, "{size} {left}");
                assert_eq!(front(&sized) == sized.len(), fits, "{size} {left}");
                let whole = [sized, vec![0xFF; size]].concat();
                assert_eq!(front(&whole) == whole.len(), fits);
                assert_eq!(judge(&whole).number, usize::from(!fits));
            }
        }
    }
}

/// "A length needs its value and 58 behind it."
#[test]
fn room_at_a_length() {
    for (version, header) in VERSIONS {
        for left in [59, 60, 61, 100, 160, 185, 186, 187, 188, 189, 250, 314, 315, 316, 317, 318] {
            let tag = [up_to(version, header, LONGEST_SEAL - left - 1), vec![0xFE]].concat();
            let lengths = hopeful(&tag);
            let one_byte = left - 59;
            let plain = if version == 3 { 255 } else { 127 };
            let mut expected: Vec<u8> = (0..=255).filter(|&byte| usize::from(byte) <= one_byte.min(plain)).collect();
            if version == 4 {
                // 81 80, 128 bytes and 58; 82 01 00, 256 bytes and 58.
                expected.extend((left >= 188).then_some(0x81));
                expected.extend((left >= 317).then_some(0x82));
            }
            assert_eq!(lengths, expected, "version {version}, {left} left");
        }
    }
}

/// Behind 81 and 82 the number's last bytes go up to what has room.
#[test]
fn room_in_a_length() {
    for left in [188, 189, 200, 314, 315, 316, 317, 318, 600] {
        let tag = [up_to(4, HEADER_FOUR, LONGEST_SEAL - left - 1), vec![0xFE]].concat();
        let with = |more: &str| [tag.clone(), hex(more)].concat();
        let most = left - 60;
        assert_eq!(hopeful(&with("81")), (128..=255).filter(|&byte| usize::from(byte) <= most).collect::<Vec<u8>>());
        if left >= 317 {
            let most = left - 61;
            assert_eq!(hopeful(&with("82")), (1..=(most / 256) as u8).collect::<Vec<u8>>());
            let last: Vec<u8> = (0..=255).filter(|&byte| 256 + usize::from(byte) <= most).collect();
            assert_eq!(hopeful(&with("82 01")), last);
        }
    }
}

/// "Seals filled to 4,036 … 4,096": of all places from there on, how far a good seal's message is hopeful.
#[test]
fn the_last_places() {
    for (version, header) in VERSIONS {
        for place in 4030..=LONGEST_SEAL {
            let before = up_to(version, header, place);
            let left = LONGEST_SEAL - place;
            assert_eq!(front(&before) == place, left >= 58, "{left} left");
            if left >= 58 {
                let number = judge(&[&before[..], &hex("FF 38"), &vec![0xAA; left - 2]].concat()).number;
                assert_eq!(number, if left == 58 { 0 } else { 11 });
            }
        }
    }
}

/// "On 1 it is reckoned all the same, and is at most 4,096."
#[test]
fn more_than_4096_bytes() {
    for (version, header) in VERSIONS {
        let good = [up_to(version, header, LONGEST_SEAL - 58), hex("FF 38"), vec![0xAA; 56]].concat();
        assert_eq!((judge(&good).number, judge(&good).front), (0, LONGEST_SEAL));
        for more in [1, 2, 904, 8000] {
            let answer = judge(&[&good[..], &vec![0xAA; more]].concat());
            assert_eq!((answer.number, answer.place, answer.front), (1, LONGEST_SEAL, LONGEST_SEAL));
        }
        // Other bytes than a seal's, a message that goes on, and a good seal with more behind it.
        let long = [up_to(version, header, 5000), hex("FF 38"), vec![0xAA; 56]].concat();
        let answer = judge(&long);
        assert_eq!((answer.number, answer.place), (1, LONGEST_SEAL));
        assert!(answer.front < LONGEST_SEAL - 57 && answer.front > LONGEST_SEAL - 160, "{}", answer.front);
        let short = [hex(header), hex("FF 38"), vec![0xAA; 56], vec![0; LONGEST_SEAL]].concat();
        assert_eq!((judge(&short).number, judge(&short).front), (1, hex(header).len() + 58));
    }
    assert_eq!((judge(&[0; 4097]).number, judge(&[0; 4097]).front), (1, 0));
    assert_eq!((judge(&[0xDC; 4097]).number, judge(&[0xDC; 4097]).front), (1, 1));
}
