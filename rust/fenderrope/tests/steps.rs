//! Every two bytes behind a tag against the reference, in both versions and with fewer bytes behind them: a step finds
//! the same feature, or none. How often it finds one was counted by hand. Then every version and every tag.

use fenderrope::{numbers, plain};
use reference::{walk_next, Row, Step};

/// How many bytes, all 0, stand behind the two at the most.
const BEHIND: usize = 300;

/// The step through the library, as the reference has it.
fn step(bytes: &[u8], at: usize) -> Step {
    let plain::Step { number, place, tag, tag_place, value, at } = plain::walk_next(bytes, at);
    Step { number, place, row: Row { tag, tag_place, value_place: value.place, value_length: value.length }, at }
}

/// Makes a step and compares it with the reference's; whether it finds a feature.
fn found(bytes: &[u8], at: usize) -> bool {
    let (answer, right) = (step(bytes, at), walk_next(bytes, at));
    assert_eq!(answer, right, "at {at} of {bytes:02X?}");
    assert!([0, numbers::WALK_END].contains(&answer.number));
    answer.number == 0
}

/// How many of all two bytes begin a length whose value is whole where so many bytes stand behind them.
fn counted(version: u8, behind: usize) -> usize {
    let mut bytes = [0; 5 + BEHIND];
    (bytes[0], bytes[1], bytes[2]) = (0xDC, version, 0x0B);
    let two = (0..=u16::MAX).filter(|two| {
        bytes[3..5].copy_from_slice(&two.to_be_bytes());
        found(&bytes[..5 + behind], 2)
    });
    two.count()
}

/// Version 3 has a plain byte: the first of the two, and the second is the value's. Version 4 has 00 to 7F alike; then
/// 81 with 80 to FF, and 82 01 00, as 82 02 00 is 512. 83 and 84 are too great, or begin with 0.
#[test]
fn every_two_bytes_of_a_length() {
    assert_eq!(counted(2, BEHIND), 256 * 256);
    assert_eq!(counted(3, BEHIND), 128 * 256 + 128 + 1);
    // A length of 0 to 101, and no more: there are 100 bytes, and the second of the two.
    assert_eq!(counted(2, 100), 102 * 256);
    assert_eq!(counted(3, 100), 102 * 256);
    // The value's last byte is missing, or 81 FF has 255 behind it.
    assert_eq!(counted(3, 254), 128 * 256 + 127);
    assert_eq!(counted(3, 255), 128 * 256 + 128);
    assert_eq!(counted(3, 256), 128 * 256 + 128);
    assert_eq!(counted(3, 257), 128 * 256 + 128 + 1);
    assert_eq!((counted(2, 0), counted(3, 0)), (2 * 256, 2 * 256));
}

/// 02 and 03 are versions, and all but FF are tags; at every place of a short string, and past it.
#[test]
fn every_version_and_every_tag() {
    for version in 0..=255 {
        for tag in 0..=255 {
            let bytes = [0xDC, version, tag, 1, 0xFF];
            assert_eq!(found(&bytes, 2), (2..=3).contains(&version) && tag != 0xFF);
            for at in [0, 1, 3, 4, 5, 6, usize::MAX - 1, usize::MAX] {
                found(&bytes, at);
            }
        }
    }
}
