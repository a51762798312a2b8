//! Document 02, Ticket 12, on drawn seals: the front part beside the reader's answers, and both halves of its sentence.

mod common;

use std::collections::BTreeMap;

use common::codes::items;
use common::read_in;
use reference::inputs::{Call, Inputs};
use reference::{front, judge, why, LONGEST_SEAL};

/// The drawn seals of a seed, out of so many calls.
fn seals(seed: u64, calls: usize) -> impl Iterator<Item = Vec<u8>> {
    let mut inputs = Inputs::new(seed);
    (0..calls).filter_map(move |_| match inputs.next() {
        Call::Read { seal, .. } | Call::Judge { seal } => Some(seal),
        _ => None,
    })
}

/// "For an accepted seal it is the whole length." Else it is at most the input's, and 4,096; the judge gives it, and a
/// reading, with room and without.
#[test]
fn front_parts_of_drawn_seals() {
    for seal in seals(12, 100_000) {
        let (verdict, front) = (judge(&seal), front(&seal));
        assert_eq!(verdict.front, front, "{seal:02X?}");
        assert_eq!(read_in(&seal, 1020, 259).0, verdict);
        assert_eq!(read_in(&seal, 0, 0).0.front, front);
        assert!(front <= seal.len().min(LONGEST_SEAL));
        assert!(verdict.number != 0 || front == seal.len(), "{seal:02X?}");
        assert!(verdict.number != 11 || front == verdict.place, "{seal:02X?}");
    }
}

/// A front part of a hopeful one is hopeful, and one with a hopeless byte is not, whatever follows.
#[test]
fn what_follows_does_not_matter() {
    for seal in seals(13, 10_000) {
        let hopeful = front(&seal);
        for cut in (0..seal.len()).filter(|cut| cut.abs_diff(hopeful) < 3 || cut % 37 == 0) {
            assert_eq!(front(&seal[..cut]), cut.min(hopeful), "{seal:02X?}");
        }
        if hopeful < seal.len() {
            let cut = &seal[..=hopeful];
            assert_eq!(front(&[cut, &[0xFF; 99]].concat()), hopeful, "{seal:02X?}");
        }
    }
}

/// The byte behind a hopeful front part with which it stays so. FF ends the message, and 38 is the least signature.
fn hopeful_byte(bytes: &[u8]) -> Option<u8> {
    [0xFF, 0x38, 0xAA].into_iter().chain(0..=255).find(|&byte| front(&[bytes, &[byte]].concat()) > bytes.len())
}

/// "Some accepted seal starts with those bytes": byte after byte, one is found. Where there is none the seal is good.
#[test]
fn some_accepted_seal_starts_so() {
    let mut counts = BTreeMap::new();
    for seal in seals(14, 6_000) {
        let (hopeful, mut bytes) = (front(&seal), seal.clone());
        bytes.truncate(hopeful);
        *counts.entry(why(&bytes).item).or_insert(0) += 1;
        while let Some(byte) = hopeful_byte(&bytes) {
            bytes.push(byte);
        }
        assert_eq!(judge(&bytes).number, 0, "{seal:02X?}");
        assert!(bytes.len() <= LONGEST_SEAL && bytes.starts_with(&seal[..hopeful]));
    }
    println!("item in which the front part ends, and how often: {counts:?}");
    assert!((items::MARK..=items::SIGNATURE).all(|item| counts.contains_key(&item)), "{counts:?}");
}

/// "And none with one byte more of the input": of all that can stand for the rest of the item at fault no form makes it
/// good. In the header every form of up to two more bytes is tried.
#[test]
fn no_accepted_seal_goes_on() {
    for seal in seals(15, 250).filter(|seal| front(seal) < seal.len().min(180)) {
        let hopeful = front(&seal);
        let (before, with) = (why(&seal[..hopeful]), &seal[..=hopeful]);
        for more in 0..=u16::MAX {
            let reason = why(&[with, &more.to_be_bytes(), &[0x01; 400]].concat());
            // No form of the item that the byte belongs to is kept: the reason does not come to a later item.
            if (items::MARK..=items::CATEGORY).contains(&before.item) {
                assert!(reason.item <= before.item, "{seal:02X?} {more:04X} {reason:?}");
            }
        }
    }
}
