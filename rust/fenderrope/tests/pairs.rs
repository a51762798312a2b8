//! Every C40 pair against the reference: alone, before a good pair and behind one. Number, place, text and the rest of
//! what was lent are the same, and how often each number is given was counted by hand.

use std::collections::BTreeMap;

use fenderrope::{numbers, plain};
use reference::inputs::lent;

/// The characters ZZZ.
const GOOD: [u8; 2] = [0xFA, 0x00];

/// Reads all pairs as they stand in `around`; how often each number is given, always at the pair's own place.
fn counted(place: usize, around: impl Fn([u8; 2]) -> Vec<u8>) -> BTreeMap<usize, usize> {
    let mut counts = BTreeMap::new();
    for pair in 0..=u16::MAX {
        let bytes = around(pair.to_be_bytes());
        let (mut found, mut expected) = (lent(8), lent(8));
        let answer = plain::c40_read(&bytes, &mut found);
        let right = reference::c40_read(&bytes, &mut expected);
        assert_eq!((answer.number, answer.place, answer.count), (right.number, right.place, right.count), "{bytes:X?}");
        assert_eq!(found, expected, "{bytes:X?}");
        assert_eq!(answer.place, if answer.number == 0 { 0 } else { place }, "{bytes:X?}");
        *counts.entry(answer.number).or_default() += 1;
    }
    counts
}

/// Of 64,000 values of three, 37 x 37 x 37 have no shift; 0, and the 1,535 over 64,000 less the 256 with FE, are no
/// such value. A last pair may also have two characters and 0, or FE and one of 37.
#[test]
fn every_pair_last_and_not_last() {
    let value = 1 + 1535 - 256;
    let (three, two, one) = (37 * 37 * 37, 37 * 37, 37);
    let last = [
        (numbers::DONE, three + two + one),
        (numbers::C40_PAIR, value),
        (numbers::C40_SHIFT, 64_000 - three - two),
        (numbers::C40_FE, 256 - one),
    ];
    let not_last = [
        (numbers::DONE, three),
        (numbers::C40_PAIR, value),
        (numbers::C40_SHIFT, 64_000 - three),
        (numbers::C40_FE, 256),
    ];
    assert_eq!(counted(0, |pair| pair.to_vec()), last.into());
    assert_eq!(counted(0, |pair| [pair, GOOD].concat()), not_last.into());
    assert_eq!(counted(2, |pair| [GOOD, pair].concat()), last.into());
}
