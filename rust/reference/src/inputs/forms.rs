//! Wrong forms of single items: C40 pairs and DER lengths.

use super::random::Random;
use crate::c40::Fault;

/// A pair of values, coded as they come.
pub(super) fn pair(a: usize, b: usize, c: usize) -> [u8; 2] {
    ((1600 * a + 40 * b + c + 1) as u16).to_be_bytes()
}

/// A pair with this fault, wherever it stands.
pub(super) fn faulty_pair(random: &mut Random, fault: Fault) -> [u8; 2] {
    match fault {
        Fault::Value => {
            let (below_fe, above_fe) = (random.within(64_001, 0xFDFF), random.within(0xFF00, 0xFFFF));
            let value = random.pick(&[0, 0, 64_001, 0xFDFF, 0xFF00, 0xFFFF, below_fe, above_fe]);
            (value as u16).to_be_bytes()
        }
        Fault::Shift => {
            let mut values = [random.within(3, 39), random.within(3, 39), random.within(3, 39)];
            match random.below(4) {
                0 => values[0] = random.below(3),
                1 => values[1] = random.below(3),
                2 => values[2] = random.within(1, 2),
                _ => values = random.pick(&[[0, 0, 0], [values[0], 0, 0], [0, values[1], 0], [39, 39, 2]]),
            }
            pair(values[0], values[1], values[2])
        }
        Fault::Fe => {
            let above_z = random.within(0x5C, 0xFF) as u8;
            [0xFE, random.pick(&[0x00, 0x01, 0x20, 0x22, 0x30, 0x3B, 0x41, 0x5C, 0x61, 0xFF, above_z])]
        }
    }
}

/// A pair that is well coded only where it is the last: two characters and 0, or one behind FE.
pub(super) fn short_pair(random: &mut Random) -> [u8; 2] {
    let two = pair(random.within(3, 39), random.within(3, 39), 0);
    let one = [0xFE, random.pick(&[0x21, 0x31, 0x3A, 0x42, 0x5B])];
    random.pick(&[one, two])
}

/// A pair that is wrongly coded, everywhere or at least where it is not the last.
pub(super) fn wrong_pair(random: &mut Random) -> [u8; 2] {
    let fault = random.pick(&[Fault::Value, Fault::Shift, Fault::Fe]);
    if random.one_in(4) {
        short_pair(random)
    } else {
        faulty_pair(random, fault)
    }
}

/// Puts wrong pairs in the place of some: the first, the last or any.
pub(super) fn spoil_pairs(random: &mut Random, bytes: &mut [u8], times: usize) {
    let pairs = bytes.len() / 2;
    for _ in 0..times {
        let (first, any, last) = (0, random.below(pairs), pairs.saturating_sub(1));
        let at = 2 * random.pick(&[first, any, any, last]);
        let wrong = wrong_pair(random);
        bytes.get_mut(at..at + 2).into_iter().for_each(|old| old.copy_from_slice(&wrong));
    }
}

/// A length in a form that is malformed, not the shortest, another's or too great.
pub(super) fn wrong_length(random: &mut Random, length: usize) -> Vec<u8> {
    let four = (length as u32).to_be_bytes();
    let more = random.within(1, 4);
    match random.below(12) {
        0 => [&[0x81][..], &four[3..]].concat(),
        1 => [&[0x82][..], &four[2..]].concat(),
        2 => [&[0x83][..], &four[1..]].concat(),
        3 => [&[0x84][..], &four].concat(),
        4 => vec![0x80],
        5 => vec![random.within(0x85, 0xFF) as u8],
        6 => [vec![random.within(0x85, 0x88) as u8, 0], four.to_vec()].concat(),
        7 => [vec![0x80 + more as u8], random.bytes(more)].concat(),
        8 => [vec![0x80 + more as u8], vec![0xFF; more]].concat(),
        9 => vec![0x81, random.pick(&[0x00, 0x7F, 0x80, 0xFF])],
        10 => vec![0x82, random.pick(&[0x00, 0x01, 0x0F, 0x10]), random.pick(&[0x00, 0x7F, 0x80, 0xFF])],
        _ => vec![random.byte()],
    }
}
