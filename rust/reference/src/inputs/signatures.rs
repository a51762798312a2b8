//! Inputs of the signature calls and of the choice of hash.

use super::random::Random;
use super::{forms, Call};
use crate::{der, SIGNATURE_SIZES};

/// A size n: one of the five, a neighbour of one, or any.
pub(super) fn size(random: &mut Random) -> usize {
    let good = random.pick(&SIGNATURE_SIZES);
    let any = random.below(140);
    random.pick(&[
        good,
        good,
        good,
        good,
        good,
        any,
        good + 1,
        good - 1,
        2 * good,
        good + 256,
        0,
        usize::MAX,
        usize::MAX / 2 + 29,
    ])
}

/// One half of a raw signature, of which leading zeros and the highest bit matter.
fn half(random: &mut Random, n: usize) -> Vec<u8> {
    let zeros = match random.below(6) {
        0 => n,
        1 => n.saturating_sub(1),
        2 => random.below(n + 1),
        3 => 1,
        _ => 0,
    };
    let mut bytes: Vec<u8> = (0..n).map(|index| if index < zeros { 0 } else { random.byte() }).collect();
    if let Some(first) = bytes.get_mut(zeros) {
        *first = random.pick(&[0x01, 0x7F, 0x80, 0xFF, *first]);
    }
    bytes
}

/// The content of the INTEGER that a half is.
fn content(half: &[u8]) -> Vec<u8> {
    let zeros = half.iter().take_while(|&&byte| byte == 0).count();
    match half.get(zeros) {
        None => vec![0],
        Some(0..=0x7F) => half[zeros..].to_vec(),
        Some(_) => [&[0][..], &half[zeros..]].concat(),
    }
}

/// An element with a tag and a content.
fn element(tag: u8, content: &[u8]) -> Vec<u8> {
    [vec![tag], der::length_bytes(content.len()), content.to_vec()].concat()
}

pub(super) fn to_der(random: &mut Random) -> Call {
    let n = if random.one_in(3) { size(random) } else { random.pick(&SIGNATURE_SIZES) };
    let width = if n < 140 { n } else { random.pick(&SIGNATURE_SIZES) };
    let (r, s) = (half(random, width), half(random, width));
    let needed = element(0x30, &[element(2, &content(&r)), element(2, &content(&s))].concat()).len();
    let mut raw = [r, s].concat();
    match random.below(8) {
        0 => raw.truncate(random.below(raw.len() + 1)),
        1 => raw.push(random.byte()),
        _ => {}
    }
    Call::ToDer { n, raw, room: random.room(needed) }
}

/// The content of one INTEGER, sometimes empty, negative, too long or too big.
fn wrong_content(random: &mut Random, good: Vec<u8>) -> Vec<u8> {
    match random.below(5) {
        0 => vec![],
        1 => [vec![0x00], good].concat(),
        2 => [vec![0xFF], good].concat(),
        3 => good.get(1..).unwrap_or(&[]).to_vec(),
        _ => [vec![0x01], good].concat(),
    }
}

pub(super) fn to_raw(random: &mut Random) -> Call {
    let n = if random.one_in(8) { size(random) } else { random.pick(&SIGNATURE_SIZES) };
    let width = if n < 140 && !random.one_in(8) { n } else { random.pick(&SIGNATURE_SIZES) };
    let (mut r, mut s) = (content(&half(random, width)), content(&half(random, width)));
    match random.below(12) {
        0 => r = wrong_content(random, r),
        1 => s = wrong_content(random, s),
        _ => {}
    }
    let tag = if random.one_in(40) { random.byte() } else { 2 };
    let mut inside = [element(2, &r), element(tag, &s)].concat();
    match random.below(24) {
        0 => inside.push(random.byte()),
        1 => inside.truncate(random.below(inside.len())),
        2 => inside.extend(element(2, &[1])),
        3 => inside = [vec![2], forms::wrong_length(random, r.len()), r, element(2, &s)].concat(),
        _ => {}
    }
    let mut der = element(0x30, &inside);
    match random.below(20) {
        0 => der.push(random.byte()),
        1 => der.truncate(random.below(der.len())),
        2 => der[0] = random.byte(),
        3 => der = [vec![0x30], forms::wrong_length(random, inside.len()), inside].concat(),
        4 => {
            let place = random.below(der.len());
            der[place] = random.byte();
        }
        _ => {}
    }
    Call::ToRaw { n, der, room: random.room(2 * width) }
}
