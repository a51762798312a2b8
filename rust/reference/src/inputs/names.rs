//! The header's text items, wrong in one way or two: a pair that is wrongly coded, a last pair that does not fit, or a
//! wrong character.

use super::forms;
use super::random::Random;
use super::seals::{Kind, LETTERS, LETTERS_AND_DIGITS};
use crate::c40;

/// The item made wrong, or nearly. A wrong character comes first, as it takes a text that can be read.
pub(super) fn wrong(random: &mut Random, kind: Kind, bytes: &[u8]) -> Vec<u8> {
    let mut item = bytes.to_vec();
    let (character, pairs, end) = match random.below(9) {
        0 | 1 => (false, 1, false),
        2 => (false, 2, random.one_in(2)),
        3 => (false, 0, true),
        4 | 5 => (true, 1, false),
        6 => (true, 0, true),
        _ => (true, 0, false),
    };
    if character {
        change_character(random, kind, &mut item);
    }
    if end {
        change_end(random, &mut item);
    }
    forms::spoil_pairs(random, &mut item, pairs);
    item
}

/// One character or a few that may not stand there, in a text that is well coded.
fn change_character(random: &mut Random, kind: Kind, item: &mut Vec<u8>) {
    let Ok(mut text) = c40::decode(item) else { return };
    match kind {
        Kind::Country if text.len() == 3 => text.copy_from_slice(&wrong_country(random)),
        Kind::Signer if text.len() == 6 => change_signer(random, &mut text, |random, digits| {
            digits.copy_from_slice(&wrong_digits(random));
        }),
        Kind::Names if text.len() == 9 => change_signer(random, &mut text, spoil),
        _ => spoil(random, &mut text),
    }
    *item = c40::encode(&text).unwrap_or_default();
}

/// Changes the signer, what stands behind it in the same item, or both: then the signer is the reason.
fn change_signer(random: &mut Random, text: &mut [u8], behind: impl FnOnce(&mut Random, &mut [u8])) {
    let (signer, rest) = text.split_at_mut(4);
    let (first, second) = random.pick(&[(true, false), (false, true), (false, true), (true, true)]);
    if first {
        spoil(random, signer);
    }
    if second {
        behind(random, rest);
    }
}

/// A space in the place of some character, or a digit, which is wrong where a letter stands.
fn spoil(random: &mut Random, text: &mut [u8]) {
    let place = random.below(text.len());
    text.get_mut(place).into_iter().for_each(|character| *character = random.pick(b"   7"));
}

/// Three characters that are no country.
fn wrong_country(random: &mut Random) -> [u8; 3] {
    let (letter, digit) = (random.pick(LETTERS), random.pick(b"0123456789"));
    random.pick(&[
        [digit, letter, letter],
        [letter, digit, letter],
        [letter, letter, digit],
        [letter, b' ', letter],
        [b' ', letter, letter],
        *b"   ",
    ])
}

/// Two characters that are no length L, or another.
fn wrong_digits(random: &mut Random) -> [u8; 2] {
    let other = [random.pick(b"0F"), random.pick(LETTERS_AND_DIGITS)];
    random.pick(&[*b"00", *b"00", *b"00", *b"00", *b"0G", *b"G0", *b" 5", *b"5 ", *b"FF", other])
}

/// A last pair of one, two or three characters; only one of these fits.
fn change_end(random: &mut Random, item: &mut [u8]) {
    let (letter, value) = (random.pick(LETTERS), random.within(4, 39));
    let end = random.pick(&[[0xFE, letter + 1], forms::pair(14, value, 0), forms::pair(14, 14, value)]);
    let last = item.len().saturating_sub(2);
    item[last..].iter_mut().zip(end).for_each(|(old, new)| *old = new);
}
