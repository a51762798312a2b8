//! The rules that the items keep, each as a test of an item that keeps every rule before it.

use super::items::TAG;
use super::{bytes_told, Met};
use crate::{c40, dates, Part, LONGEST_SEAL, SIGNATURE_SIZES};

/// A rule: its code, the number that is answered where it is broken, and the bytes judged if an item breaks it.
pub(super) struct Rule {
    pub code: usize,
    pub number: usize,
    pub broken: fn(&Met) -> Option<Part>,
}

/// "Seal longer than 4,096; place 4,096."
pub(super) const NOT_TOO_LONG: Rule = Rule {
    code: 1,
    number: 1,
    broken: |met| (met.walk.seal.len() > LONGEST_SEAL).then_some(Part { place: LONGEST_SEAL, length: 1 }),
};

/// "An item cut short is 2, before its content is judged."
pub(super) const THERE: Rule = Rule { code: 2, number: 2, broken: |met| cut(met, met.size()) };

/// "The first byte of a DER length is judged before its rest is looked for": at first that byte alone must be there.
pub(super) const FIRST_THERE: Rule = Rule { code: 2, number: 2, broken: |met| cut(met, 1) };
pub(super) const REST_THERE: Rule = Rule { code: 17, number: 2, broken: |met| cut(met, met.size()) };

pub(super) const IS_MARK: Rule = Rule { code: 3, number: 3, broken: |met| unless(met, met.bytes() == [0xDC]) };

/// "02 is version 3, 03 is version 4."
pub(super) const IS_VERSION: Rule =
    Rule { code: 4, number: 4, broken: |met| unless(met, [[0x02], [0x03]].iter().any(|good| met.bytes() == good)) };

/// "The item's first wrongly coded pair, a last pair that does not fit the number of characters included."
pub(super) const WELL_CODED: Rule = Rule { code: 5, number: 5, broken: wrong_pair };

/// "A date must be a real day of the Gregorian calendar."
pub(super) const IS_DAY: Rule =
    Rule { code: 6, number: 6, broken: |met| unless(met, dates::from_bytes(met.bytes()).is_some()) };

/// "One byte each, 1 to 254."
pub(super) const IS_ONE_TO_254: Rule =
    Rule { code: 7, number: 7, broken: |met| unless(met, met.bytes().iter().all(|byte| (1..=254).contains(byte))) };

/// "80 and 85 to FF are malformed"; that is the first byte's fault alone.
pub(super) const BEGINS_LENGTH: Rule = Rule {
    code: 8,
    number: 8,
    broken: |met| matches!(met.walk.seal[met.place], 0x80 | 0x85..=0xFF).then(|| met.front(1)),
};

/// "No leading zero", and none that one byte below 128 can tell.
pub(super) const IS_SHORTEST: Rule = Rule {
    code: 18,
    number: 8,
    broken: |met| match met.bytes() {
        [_, digits @ ..] if digits.first() == Some(&0) => unless(met, false),
        [_, _, ..] => unless(met, bytes_told(met.bytes()) >= 128),
        _ => None,
    },
};

/// "The first tag that repeats an earlier one is the one named."
pub(super) const IS_NOT_USED_BEFORE: Rule =
    Rule { code: 9, number: 9, broken: |met| unless(met, met.walk.all(&TAG).all(|tag| tag != met.bytes())) };

/// "Signature size n: 28, 32, 48, 64 or 66; raw length 2n."
pub(super) const IS_SIGNATURE_SIZE: Rule = Rule {
    code: 10,
    number: 10,
    broken: |met| unless(met, SIGNATURE_SIZES.map(|n| 2 * n).contains(&bytes_told(met.bytes()))),
};

/// "For 11 the first extra byte."
pub(super) const NOTHING_AFTER: Rule =
    Rule { code: 11, number: 11, broken: |met| (met.place < met.walk.seal.len()).then(|| met.front(1)) };

/// "Letters and fillers only, a letter first." A filler is "carried in C40 as a space", and "a letter never follows a
/// filler".
pub(super) const IS_COUNTRY: Rule = Rule {
    code: 12,
    number: 5,
    broken: |met| unless(met, ["AAA", "AA ", "A  "].iter().any(|pattern| like(&met.text(), pattern))),
};

/// "The signer is two letters, then two letters or digits."
pub(super) const IS_SIGNER: Rule = Rule { code: 13, number: 5, broken: |met| unless(met, like(&met.text(), "AAXX")) };

/// "The reference is letters and digits." In version 3 it stands behind the signer.
pub(super) const IS_REFERENCE_BEHIND_SIGNER: Rule =
    Rule { code: 14, number: 5, broken: |met| unless(met, like(&met.text(), "????XXXXX")) };
pub(super) const IS_REFERENCE: Rule =
    Rule { code: 14, number: 5, broken: |met| unless(met, met.text().chunks(1).all(|one| like(one, "X"))) };

/// "Two upper-case hexadecimal digits giving the reference's length L", which is 1 to 255.
pub(super) const IS_HEXADECIMAL: Rule =
    Rule { code: 15, number: 5, broken: |met| unless(met, like(&met.text(), "????HH")) };
pub(super) const IS_NOT_ZERO: Rule =
    Rule { code: 16, number: 5, broken: |met| unless(met, !like(&met.text(), "????00")) };

/// The bytes of the item that are there, where they are fewer than so many.
fn cut(met: &Met, needed: usize) -> Option<Part> {
    let there = met.walk.seal.len() - met.place;
    (there < needed).then(|| met.front(there))
}

/// The whole item, unless it is good.
fn unless(met: &Met, good: bool) -> Option<Part> {
    (!good).then(|| met.front(met.size()))
}

/// The first pair that does not stand for three characters, or if it is the last for as many as are left over.
fn wrong_pair(met: &Met) -> Option<Part> {
    let pairs = met.bytes().chunks(2).zip((0..met.characters()).step_by(3));
    let fits = |pair, left: usize| c40::decode(pair).is_ok_and(|text| text.len() == left.min(3));
    let wrong = pairs.enumerate().find(|&(_, (pair, before))| !fits(pair, met.characters() - before));
    wrong.map(|(index, _)| Part { place: met.place + 2 * index, length: 2 })
}

/// Whether a text begins as the pattern says: `A` is a letter, `X` a letter or a digit, `H` a hexadecimal digit, `?`
/// any character, and others stand for themselves.
fn like(text: &[u8], pattern: &str) -> bool {
    let fits = |character: u8, asked| match asked {
        b'A' => character.is_ascii_uppercase(),
        b'X' => character.is_ascii_uppercase() || character.is_ascii_digit(),
        b'H' => character.is_ascii_digit() || (b'A'..=b'F').contains(&character),
        b'?' => true,
        _ => character == asked,
    };
    text.len() >= pattern.len() && text.iter().zip(pattern.bytes()).all(|(&character, asked)| fits(character, asked))
}
