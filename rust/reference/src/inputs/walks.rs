//! Inputs of the walk and of the look-up (document 02, Ticket 2): places of steps, and pairs of seals with a tag.

use super::random::Random;
use super::seals::Draft;
use super::{damage, forms, Call};
use crate::{der, LONGEST_SEAL};

const MAX: usize = usize::MAX;

/// A step: mostly where a feature of the draft begins, else anywhere in the bytes and past them.
pub(super) fn next(random: &mut Random) -> Call {
    let (mut seal, draft) = super::seal(random);
    let (tags, end) = (draft.tag_places(), seal.len());
    let borders = [0, 0, 1, 2, end.saturating_sub(2), end.saturating_sub(1), end, end + 1, 1 << 32, MAX - 1, MAX];
    let at = match random.below(8) {
        0..=2 if !tags.is_empty() => random.pick(&tags),
        3 => random.pick(&borders),
        4 => feature_in_noise(random, &mut seal),
        _ => random.below(end + 2),
    };
    Call::WalkNext { seal, at }
}

/// Puts a tag, and a length in a good form or a wrong one, somewhere into the bytes; the place of the tag. The version
/// may be one that there is not, the bytes may be more than a seal has, and all may be cut in the length or the value.
fn feature_in_noise(random: &mut Random, seal: &mut Vec<u8>) -> usize {
    if random.one_in(4) {
        let version = random.pick(&[0x00, 0x01, 0x04, 0x83, 0xFF]);
        seal.iter_mut().skip(1).take(1).for_each(|byte| *byte = version);
    }
    let mut at = random.below(seal.len() + 1);
    if random.one_in(5) {
        at = random.within(LONGEST_SEAL - 300, LONGEST_SEAL + 300);
        seal.resize(at, 0);
    }
    let length = random.pick(&[0, 1, 5, 127, 128, 200, 255, 256, 300, 5000]);
    let wrong = forms::wrong_length(random, length);
    let good = der::length_bytes(length);
    let form = if random.one_in(2) { wrong } else { good };
    let value = if random.one_in(2) { length } else { random.below(length + 1) };
    seal.truncate(at);
    seal.push(random.pick(&[0x00, 0x0B, 0xFE, 0xFF]));
    if random.one_in(4) {
        seal.extend(&form[..random.below(form.len())]);
    } else {
        seal.extend(form);
        seal.extend(random.bytes(value));
    }
    at
}

/// A look-up: in two seals that may share a tag, or in one that is lent twice; one or both may be refused.
pub(super) fn shown(random: &mut Random) -> Call {
    let (main, mut extension) = (Draft::legal(random), Draft::legal(random));
    if random.one_in(2) {
        share_tag(random, &main, &mut extension);
    }
    let tag = tag(random, &main, &extension);
    let damaged = match random.below(8) {
        0 => [true, false],
        1 => [false, true],
        2 => [true, true],
        _ => [false, false],
    };
    let main = sealed(random, &main, damaged[0]);
    let extension = if random.one_in(12) { main.clone() } else { sealed(random, &extension, damaged[1]) };
    Call::Shown { main, extension, tag }
}

/// The draft's bytes, damaged if they are to be.
fn sealed(random: &mut Random, draft: &Draft, damaged: bool) -> Vec<u8> {
    if damaged {
        damage::seal(random, draft, 1)
    } else {
        draft.bytes()
    }
}

/// Gives a feature of the extension a tag that the main seal has, unless the extension has that tag.
fn share_tag(random: &mut Random, main: &Draft, extension: &mut Draft) {
    if main.features.is_empty() || extension.features.is_empty() {
        return;
    }
    let tag = main.features[random.below(main.features.len())].0;
    let at = random.below(extension.features.len());
    if extension.features.iter().all(|feature| feature.0 != tag) {
        extension.features[at].0 = tag;
    }
}

/// A tag number: one of either seal, any, or one over 254 of which the last byte may be such a tag.
fn tag(random: &mut Random, main: &Draft, extension: &Draft) -> usize {
    let any = random.below(255);
    let of = |random: &mut Random, draft: &Draft| match draft.features.len() {
        0 => any,
        count => usize::from(draft.features[random.below(count)].0),
    };
    let (first, second) = (of(random, main), of(random, extension));
    match random.below(10) {
        0..=3 => first,
        4..=6 => second,
        7 | 8 => any,
        _ => random.pick(&[255, 256, 256 + first, 512 + second, (1 << 32) + first, MAX - 255 + second, MAX]),
    }
}
