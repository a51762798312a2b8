//! Seals that are damaged: in one item, of which a wrong form is put in its place, or in their bytes.

use super::random::Random;
use super::seals::{join, Draft, Kind, Piece};
use super::{days, forms, names};
use crate::{der, LONGEST_SEAL};

/// The draft's bytes after so many damages. Items are damaged first, then bytes.
pub(super) fn seal(random: &mut Random, draft: &Draft, times: usize) -> Vec<u8> {
    let mut pieces = draft.pieces();
    let in_items = (0..times).filter(|_| random.below(5) < 3).count();
    for _ in 0..in_items {
        item(random, draft, &mut pieces);
    }
    let mut seal = join(&pieces);
    for _ in in_items..times {
        bytes(random, &mut seal);
    }
    seal
}

/// One damage that knows nothing of items.
fn bytes(random: &mut Random, seal: &mut Vec<u8>) {
    let place = random.below(seal.len());
    match random.below(16) {
        0..=2 => seal.truncate(place),
        3 => seal.truncate(random.below(101)),
        4 => seal.truncate(seal.len().saturating_sub(random.within(1, 3))),
        5 | 6 => {
            let more = random.pick(&[1, 1, 1, 2, 3, 40, 57, 58]);
            seal.extend(random.bytes(more));
        }
        7 => lengthen(random, seal),
        8 => {
            let tail = random.below(80);
            seal.truncate(place);
            seal.extend(random.bytes(tail));
        }
        9 | 10 => seal.insert(place, random.byte()),
        11 | 12 if !seal.is_empty() => {
            seal.remove(place);
        }
        _ => {
            for _ in 0..random.within(1, 3) {
                let place = random.below(seal.len());
                let new = [random.byte(), 0x00, 0xFF, seal.get(place).map_or(0, |old| old ^ (1 << random.below(8)))];
                let new = random.pick(&new);
                seal.get_mut(place).into_iter().for_each(|byte| *byte = new);
            }
        }
    }
}

/// Makes the seal longer than any seal, or just not.
fn lengthen(random: &mut Random, seal: &mut Vec<u8>) {
    let size = random.pick(&[LONGEST_SEAL, LONGEST_SEAL + 1, LONGEST_SEAL + 1, LONGEST_SEAL + 2, 5000]);
    seal.resize(size.max(seal.len()), random.pick(&[0x00, 0xAA, 0xFF]));
}

/// The index of one of the items of a kind.
fn find(random: &mut Random, pieces: &[Piece], kinds: &[Kind]) -> Option<usize> {
    let found: Vec<usize> = (0..pieces.len()).filter(|&index| kinds.contains(&pieces[index].0)).collect();
    (!found.is_empty()).then(|| random.pick(&found))
}

/// One wrong item in place of a right one.
fn item(random: &mut Random, draft: &Draft, pieces: &mut Vec<Piece>) {
    use Kind::*;
    let kinds: &[Kind] = match random.below(32) {
        0 => &[Mark],
        1 => &[Version],
        2 => &[Country],
        3..=8 => &[Names, Signer, Reference],
        9..=10 => &[Day],
        11..=12 => &[LastByte],
        13..=15 => return repeat_tag(random, pieces),
        16 => &[Tag, Value, End],
        17..=19 => &[Length, SignatureLength],
        20..=21 => &[SignatureLength],
        22..=24 => return other_signature(random, pieces),
        25..=26 => return cut_length(random, pieces),
        27..=30 => return cut_item(random, pieces),
        _ => return too_many_tags(random, draft, pieces),
    };
    let Some(index) = find(random, pieces, kinds) else { return };
    let (kind, bytes) = &pieces[index];
    pieces[index].1 = match kind {
        Mark => vec![random.pick(&[0x00, 0xDD, 0xCD, 0xFF])],
        Version => vec![random.pick(&[0x00, 0x01, 0x02, 0x03, 0x04, 0x05, 0x82, 0xDC, 0xFF])],
        Country | Names | Signer | Reference => names::wrong(random, *kind, bytes),
        Day => days::wrong_number(random).to_be_bytes()[5..].to_vec(),
        LastByte => vec![random.pick(&[0x00, 0xFF])],
        Tag | End => vec![random.pick(&[0x00, 0xFE, 0xFF])],
        Length => forms::wrong_length(random, pieces.get(index + 1).map_or(0, |value| value.1.len())),
        SignatureLength => forms::wrong_length(random, draft.signature.len()),
        Value | Signature => {
            let count = random.below(bytes.len() + 3);
            random.bytes(count)
        }
    };
}

/// A feature with a tag that an earlier one has; where there is none, two features with one tag.
fn repeat_tag(random: &mut Random, pieces: &mut Vec<Piece>) {
    let tags: Vec<usize> = (0..pieces.len()).filter(|&index| pieces[index].0 == Kind::Tag).collect();
    if tags.len() > 1 {
        let later = random.within(1, tags.len() - 1);
        let earlier = random.below(later);
        pieces[tags[later]].1 = pieces[tags[earlier]].1.clone();
        return;
    }
    let tag = tags.first().map_or_else(|| vec![random.below(255) as u8], |&index| pieces[index].1.clone());
    let Some(end) = find(random, pieces, &[Kind::End]) else { return };
    for _ in tags.len()..2 {
        let feature = [(Kind::Tag, tag.clone()), (Kind::Length, vec![1]), (Kind::Value, vec![random.byte()])];
        pieces.splice(end..end, feature);
    }
}

/// The seal up to a length in a wrong form or a long one, of which the last bytes may be missing.
fn cut_length(random: &mut Random, pieces: &mut Vec<Piece>) {
    let Some(index) = find(random, pieces, &[Kind::Length, Kind::SignatureLength]) else { return };
    let length = random.pick(&[0, 56, 128, 132, 300, 70_000]);
    pieces[index].1 = forms::wrong_length(random, length);
    let cut = random.within(1, pieces[index].1.len());
    pieces[index].1.truncate(cut);
    pieces.truncate(index + 1);
}

/// The seal up to some item, in the header or of any kind, of which mostly the last bytes are missing and the others
/// may be wrong.
fn cut_item(random: &mut Random, pieces: &mut Vec<Piece>) {
    let in_header = random.below(pieces.len().min(10));
    let kind = random.pick(&Kind::ALL);
    let of_kind = find(random, pieces, &[kind]).unwrap_or(in_header);
    pieces.truncate(1 + random.pick(&[in_header, of_kind, of_kind]));
    let wrong = random.pick(&[None, Some(0x00), Some(0xFF)]);
    if let Some((_, bytes)) = pieces.last_mut() {
        let kept = if random.one_in(4) { bytes.len() } else { random.below(bytes.len()) };
        bytes.truncate(kept);
        bytes.iter_mut().for_each(|byte| *byte = wrong.unwrap_or(*byte));
    }
}

/// A signature of a length that is none of the five, with its length in the right form.
fn other_signature(random: &mut Random, pieces: &mut [Piece]) {
    let any = random.below(140);
    let length = random.pick(&[any, 0, 55, 57, 65, 127, 129, 130, 131, 133, 255, 256]);
    for (kind, bytes) in pieces {
        match kind {
            Kind::SignatureLength => *bytes = der::length_bytes(length),
            Kind::Signature => *bytes = random.bytes(length),
            _ => {}
        }
    }
}

/// All tags once and then a 256th, mostly cut right after it.
fn too_many_tags(random: &mut Random, draft: &Draft, pieces: &mut Vec<Piece>) {
    if !random.one_in(4) {
        return repeat_tag(random, pieces);
    }
    let mut full = draft.clone();
    full.features = super::seals::tags(random, 255).into_iter().map(|tag| (tag, Vec::new())).collect();
    full.features.push((random.below(255) as u8, Vec::new()));
    *pieces = full.pieces();
    let cut = pieces.len() - random.pick(&[3, 5, 5]);
    pieces.truncate(cut);
}
