//! Legal contents of all shapes, and the items they are published as.

use super::days;
use super::random::Random;
use crate::{c40, dates, der, Date, Header, LONGEST_SEAL, SIGNATURE_SIZES};

pub(super) const LETTERS: &[u8] = b"ABCDEFGHIJKLMNOPQRSTUVWXYZ";
pub(super) const LETTERS_AND_DIGITS: &[u8] = b"0123456789ABCDEFGHIJKLMNOPQRSTUVWXYZ";

/// Which item of the layout some bytes are.
#[derive(Debug, Clone, Copy, PartialEq, Eq)]
pub(super) enum Kind {
    Mark,
    Version,
    Country,
    Names,
    Signer,
    Reference,
    Day,
    LastByte,
    Tag,
    Length,
    Value,
    End,
    SignatureLength,
    Signature,
}

impl Kind {
    /// All kinds, in the order of the layout.
    pub const ALL: [Kind; 14] = [
        Kind::Mark,
        Kind::Version,
        Kind::Country,
        Kind::Names,
        Kind::Signer,
        Kind::Reference,
        Kind::Day,
        Kind::LastByte,
        Kind::Tag,
        Kind::Length,
        Kind::Value,
        Kind::End,
        Kind::SignatureLength,
        Kind::Signature,
    ];
}

/// An item's bytes.
pub(super) type Piece = (Kind, Vec<u8>);

/// A content, legal when it is drawn. The country has its fillers as `<`.
#[derive(Debug, Clone)]
pub(super) struct Draft {
    pub version: usize,
    pub country: [u8; 3],
    pub signer: Vec<u8>,
    pub reference: Vec<u8>,
    pub issued_on: Date,
    pub signed_on: Date,
    pub definition: u8,
    pub category: u8,
    pub features: Vec<(u8, Vec<u8>)>,
    pub signature: Vec<u8>,
}

impl Draft {
    /// A legal content; mostly a short one.
    pub fn legal(random: &mut Random) -> Draft {
        let version = random.within(3, 4);
        let size = 2 * random.pick(&SIGNATURE_SIZES);
        let mut draft = Draft {
            version,
            country: country(random),
            signer: [random.text(2, LETTERS), random.text(2, LETTERS_AND_DIGITS)].concat(),
            reference: reference(random, version),
            issued_on: days::day(random),
            signed_on: days::day(random),
            definition: last_byte(random),
            category: last_byte(random),
            features: Vec::new(),
            signature: random.bytes(size),
        };
        draft.add_features(random);
        draft
    }

    fn add_features(&mut self, random: &mut Random) {
        let (count, longest) = match random.below(200) {
            0..=23 => (0, 0),
            24..=143 => (random.within(1, 4), 12),
            144..=159 => (random.within(1, 8), 1),
            160..=179 => return self.add_borders(random),
            180..=192 => (random.within(5, 60), 3),
            193..=195 => (random.within(250, 255), 2),
            196 => {
                let size = random.within(500, LONGEST_SEAL);
                return self.fill_to(random, size);
            }
            _ => {
                let size = random.within(LONGEST_SEAL - 3, LONGEST_SEAL);
                return self.fill_to(random, size);
            }
        };
        for tag in tags(random, count) {
            let length = random.below(longest + 1);
            self.features.push((tag, value(random, length)));
        }
    }

    /// A few values with lengths at the borders of the forms.
    fn add_borders(&mut self, random: &mut Random) {
        let lengths: &[usize] = &[0, 1, 126, 127, 128, 129, 254, 255, 256, 257, 300];
        let allowed = if self.version == 3 { &lengths[..8] } else { lengths };
        let count = random.within(1, 3);
        for tag in tags(random, count) {
            let length = random.pick(allowed);
            self.features.push((tag, random.bytes(length)));
        }
    }

    /// Features until the seal has this many bytes, or one less where no length gives just as many.
    pub fn fill_to(&mut self, random: &mut Random, size: usize) {
        let used: Vec<u8> = self.features.iter().map(|feature| feature.0).collect();
        let free: Vec<u8> = tags(random, 255).into_iter().filter(|tag| !used.contains(tag)).collect();
        let most = if self.version == 3 { 255 } else { random.pick(&[100, 127, 128, 300, LONGEST_SEAL]) };
        let mut left = size.saturating_sub(self.bytes().len());
        for tag in free {
            let cost = |length: usize| 1 + self.length_bytes(length).len() + length;
            let Some(length) = (0..=most.min(left)).rev().find(|&length| cost(length) <= left) else { return };
            left -= cost(length);
            self.features.push((tag, random.bytes(length)));
        }
    }

    /// Features up to where little room is left, and then one or two that may not fit, or another signature.
    pub fn cramp(&mut self, random: &mut Random) {
        let any = random.below(450);
        let size = LONGEST_SEAL - random.pick(&[0, 1, 2, 3, any, any]);
        self.fill_to(random, size);
        let used: Vec<u8> = self.features.iter().map(|feature| feature.0).collect();
        let free = tags(random, 255).into_iter().filter(|tag| !used.contains(tag));
        let count = random.below(3);
        for tag in free.take(count) {
            let any = random.below(600);
            let length = random.pick(&[0, 1, 127, 128, 255, any, any]);
            let length = if self.version == 3 { length.min(255) } else { length };
            self.features.push((tag, random.bytes(length)));
        }
        let size = 2 * random.pick(&SIGNATURE_SIZES);
        self.signature = random.bytes(size);
    }

    /// The length of a feature in this version.
    pub fn length_bytes(&self, length: usize) -> Vec<u8> {
        if self.version == 3 {
            vec![length as u8]
        } else {
            der::length_bytes(length)
        }
    }

    /// The items in the order of the layout.
    pub fn pieces(&self) -> Vec<Piece> {
        let c40 = |text: &[u8]| c40::encode(text).unwrap_or_default();
        let day = |date| dates::to_bytes(date).map(|bytes| bytes.to_vec()).unwrap_or_default();
        let mut pieces = vec![(Kind::Mark, vec![0xDC]), (Kind::Version, vec![self.version as u8 - 1])];
        pieces.push((Kind::Country, c40(&self.country.map(|c| if c == b'<' { b' ' } else { c }))));
        if self.version == 3 {
            pieces.push((Kind::Names, c40(&[&self.signer[..], &self.reference].concat())));
        } else {
            let length = format!("{:02X}", self.reference.len());
            pieces.push((Kind::Signer, c40(&[&self.signer[..], length.as_bytes()].concat())));
            pieces.push((Kind::Reference, c40(&self.reference)));
        }
        pieces.push((Kind::Day, day(self.issued_on)));
        pieces.push((Kind::Day, day(self.signed_on)));
        pieces.push((Kind::LastByte, vec![self.definition]));
        pieces.push((Kind::LastByte, vec![self.category]));
        for (tag, value) in &self.features {
            pieces.push((Kind::Tag, vec![*tag]));
            pieces.push((Kind::Length, self.length_bytes(value.len())));
            pieces.push((Kind::Value, value.clone()));
        }
        pieces.push((Kind::End, vec![0xFF]));
        pieces.push((Kind::SignatureLength, der::length_bytes(self.signature.len())));
        pieces.push((Kind::Signature, self.signature.clone()));
        pieces
    }

    pub fn bytes(&self) -> Vec<u8> {
        join(&self.pieces())
    }

    /// The places of the tags, in the seal's order.
    pub fn tag_places(&self) -> Vec<usize> {
        let mut places = Vec::new();
        let mut place = 0;
        for (kind, bytes) in self.pieces() {
            places.extend((kind == Kind::Tag).then_some(place));
            place += bytes.len();
        }
        places
    }

    /// The header as the writer takes it.
    pub fn header(&self) -> Header {
        Header {
            version: self.version,
            country: self.country,
            length: self.reference.len(),
            issued_on: self.issued_on,
            signed_on: self.signed_on,
            definition: usize::from(self.definition),
            category: usize::from(self.category),
        }
    }
}

/// The bytes of the items.
pub(super) fn join(pieces: &[Piece]) -> Vec<u8> {
    pieces.iter().flat_map(|piece| &piece.1).copied().collect()
}

fn country(random: &mut Random) -> [u8; 3] {
    let letters = random.pick(&[1, 2, 3, 3]);
    [0, 1, 2].map(|index| if index < letters { random.pick(LETTERS) } else { b'<' })
}

/// Five characters in version 3; in version 4 mostly few, and all lengths to 255.
fn reference(random: &mut Random, version: usize) -> Vec<u8> {
    let length = match random.below(16) {
        _ if version == 3 => 5,
        0 => random.pick(&[15, 16, 17, 159, 160, 253, 254, 255]),
        1 => random.within(1, 255),
        _ => random.within(1, 9),
    };
    random.text(length, LETTERS_AND_DIGITS)
}

fn last_byte(random: &mut Random) -> u8 {
    let any = random.within(1, 254) as u8;
    random.pick(&[1, 254, any, any, any])
}

/// So many tags, all different; the least and the greatest more often than others.
pub(super) fn tags(random: &mut Random, count: usize) -> Vec<u8> {
    let mut tags: Vec<u8> = (0..=254).collect();
    for index in 0..count.min(255) {
        let other = if random.one_in(8) { 254 } else { random.within(index, 254) };
        tags.swap(index, other);
    }
    tags.truncate(count);
    tags
}

/// A value: drawn bytes, or bytes that look like parts of a seal.
fn value(random: &mut Random, length: usize) -> Vec<u8> {
    if random.one_in(4) {
        return random.text(length, &[0xFF, 0x38, 0xDC, 0x02, 0x81, 0x0A, 0x00]);
    }
    random.bytes(length)
}
