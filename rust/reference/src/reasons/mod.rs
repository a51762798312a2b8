//! Why a seal is refused (document 02, Ticket 11): "every item before it keeps its rule, this one breaks the rule
//! named, and no rule that comes earlier in the order is broken".
//!
//! The reader is not asked. The items stand in a table, each with its rules in order, and each rule is a test of the
//! bytes. A walk goes from item to item and remembers the parts of those that kept all their rules; what a rule needs
//! to know of the items before, it finds there.

mod items;
mod rules;
mod words;

pub use words::{item_name, put_item_name, put_rule_words, rule_words};

use crate::{c40, Part};
use items::{Item, Size, SEAL};
use rules::Rule;

/// "The number, the name of the item, its place, the bytes judged and the broken rule": item and rule are codes. All is
/// 0 for an accepted seal.
#[derive(Debug, Clone, Copy, PartialEq, Eq, Default)]
pub struct Reason {
    pub number: usize,
    pub place: usize,
    pub item: usize,
    pub rule: usize,
    pub judged: Part,
}

/// A seal, and the items that have kept all their rules so far, each with its part of the seal.
struct Walk<'a> {
    seal: &'a [u8],
    kept: Vec<(&'static Item, Part)>,
}

impl<'a> Walk<'a> {
    /// Where the next item begins.
    fn place(&self) -> usize {
        self.kept.last().map_or(0, |(_, part)| part.place + part.length)
    }

    /// The bytes of the items with this one's code, in order.
    fn all<'w>(&'w self, item: &Item) -> impl Iterator<Item = &'a [u8]> + 'w {
        let (seal, code) = (self.seal, item.code);
        self.kept
            .iter()
            .filter(move |kept| kept.0.code == code)
            .map(move |(_, part)| &seal[part.place..][..part.length])
    }

    /// The bytes of the item before.
    fn last(&self) -> &'a [u8] {
        self.kept.last().map_or(&[], |(_, part)| &self.seal[part.place..][..part.length])
    }
}

/// An item where the walk has come to.
struct Met<'w> {
    walk: &'w Walk<'w>,
    item: &'static Item,
    place: usize,
}

impl Met<'_> {
    /// How many characters the item has; none where it is no text.
    fn characters(&self) -> usize {
        match self.item.size {
            Size::Characters(count) => count,
            Size::CharactersTold => characters_told(self.walk.last()),
            _ => 0,
        }
    }

    /// How many bytes the item has. "So k characters take 2 x ceil(k / 3) bytes."
    fn size(&self) -> usize {
        match self.item.size {
            Size::Bytes(count) => count,
            Size::Characters(_) | Size::CharactersTold => 2 * self.characters().div_ceil(3),
            Size::DerLength => 1 + self.walk.seal.get(self.place).map_or(0, |&first| announced(first)),
            Size::BytesTold => bytes_told(self.walk.last()),
        }
    }

    /// The item's first so many bytes, as a part of the seal.
    fn front(&self, length: usize) -> Part {
        Part { place: self.place, length }
    }

    /// The item's bytes, which are there.
    fn bytes(&self) -> &[u8] {
        &self.walk.seal[self.place..][..self.size()]
    }

    /// The item's characters, which are well coded.
    fn text(&self) -> Vec<u8> {
        c40::decode(self.bytes()).unwrap_or_default()
    }

    /// The first rule that the item breaks, and the bytes judged.
    fn broken(&self) -> Option<(&'static Rule, Part)> {
        self.item.rules.iter().find_map(|rule| Some((rule, (rule.broken)(self)?)))
    }
}

/// How many more bytes the first byte of a DER length announces: "81 to 84, then 1 to 4 bytes accordingly".
fn announced(first: u8) -> usize {
    match first {
        0x81..=0x84 => usize::from(first - 0x80),
        _ => 0,
    }
}

/// The length that one plain byte, or a DER length, tells.
fn bytes_told(length: &[u8]) -> usize {
    let digits = if length.len() > 1 { &length[1..] } else { length };
    digits.iter().fold(0, |number, &digit| 256 * number + usize::from(digit))
}

/// The length that the last two of the six characters of signer and length tell.
fn characters_told(item: &[u8]) -> usize {
    let text = c40::decode(item).unwrap_or_default();
    text.get(4..).and_then(|digits| usize::from_str_radix(std::str::from_utf8(digits).ok()?, 16).ok()).unwrap_or(0)
}

/// Why these bytes are refused.
pub fn why(seal: &[u8]) -> Reason {
    let mut walk = Walk { seal, kept: Vec::new() };
    let mut next = Some(&SEAL);
    while let Some(item) = next {
        let met = Met { walk: &walk, item, place: walk.place() };
        if let Some((rule, judged)) = met.broken() {
            return Reason { number: rule.number, place: judged.place, item: item.code, rule: rule.code, judged };
        }
        let part = met.front(met.size());
        walk.kept.push((item, part));
        next = (item.next)(&walk);
    }
    Reason::default()
}
