//! Why a seal is refused.

use core::fmt;

use crate::items::{Item, Rule};
use crate::layout;
use crate::refusal::Refusal;

/// How many of the bytes judged are shown.
const SHOWN: usize = 16;

/// Why a seal is refused, as [`crate::why`] tells it: every item before the one named keeps all its rules, and that one
/// keeps every rule that comes before the one named, and breaks it.
#[derive(Debug, Clone, Copy, PartialEq, Eq, Hash)]
#[must_use]
pub struct Reason<'a> {
    /// 1 to 11, as [`crate::judge`] gives it.
    pub number: usize,
    /// Where, as [`crate::judge`] gives it. The bytes judged begin there.
    pub place: usize,
    /// The item that breaks a rule.
    pub item: Item,
    /// The first rule that it breaks.
    pub rule: Rule,
    /// The bytes judged, a part of the seal. Where bytes are missing they are those that are there, maybe none; of text
    /// that is wrongly coded the pair; of a wrong character, a date or a byte the whole item; of a length its first
    /// byte where that alone is judged, and else the whole length; of a seal that is too long, and of what follows the
    /// signature, the first byte that is too many.
    pub judged: &'a [u8],
    /// How many of the seal's first bytes are hopeful, as [`Refusal::front`].
    pub front: usize,
    /// The byte behind those, with which no accepted seal goes on; none where the input ends too early.
    pub hopeless: Option<u8>,
}

impl<'a> Reason<'a> {
    /// The reason that a plain answer tells of, with the seal's front part; none for an accepted seal. The library is
    /// proved to name a part of the seal, and no other codes than the listed ones; were it not so, this would stop and
    /// make nothing up.
    pub(crate) fn of(answer: layout::Reason, front: usize, seal: &'a [u8]) -> Option<Reason<'a>> {
        let layout::Reason { number, place, item, rule, judged } = answer;
        if number == 0 {
            return None;
        }
        let item = Item::of_code(item).expect("an item of the list");
        let rule = Rule::of_code(rule).expect("a rule of the list");
        let judged = &seal[judged.place..][..judged.length];
        Some(Reason { number, place, item, rule, judged, front, hopeless: seal.get(front).copied() })
    }

    /// Number, place and front part alone, as [`crate::judge`] refuses the seal.
    pub fn refusal(&self) -> Refusal {
        Refusal { number: self.number, place: self.place, front: self.front }
    }
}

/// The six lines that `fenderrope-why` prints, without the last one's newline: number, item, place, the bytes judged,
/// the rule, and how far the seal is good. Of the bytes at most sixteen are shown, and then how many more there are.
impl fmt::Display for Reason<'_> {
    fn fmt(&self, f: &mut fmt::Formatter<'_>) -> fmt::Result {
        write!(f, "number {}\nitem {}\nplace {}\nbytes ", self.number, self.item, self.place)?;
        show(self.judged, f)?;
        write!(f, "\nrule {}\ngood up to {}, ", self.rule, self.front)?;
        match self.hopeless {
            Some(byte) => write!(f, "no seal has {byte:02X} there"),
            None => f.write_str("the input ends too early"),
        }
    }
}

/// Bytes as two upper-case digits each with a space between, or `none`.
fn show(bytes: &[u8], f: &mut fmt::Formatter<'_>) -> fmt::Result {
    let (shown, more) = bytes.split_at(bytes.len().min(SHOWN));
    let [first, rest @ ..] = shown else { return f.write_str("none") };
    write!(f, "{first:02X}")?;
    rest.iter().try_for_each(|byte| write!(f, " {byte:02X}"))?;
    match more.len() {
        0 => Ok(()),
        more => write!(f, " and {more} more"),
    }
}
