//! Why seals were refused (document 02, Ticket 11), so that it can be counted: each rule of each item in each version,
//! and where an item broke a second rule, which must not be the one named.

use std::collections::{BTreeMap, BTreeSet};

use reference::inputs::{Answer, Call, Outcome};
use reference::{c40_read, item_name, rule_words, Reason};

/// A version, 0 before it is known; an item; and a rule.
pub type Kind = (usize, usize, usize);

/// The items by code, the versions that have them, and their rules, as the ticket's table has them.
const ITEMS: [(usize, &[usize], &[usize]); 18] = [
    (1, &[0], &[1]),
    (2, &[0], &[2, 3]),
    (3, &[0], &[2, 4]),
    (4, &[3, 4], &[2, 5, 12]),
    (5, &[3], &[2, 5, 13, 14]),
    (6, &[4], &[2, 5, 13, 15, 16]),
    (7, &[4], &[2, 5, 14]),
    (8, &[3, 4], &[2, 6]),
    (9, &[3, 4], &[2, 6]),
    (10, &[3, 4], &[2, 7]),
    (11, &[3, 4], &[2, 7]),
    (12, &[3, 4], &[2, 9]),
    (13, &[3], &[2]),
    (13, &[4], &[2, 8, 17, 18]),
    (14, &[3, 4], &[2]),
    (15, &[3, 4], &[2, 8, 17, 18, 10]),
    (16, &[3, 4], &[2]),
    (17, &[3, 4], &[11]),
];

/// A second rule that the item named breaks too, behind the one named.
pub const SIGNER_AND_REFERENCE: &str = "signer, and the reference too";
pub const SIGNER_AND_DIGITS: &str = "signer, and the length's digits too";
pub const SIGNER_AND_ZERO: &str = "signer, and length 00 too";
pub const CUT_AND_NOT_SHORTEST: &str = "length cut, and not the shortest too";
pub const NOT_SHORTEST_AND_NO_SIZE: &str = "length not the shortest, and no signature's too";
const SECOND: [&str; 5] =
    [SIGNER_AND_REFERENCE, SIGNER_AND_DIGITS, SIGNER_AND_ZERO, CUT_AND_NOT_SHORTEST, NOT_SHORTEST_AND_NO_SIZE];

/// How often each rule of each item was the reason, and how often a second rule was broken.
#[derive(Debug, Default)]
pub struct Counts {
    reasons: BTreeMap<Kind, u64>,
    second: BTreeMap<&'static str, u64>,
}

impl Counts {
    /// Counts the reason that was told of a seal, if it was asked for and there is one.
    pub fn add(&mut self, call: &Call, outcome: &Outcome) {
        let (Call::Why { seal }, Answer::Reason(reason)) = (call, outcome.answer) else { return };
        if reason.number == 0 {
            return;
        }
        let version = if reason.item < 4 { 0 } else { usize::from(seal[1]) + 1 };
        *self.reasons.entry((version, reason.item, reason.rule)).or_default() += 1;
        if let Some(second) = second(seal, &reason) {
            *self.second.entry(second).or_default() += 1;
        }
    }

    /// A run must have seen all 17 items, all 18 rules, and every rule of every item in each version that has it; and
    /// no others.
    pub fn must_be_all(&self) {
        let all = |of: fn(&Kind) -> usize| self.reasons.keys().map(of).collect::<BTreeSet<_>>();
        assert_eq!(all(|kind| kind.1), (1..=17).collect(), "not every item was the reason");
        assert_eq!(all(|kind| kind.2), (1..=18).collect(), "not every rule was the reason");
        assert_eq!(self.reasons.keys().copied().collect::<BTreeSet<_>>(), kinds(), "not every rule of every item");
        assert_eq!(self.second.keys().copied().collect::<BTreeSet<_>>(), SECOND.into(), "not every second rule");
    }

    /// A line for each item: how often it was the reason, and by which rules in which version. Then a line for each
    /// rule, and one for the second rules.
    pub fn show(&self) -> String {
        let total = |of: &dyn Fn(&Kind) -> bool| {
            self.reasons.iter().filter(|(kind, _)| of(kind)).map(|(_, times)| times).sum::<u64>()
        };
        let items = (1..=17).map(|item| {
            let (times, name) = (total(&|kind| kind.1 == item), item_name(item));
            format!("item {item:2} {times:9}   {name}: {}\n", self.by_version(item))
        });
        let rules = (1..=18).map(|rule| {
            let (times, words) = (total(&|kind| kind.2 == rule), rule_words(rule));
            format!("rule {rule:2} {times:9}   {words}\n")
        });
        let second: Vec<_> = self.second.iter().map(|(second, times)| format!("{second} {times}")).collect();
        items.chain(rules).chain([format!("reason before a second rule\n       {}\n", second.join(", "))]).collect()
    }

    /// The rules by which an item was the reason, version by version.
    fn by_version(&self, item: usize) -> String {
        let of_item = self.reasons.iter().filter(|(kind, _)| kind.1 == item);
        let told = of_item.map(|((version, _, rule), times)| match version {
            0 => format!("rule {rule} {times}"),
            _ => format!("version {version} rule {rule} {times}"),
        });
        told.collect::<Vec<_>>().join(", ")
    }
}

/// Each rule of each item in each version that has it.
fn kinds() -> BTreeSet<Kind> {
    let of_versions =
        ITEMS.iter().flat_map(|(item, versions, rules)| versions.iter().map(move |version| (version, item, rules)));
    of_versions.flat_map(|(version, item, rules)| rules.iter().map(move |rule| (*version, *item, *rule))).collect()
}

/// The second rule that the item breaks, if it is one of those that are counted.
pub fn second(seal: &[u8], reason: &Reason) -> Option<&'static str> {
    let judged = &seal[reason.judged.place..][..reason.judged.length];
    match (reason.item, reason.rule) {
        (5, 13) => text_of(judged)[4..].contains(&b' ').then_some(SIGNER_AND_REFERENCE),
        (6, 13) => match &text_of(judged)[4..] {
            b"00" => Some(SIGNER_AND_ZERO),
            digits => digits.iter().any(|digit| !digit.is_ascii_hexdigit()).then_some(SIGNER_AND_DIGITS),
        },
        (13 | 15, 17) => (judged.get(1) == Some(&0)).then_some(CUT_AND_NOT_SHORTEST),
        (15, 18) => {
            let length = judged[1..].iter().fold(0, |length, &digit| 256 * length + usize::from(digit));
            (![56, 64, 96, 128, 132].contains(&length)).then_some(NOT_SHORTEST_AND_NO_SIZE)
        }
        _ => None,
    }
}

/// The text of an item that is well coded.
fn text_of(bytes: &[u8]) -> Vec<u8> {
    let mut text = vec![0; 2 * bytes.len()];
    let count = c40_read(bytes, &mut text).count;
    text.truncate(count);
    text
}
