//! Document 02, Ticket 11, on drawn seals: the reasons agree with the reader, hold of the bytes judged, and each is
//! frequent. Then the names of the items and the words of the rules.

mod common;

use std::collections::{BTreeMap, BTreeSet};

use common::codes::{items, rules};
use common::filled;
use reference::inputs::{Call, Inputs};
use reference::{item_name, judge, put_item_name, put_rule_words, rule_words, why, Reason};

const CALLS: usize = 100_000;

/// The drawn seals of a seed.
fn seals(seed: u64) -> impl Iterator<Item = Vec<u8>> {
    let mut inputs = Inputs::new(seed);
    (0..CALLS).filter_map(move |_| match inputs.next().why()? {
        Call::Why { seal } => Some(seal),
        _ => None,
    })
}

/// The version that is known at an item: none before the country.
fn version(seal: &[u8], item: usize) -> usize {
    if item < items::COUNTRY {
        0
    } else {
        usize::from(seal[1]) + 1
    }
}

/// "So number and place are those of the reader always", and every field is 0 for an accepted seal. The rule is one of
/// the item's, and the bytes judged begin at the place and lie in the seal.
#[test]
fn reasons_agree_with_the_reader() {
    for seed in 1..=3 {
        for seal in seals(seed) {
            let reason = why(&seal);
            let reading = judge(&seal);
            assert_eq!((reason.number, reason.place), (reading.number, reading.place), "{seal:02X?}");
            if reading.number == 0 {
                assert_eq!(reason, Reason::default());
                continue;
            }
            assert_eq!(reason.number, rules::number(reason.rule));
            assert!(rules::of(version(&seal, reason.item), reason.item).contains(&reason.rule), "{reason:?}");
            assert_eq!(reason.judged.place, reason.place);
            assert!(reason.judged.place + reason.judged.length <= seal.len(), "{reason:?}");
        }
    }
}

/// The bytes judged are the last that are looked at, but for a pair that is wrongly coded, which is judged when its
/// item is there: without those behind the reason is the same, and with one less it is another. What is put behind them
/// changes nothing, unless bytes were missing or the seal becomes too long.
#[test]
fn the_bytes_judged_are_the_last_looked_at() {
    let mut counts = BTreeMap::new();
    for seal in seals(4) {
        let reason = why(&seal);
        let end = reason.judged.place + reason.judged.length;
        if reason.number == 0 || reason.rule == rules::WELL_CODED {
            continue;
        }
        assert_eq!(why(&seal[..end]), reason, "{seal:02X?}");
        if reason.judged.length > 0 {
            assert_ne!(why(&seal[..end - 1]), reason, "{seal:02X?}");
        }
        if ![rules::THERE, rules::REST_THERE].contains(&reason.rule) && end < 4000 {
            assert_eq!(why(&[&seal[..end], &[0xFF; 9]].concat()), reason, "{seal:02X?}");
        }
        *counts.entry(reason.rule).or_insert(0) += 1;
    }
    assert!(counts.keys().copied().eq((1..=18).filter(|&rule| rule != rules::WELL_CODED)), "{counts:?}");
}

/// "Every item before it keeps its rule": the seal before the item named is cut right there, and before what follows
/// the signature it is accepted.
#[test]
fn the_items_before_keep_their_rules() {
    let mut counts = BTreeMap::new();
    for seal in seals(5) {
        let reason = why(&seal);
        let before = why(&seal[..reason.place]);
        match reason.item {
            0 | items::SEAL => continue,
            items::END => assert_eq!(before, Reason::default(), "{seal:02X?}"),
            item => {
                assert_eq!((before.item, before.rule), (item, rules::THERE), "{seal:02X?}");
                // Of a wrongly coded pair the item may begin before it, and the pairs between are well coded.
                assert!(before.judged.length == 0 || reason.rule == rules::WELL_CODED, "{seal:02X?}");
                assert_eq!(before.judged.place + before.judged.length, reason.place);
            }
        }
        *counts.entry(reason.item).or_insert(0) += 1;
    }
    assert!(counts.keys().copied().eq(items::MARK..=items::END), "{counts:?}");
}

/// Every rule of every item is a reason in each version that has it, and often.
#[test]
fn every_reason_is_frequent() {
    let mut counts = BTreeMap::new();
    for seal in seals(6) {
        let Reason { item, rule, .. } = why(&seal);
        *counts.entry((version(&seal, item), item, rule)).or_insert(0) += 1;
    }
    assert!(counts.remove(&(0, 0, 0)) > Some(0), "no seal is accepted");
    let all_items =
        [0, 3, 4].into_iter().flat_map(|version| (items::SEAL..=items::END).map(move |item| (version, item)));
    let all =
        all_items.flat_map(|(version, item)| rules::of(version, item).iter().map(move |&rule| (version, item, rule)));
    println!("{counts:?}");
    let expected: BTreeSet<_> = all.collect();
    assert_eq!(counts.keys().copied().collect::<BTreeSet<_>>(), expected);
    for ((version, item, rule), count) in counts {
        assert!(count >= CALLS / 5000, "rule {rule} of item {item} in version {version} only {count} times");
    }
}

/// Names and words by code; a code that is not in the lists has none.
#[test]
fn names_and_words() {
    assert_eq!((item_name(items::SEAL), item_name(items::END)), ("seal", "end"));
    assert_eq!(
        (item_name(items::NAMES), item_name(items::SIGNER_AND_LENGTH)),
        ("signer and reference", "signer and length")
    );
    assert_eq!(item_name(items::TAG), "tag");
    assert_eq!(rule_words(rules::NOT_USED_BEFORE), "a tag is used once only");
    assert_eq!(
        (rule_words(rules::NOT_TOO_LONG), rule_words(rules::SHORTEST)),
        ("a seal has at most 4,096 bytes", "the length is in its shortest form")
    );
    for (count, most, words) in [(17, 20, item_name as fn(usize) -> &'static str), (18, 61, rule_words)] {
        let named: Vec<usize> = (0..100).filter(|&code| !words(code).is_empty()).collect();
        assert_eq!(named, (1..=count).collect::<Vec<_>>());
        assert_eq!(named.iter().map(|&code| words(code).len()).max(), Some(most));
        assert_eq!(words(usize::MAX), "");
    }
}

/// "No room is 42 with place 0 and count 0; an unknown code is done, with nothing written."
#[test]
fn names_and_words_in_rooms() {
    for code in (0..=40).chain([usize::MAX]) {
        for room in 0..=63 {
            let expected = |words: &str| if words.len() <= room { Ok(words.as_bytes().to_vec()) } else { Err((42, 0)) };
            assert_eq!(filled(room, |out| put_item_name(code, out)), expected(item_name(code)));
            assert_eq!(filled(room, |out| put_rule_words(code, out)), expected(rule_words(code)));
        }
    }
}
