//! Which byte is the first hopeless one (document 02, Ticket 12), so that it can be counted; and every front part of
//! drawn seals with every next byte, put to the library and to the reference.

use std::collections::BTreeMap;
use std::io::{stdout, Write};

use fenderrope::plain;
use reference::inputs::{Answer, Call, Inputs, Outcome};
use reference::{c40_read, front, why, LONGEST_SEAL};

use crate::show::Kind;
use crate::{all, seen, show};

/// The byte of an item.
const BYTES: [&str; 6] = ["1st byte", "2nd", "3rd", "4th", "5th", "6th"];

/// The items that have one kind a byte.
const MARK: &str = "hopeless, mark";
const VERSION: &str = "hopeless, version";
const COUNTRY: &str = "hopeless, country";
const NINE: &str = "hopeless, nine characters";
const SIGNER: &str = "hopeless, signer and L";
const ISSUED: &str = "hopeless, issue date";
const SIGNED: &str = "hopeless, signature date";
const DEFINITION: &str = "hopeless, definition";
const CATEGORY: &str = "hopeless, category";

/// A reference has many pairs.
const REFERENCE: &str = "hopeless, reference";
const FIRST_OF_PAIR: &str = "1st byte of a pair";
const SECOND_OF_PAIR: &str = "2nd";
const FIRST_OF_LAST: &str = "1st of the last";
const SECOND_OF_LAST: &str = "2nd of the last";

/// A tag is used, all are, or there is no room.
const TAG: &str = "hopeless, tag";
const USED: &str = "used";
const ALL_USED: &str = "all used";
const NO_ROOM: &str = "no room";

/// A length has no such form, or there is no room for what it tells of.
const PLAIN_LENGTH: &str = "hopeless, length of version 3";
const DER_LENGTH: &str = "hopeless, length of version 4";
const SIGNATURE_LENGTH: &str = "hopeless, signature length";
const NO_FORM: [&str; 2] = ["1st byte, no such form", "2nd, no such form"];
const ROOM: [&str; 3] = ["1st byte, no room", "2nd, no room", "3rd, no room"];
const TOO_GREAT: &str = "83 or 84";

/// What follows a seal, and inputs of which no byte is hopeless.
const END: &str = "hopeless, behind the signature";
const FIRST: &str = "first extra byte";
const PAST: &str = "at 4,096";
const NONE: &str = "no byte hopeless";
const GOOD: &str = "accepted";
const GOOD_NO_ROOM: &str = "12";
const TOO_SHORT: &str = "ends too early";

/// All that a run must have seen, item by item.
pub const ALL: [(&str, &[&str]); 16] = [
    (MARK, &["1st byte"]),
    (VERSION, &["1st byte"]),
    (COUNTRY, &["1st byte", "2nd"]),
    (NINE, &BYTES),
    (SIGNER, &["1st byte", "2nd", "3rd", "4th"]),
    (REFERENCE, &[FIRST_OF_PAIR, SECOND_OF_PAIR, FIRST_OF_LAST, SECOND_OF_LAST]),
    (ISSUED, &["1st byte", "2nd", "3rd"]),
    (SIGNED, &["1st byte", "2nd", "3rd"]),
    (DEFINITION, &["1st byte"]),
    (CATEGORY, &["1st byte"]),
    (TAG, &[USED, ALL_USED, NO_ROOM]),
    (PLAIN_LENGTH, &[ROOM[0]]),
    (DER_LENGTH, &[NO_FORM[0], TOO_GREAT, ROOM[0], NO_FORM[1], ROOM[1], ROOM[2]]),
    (SIGNATURE_LENGTH, &[NO_FORM[0], ROOM[0], NO_FORM[1], ROOM[1]]),
    (END, &[FIRST, PAST]),
    (NONE, &[GOOD, GOOD_NO_ROOM, TOO_SHORT]),
];

/// What is to be counted of a call; nothing where it is no reading.
pub fn decided(call: &Call, outcome: &Outcome) -> Option<Kind> {
    let (Call::Read { seal, .. } | Call::Judge { seal }, Answer::Reading(reading)) = (call, outcome.answer) else {
        return None;
    };
    Some(match (reading.number, seal.get(reading.front)) {
        (0, _) => (NONE, GOOD),
        (12, _) => (NONE, GOOD_NO_ROOM),
        (_, None) => (NONE, TOO_SHORT),
        (_, Some(&byte)) => hopeless(&seal[..reading.front], byte),
    })
}

/// The item in which a front part ends, and why this byte may not follow. Of the item as many bytes are there as the
/// reason of the front part judged.
fn hopeless(front: &[u8], byte: u8) -> Kind {
    let reason = why(front);
    let there = reason.judged.length;
    let item = match reason.item {
        0 => return (END, if front.len() == LONGEST_SEAL { PAST } else { FIRST }),
        2 => MARK,
        3 => VERSION,
        4 => COUNTRY,
        5 => NINE,
        6 => SIGNER,
        7 => return (REFERENCE, in_reference(front, there)),
        8 => ISSUED,
        9 => SIGNED,
        10 => DEFINITION,
        11 => CATEGORY,
        12 => return (TAG, at_tag(front, byte)),
        13 if front[1] == 2 => return (PLAIN_LENGTH, ROOM[there]),
        13 => return (DER_LENGTH, in_length(front, there, byte)),
        15 => return (SIGNATURE_LENGTH, in_signature_length(front, there, byte)),
        item => unreachable!("a byte of item {item} is hopeless"),
    };
    (item, BYTES[there])
}

fn in_reference(front: &[u8], there: usize) -> &'static str {
    let mut six = [0; 6];
    assert_eq!(c40_read(&front[4..8], &mut six).number, 0, "signer and L are good");
    let length = std::str::from_utf8(&six[4..]).ok().and_then(|digits| usize::from_str_radix(digits, 16).ok());
    let last = 2 * length.expect("two digits").div_ceil(3) - 2;
    match (there >= last, there % 2) {
        (false, 0) => FIRST_OF_PAIR,
        (false, _) => SECOND_OF_PAIR,
        (true, 0) => FIRST_OF_LAST,
        (true, _) => SECOND_OF_LAST,
    }
}

/// The tags that are used are those of the seal that FF and the shortest signature make of the front part: as it is
/// hopeful there is room for them.
fn at_tag(front: &[u8], byte: u8) -> &'static str {
    let used = reference::walk(&[front, &[0xFF, 56], &[0; 56]].concat());
    match used.len() {
        255 => ALL_USED,
        _ if used.iter().any(|row| row.tag == usize::from(byte)) => USED,
        _ => NO_ROOM,
    }
}

fn in_length(front: &[u8], there: usize, byte: u8) -> &'static str {
    match (there, front[front.len() - 1], byte) {
        (0, _, 0x80 | 0x85..) => NO_FORM[0],
        (0, _, 0x83 | 0x84) => TOO_GREAT,
        (1, 0x81, 0..=0x7F) | (1, 0x82, 0) => NO_FORM[1],
        _ => ROOM[there],
    }
}

fn in_signature_length(front: &[u8], there: usize, byte: u8) -> &'static str {
    let form = if there == 0 { [0x38, 0x40, 0x60, 0x81].contains(&byte) } else { [0x80, 0x84].contains(&byte) };
    assert!(there == 0 || front.ends_with(&[0x81]));
    if form {
        ROOM[there]
    } else {
        NO_FORM[there]
    }
}

/// The lengths of the front parts that are tried of a seal: all of a short one, of a long one the last and some others.
fn lengths(seal: &[u8]) -> Vec<usize> {
    let hopeful = front(seal);
    let all = 0..=hopeful;
    if seal.len() <= 300 {
        all.collect()
    } else {
        let in_item = |&length: &usize| ![14, 16].contains(&why(&seal[..length]).item);
        let last = all.clone().rev().filter(in_item).take(8);
        last.chain([hopeful / 2, hopeful.saturating_sub(1)]).collect()
    }
}

/// Every next byte behind one front part; whether it is hopeful is counted by item and byte.
fn every_byte(before: &[u8], counts: &mut BTreeMap<Kind, u64>) -> u64 {
    let mut hopeful = 0;
    for byte in 0..=255 {
        let input = [before, &[byte]].concat();
        let (found, expected) = (plain::judge(&input), front(&input));
        assert_eq!(found.front, expected, "{input:02X?}");
        assert_eq!(plain::read(&input, &mut [], &mut []).front, expected, "{input:02X?}");
        if expected > before.len() {
            hopeful += 1;
        } else {
            *counts.entry(hopeless(before, byte)).or_default() += 1;
        }
    }
    hopeful
}

#[test]
fn every_next_byte_behind_every_front_part() {
    let (mut inputs, mut counts, mut parts, mut hopeful) = (Inputs::new(12), BTreeMap::new(), 0, 0);
    let seals = std::iter::repeat_with(|| inputs.next()).filter_map(|call| match call {
        Call::Read { seal, .. } | Call::Judge { seal } if front(&seal) > 1 => Some(seal),
        _ => None,
    });
    let (short, long): (Vec<_>, Vec<_>) = seals.take(2000).partition(|seal| seal.len() <= 300);
    let seals: Vec<_> = short.into_iter().take(120).chain(long.into_iter().take(100)).collect();
    for seal in &seals {
        for length in lengths(seal) {
            hopeful += every_byte(&seal[..length], &mut counts);
            parts += 1;
        }
    }
    let head = format!("{} seals, {parts} front parts with every next byte, {hopeful} hopeful\n", seals.len());
    let kinds: Vec<_> = ALL.iter().filter(|(item, _)| *item != NONE).copied().collect();
    let table: String = kinds.iter().map(|(item, kinds)| show::by_kind(item, kinds, &counts)).collect();
    stdout().write_all((head + &table).as_bytes()).expect("standard output");
    assert_eq!(seen(counts), all(&kinds), "not every kind of hopeless byte");
}
