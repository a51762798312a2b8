//! Where a faulty C40 pair decided, and where one stands in the header beside wrong characters (document 02, Ticket 1),
//! so that it can be counted.

use std::ops::Range;

use reference::inputs::{Call, Outcome};
use reference::{c40_read, c40_write, judge, Filled};

use crate::show::Kind;

/// The text items of the header, refused with 5.
const COUNTRY: &str = "5 country";
pub const NINE: &str = "5 nine characters";
pub const SIGNER: &str = "5 signer and L";
pub const REFERENCE: &str = "5 reference";

/// Where the pair stands among the pairs read together.
const ONLY: &str = "only";
const FIRST: &str = "first";
const MIDDLE: &str = "middle";
pub const LAST: &str = "last";

/// What is wrong with it: one of the three faults, or in the header a last pair of another number of characters.
const VALUE: &str = "value";
const SHIFT: &str = "shift";
const FE: &str = "FE";
pub const NO_FIT: &str = "no fit";

/// The next faulty pair behind it.
const THEN_VALUE: &str = "then value";
const THEN_SHIFT: &str = "then shift";
const THEN_FE: &str = "then FE";

/// Wrong characters of its item: in pairs before it, in pairs behind it, or where no pair is wrongly coded.
pub const BEFORE: &str = "character before";
const BEHIND: &str = "character behind";
const ALONE: &str = "character alone";

/// What is counted of each of the codec's three refusals.
const IN_TEXT: [&str; 7] = [ONLY, FIRST, MIDDLE, LAST, THEN_VALUE, THEN_SHIFT, THEN_FE];

/// All that a run must have seen, refusal by refusal.
pub const ALL: [(&str, &[&str]); 7] = [
    ("41", &IN_TEXT),
    ("46", &IN_TEXT),
    ("47", &IN_TEXT),
    (COUNTRY, &[ONLY, VALUE, SHIFT, FE, NO_FIT, ALONE]),
    (NINE, &[FIRST, MIDDLE, LAST, VALUE, SHIFT, FE, NO_FIT, ALONE, BEFORE, BEHIND]),
    (SIGNER, &[FIRST, LAST, VALUE, SHIFT, FE, NO_FIT, ALONE, BEFORE, BEHIND]),
    (REFERENCE, &[ONLY, FIRST, MIDDLE, LAST, VALUE, SHIFT, FE, NO_FIT, ALONE, BEFORE, BEHIND]),
];

/// What is to be counted of a call; nothing where neither a pair nor a character of the header decided.
pub fn decided(call: &Call, outcome: &Outcome) -> Vec<Kind> {
    match (call, outcome.answer.told()) {
        (Call::C40Read { bytes, .. }, (41, place)) => in_text("41", bytes, place),
        (Call::C40Read { bytes, .. }, (46, place)) => in_text("46", bytes, place),
        (Call::C40Read { bytes, .. }, (47, place)) => in_text("47", bytes, place),
        (Call::Read { seal, .. } | Call::Judge { seal }, (5, place)) => in_header(seal, place),
        _ => vec![],
    }
}

fn in_text(number: &'static str, bytes: &[u8], place: usize) -> Vec<Kind> {
    let then = match text_of(&bytes[place + 2..]).0.number {
        41 => Some(THEN_VALUE),
        46 => Some(THEN_SHIFT),
        47 => Some(THEN_FE),
        _ => None,
    };
    [position(place, bytes.len())].into_iter().chain(then).map(|kind| (number, kind)).collect()
}

fn in_header(seal: &[u8], place: usize) -> Vec<Kind> {
    let item = Item::of(seal, place);
    let (at, length) = (place - item.place, coded(&item.good).len());
    let answer = text_of(&seal[item.place..item.place + length]).0;
    let fault = match answer.number {
        41 => VALUE,
        46 => SHIFT,
        47 => FE,
        _ if answer.count != item.good.len() => NO_FIT,
        _ => return vec![(item.name, ALONE)],
    };
    let mut kinds = vec![(item.name, position(at, length)), (item.name, fault)];
    kinds.extend(item.wrong_character(seal, 0..at).then_some((item.name, BEFORE)));
    kinds.extend(item.wrong_character(seal, at + 2..length).then_some((item.name, BEHIND)));
    kinds
}

fn position(place: usize, length: usize) -> &'static str {
    match (place == 0, place + 2 == length) {
        (true, true) => ONLY,
        (true, false) => FIRST,
        (false, true) => LAST,
        (false, false) => MIDDLE,
    }
}

/// The answer to C40 bytes, and their text.
fn text_of(bytes: &[u8]) -> (Filled, Vec<u8>) {
    let mut text = vec![0; 2 * bytes.len()];
    let answer = c40_read(bytes, &mut text);
    text.truncate(answer.count);
    (answer, text)
}

/// The C40 bytes of a text.
fn coded(text: &[u8]) -> Vec<u8> {
    let mut bytes = vec![0; text.len() + 1];
    let count = c40_write(text, &mut bytes).count;
    bytes.truncate(count);
    bytes
}

/// A text item of the header: where it begins, and a text that may stand there.
struct Item {
    name: &'static str,
    place: usize,
    good: Vec<u8>,
}

impl Item {
    /// The item with this place in it.
    fn of(seal: &[u8], place: usize) -> Item {
        match (seal[1], place) {
            (_, 2) => Item { name: COUNTRY, place: 2, good: b"UTO".to_vec() },
            (2, _) => Item { name: NINE, place: 4, good: b"UTAB00001".to_vec() },
            (_, 4..=7) => Item { name: SIGNER, place: 4, good: b"UTAB01".to_vec() },
            _ => {
                let digits = String::from_utf8(text_of(&seal[4..8]).1.split_off(4)).expect("the chart is ASCII");
                let length = usize::from_str_radix(&digits, 16).expect("L was read");
                Item { name: REFERENCE, place: 8, good: vec![b'A'; length] }
            }
        }
    }

    /// Whether a wrong character stands in these bytes of the item: all others become good ones, and the item's first
    /// byte is then the place of 5.
    fn wrong_character(&self, seal: &[u8], bytes: Range<usize>) -> bool {
        let mut item = coded(&self.good);
        item[bytes.clone()].copy_from_slice(&seal[self.place..][bytes]);
        let answer = judge(&[&seal[..self.place], &item, &seal[self.place + item.len()..]].concat());
        (answer.number, answer.place) == (5, self.place)
    }
}
