//! The comparison notices: programs that tell the reference's front parts but for one fault.

use reference::inputs::{Answer, Call, Outcome};
use reference::Reading;

use crate::wrong::noticed;

/// A program that changes the front parts of readings and judgements: it has the seal and the right answer.
fn front_noticed(change: impl Fn(&[u8], &Reading) -> usize, shown: &str) {
    let fault = |call: &Call, outcome: &mut Outcome| {
        if let (Call::Read { seal, .. } | Call::Judge { seal }, Answer::Reading(reading)) = (call, &mut outcome.answer)
        {
            reading.front = change(seal, reading);
        }
    };
    noticed(fault, shown);
}

/// One less of a good seal, none on 12, one more where a byte is hopeless.
#[test]
fn another_front_part_is_noticed() {
    front_noticed(|_, reading| reading.front - usize::from(reading.number == 0), "number: 0");
    front_noticed(|_, reading| if reading.number == 12 { 0 } else { reading.front }, "number: 12");
    front_noticed(|seal, reading| reading.front + usize::from(reading.front < seal.len()), "front: ");
    front_noticed(|_, reading| if reading.number == 1 { 0 } else { reading.front }, "number: 1, ");
}

/// A program that gives the place: the item's first byte for a byte further in.
#[test]
fn the_place_is_noticed() {
    for number in [2, 5, 6, 8, 10] {
        let place = |_: &[u8], reading: &Reading| if reading.number == number { reading.place } else { reading.front };
        front_noticed(place, &format!("number: {number}, "));
    }
}

/// A program that knows no limit: more than 4,096 bytes, or a value and a signature that have no room.
#[test]
fn no_limit_is_noticed() {
    front_noticed(|seal, reading| if reading.number == 1 { seal.len() } else { reading.front }, "number: 1, ");
    let without_room = |seal: &[u8], reading: &Reading| {
        let cut = (reading.number == 2 && reading.front < reading.place).then_some(seal.len());
        cut.unwrap_or(reading.front)
    };
    front_noticed(without_room, "number: 2, ");
}

/// A program that takes tags used before, or thinks that the input's end is hopeless.
#[test]
fn used_tags_and_ends_are_noticed() {
    front_noticed(|_, reading| reading.front + usize::from(reading.number == 9), "number: 9, ");
    let end = |seal: &[u8], reading: &Reading| {
        let ended = reading.number == 2 && reading.front == seal.len();
        reading.front - usize::from(ended && reading.front > 0)
    };
    front_noticed(end, "number: 2, ");
}
