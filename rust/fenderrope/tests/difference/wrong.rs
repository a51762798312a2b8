//! The comparison notices: programs that answer as the reference does but for one fault.

use std::ops::RangeInclusive;

use reference::inputs::{run, Answer, Call, Outcome, Reference};
use reference::{Date, Dated, Filled, Reading, Row};

use crate::{compare, pairs};

/// The reference's outcome, changed by the fault; the difference that the comparison tells must show `shown`.
pub fn noticed(fault: impl Fn(&Call, &mut Outcome), shown: &str) {
    let wrong = |call: &Call| {
        let mut outcome = run(&Reference, call);
        fault(call, &mut outcome);
        Ok(outcome)
    };
    let difference = compare(1, 50_000, &[("wrong", &wrong)]).expect_err("a difference");
    assert!(difference.starts_with("difference at input "), "{difference}");
    assert!(difference.contains(shown), "`{shown}` is not in: {difference}");
}

#[test]
fn no_fault_is_no_difference() {
    let right = |call: &Call| Ok(run(&Reference, call));
    assert_eq!(compare(1, 50_000, &[("right", &right)]).map(|counts| counts.answers.len()), Ok(37));
}

/// A program that takes this day in the months given.
fn takes(day: usize, months: RangeInclusive<usize>) -> impl Fn(&Call, &mut Outcome) {
    move |call, outcome| {
        let Call::DateFromNumber(number) = call else { return };
        let date = Date { month: number / 1_000_000, day: number / 10_000 % 100, year: number % 10_000 };
        if date.day == day && months.contains(&date.month) && date.year != 0 {
            outcome.answer = Answer::Dated(Dated { date, ..Dated::default() });
        }
    }
}

#[test]
fn day_32_is_noticed() {
    noticed(takes(32, 1..=12), "day: 32");
}

#[test]
fn february_30_is_noticed() {
    noticed(takes(30, 2..=2), "month: 2, day: 30");
}

/// A program that says 41 of every faulty pair.
#[test]
fn one_number_for_all_faulty_pairs_is_noticed() {
    for number in [46, 47] {
        let fault = move |_: &Call, outcome: &mut Outcome| {
            if let Answer::Filled(filled) = &mut outcome.answer {
                filled.number = if filled.number == number { 41 } else { filled.number };
            }
        };
        noticed(fault, &format!("number: {number}"));
    }
}

/// A program that gives 5 the item's first byte where the item's wrong pair is of some kind.
#[test]
fn the_items_first_byte_for_its_wrong_pair_is_noticed() {
    for (refusal, first) in [(pairs::NINE, 4), (pairs::SIGNER, 4), (pairs::REFERENCE, 8)] {
        for kind in [pairs::LAST, pairs::NO_FIT, pairs::BEFORE] {
            let fault = |call: &Call, outcome: &mut Outcome| {
                let of_that_kind = pairs::decided(call, outcome).contains(&(refusal, kind));
                match &mut outcome.answer {
                    Answer::Reading(reading) if of_that_kind => reading.place = first,
                    _ => {}
                }
            };
            noticed(fault, "number: 5");
        }
    }
}

#[test]
fn a_place_off_by_one_is_noticed() {
    let fault = |_: &Call, outcome: &mut Outcome| {
        if let Answer::Reading(reading) = &mut outcome.answer {
            reading.place += usize::from(reading.number == 11);
        }
    };
    noticed(fault, "number: 11");
}

#[test]
fn exchanged_dates_are_noticed() {
    let fault = |_: &Call, outcome: &mut Outcome| {
        if let Answer::Reading(reading) = &mut outcome.answer {
            std::mem::swap(&mut reading.header.issued_on, &mut reading.header.signed_on);
        }
    };
    noticed(fault, "number: 0");
}

#[test]
fn a_byte_changed_on_a_refusal_is_noticed() {
    let fault = |_: &Call, outcome: &mut Outcome| {
        if outcome.answer.told().0 != 0 {
            outcome.bytes.iter_mut().take(1).for_each(|byte| *byte ^= 1);
        }
    };
    noticed(fault, "bytes 5A");
}

#[test]
fn a_number_changed_past_the_rows_is_noticed() {
    let fault = |_: &Call, outcome: &mut Outcome| {
        if let Answer::Reading(Reading { number: 0, count, .. }) = outcome.answer {
            outcome.table.iter_mut().skip(Row::WIDTH * count).for_each(|one| *one = 0);
        }
    };
    noticed(fault, "number: 0");
}

/// A program that changes each row that it read.
fn changes_rows(change: impl Fn(&mut Row)) -> impl Fn(&Call, &mut Outcome) {
    move |_, outcome| {
        let Answer::Reading(Reading { number: 0, count, .. }) = outcome.answer else { return };
        for numbers in outcome.table.chunks_exact_mut(Row::WIDTH).take(count) {
            let mut row = Row::of(numbers).expect("a whole row");
            change(&mut row);
            numbers.copy_from_slice(&row.numbers());
        }
    }
}

#[test]
fn exchanged_places_of_tag_and_value_are_noticed() {
    noticed(changes_rows(|row| std::mem::swap(&mut row.tag_place, &mut row.value_place)), "number: 0");
}

#[test]
fn a_tags_place_one_on_is_noticed() {
    noticed(changes_rows(|row| row.tag_place += 1), "number: 0");
}

/// A program that reads a seal, and changes nothing, in a room of three numbers a feature.
#[test]
fn a_room_of_three_numbers_a_feature_is_noticed() {
    let fault = |call: &Call, outcome: &mut Outcome| {
        let (Call::Read { seal, table_room, .. }, (12, _)) = (call, outcome.answer.told()) else { return };
        let verdict = reference::judge(seal);
        if *table_room == (Row::WIDTH - 1) * verdict.count {
            outcome.answer = Answer::Reading(verdict);
        }
    };
    noticed(fault, "number: 12");
}

/// A program that refuses a tag's place outside of the values.
#[test]
fn a_judged_second_number_is_noticed() {
    let fault = |call: &Call, outcome: &mut Outcome| {
        let (Call::Write { rows, values, .. }, (0, _)) = (call, outcome.answer.told()) else { return };
        if Row::all(rows).is_some_and(|rows| rows.iter().any(|row| row.tag_place > values.len())) {
            outcome.answer = Answer::Filled(Filled { number: 24, ..Filled::default() });
        }
    };
    noticed(fault, "number: 24");
}

#[test]
fn touched_memory_is_noticed() {
    let wrong = |_: &Call| Err("memory was touched".to_string());
    let difference = compare(1, 1, &[("wrong", &wrong)]).expect_err("a difference");
    assert!(difference.contains("wrong memory was touched"), "{difference}");
}
