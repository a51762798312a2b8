//! Where the calendar decided (document 02, Ticket 3), so that it can be counted.

use reference::inputs::{Answer, Call, Outcome};
use reference::{date_to_number, Date, Filled, Reading};

/// A date of document 01's first rule, day 1 to 31, that was refused: its month has no such day.
pub const PAST_ITS_MONTH: &str = "refused, as its month has no such day";
/// A date that leap years alone have, taken.
pub const LEAP_DAY: &str = "taken, 29 February";

/// What the calendar decided, if anything.
pub fn decided(call: &Call, outcome: &Outcome) -> Option<&'static str> {
    let dates = judged(call, outcome);
    match outcome.answer.told().0 {
        6 | 22 => dates.into_iter().any(past_its_month).then_some(PAST_ITS_MONTH),
        _ => dates.into_iter().any(|date| (date.month, date.day) == (2, 29)).then_some(LEAP_DAY),
    }
}

/// The dates that were taken, or those of which one was refused.
fn judged(call: &Call, outcome: &Outcome) -> Vec<Date> {
    match (call, outcome.answer) {
        (Call::Read { seal, .. } | Call::Judge { seal }, Answer::Reading(Reading { number: 6, place, .. })) => {
            vec![split(seal[place..place + 3].iter().fold(0, |number, &byte| number * 256 + usize::from(byte)))]
        }
        (_, Answer::Reading(Reading { number: 0, header, .. })) => vec![header.issued_on, header.signed_on],
        (Call::Write { header, .. }, Answer::Filled(Filled { number: 0 | 22, .. })) => {
            vec![header.issued_on, header.signed_on]
        }
        (Call::DateFromNumber(number), _) => vec![split(*number)],
        (Call::DateToNumber(date), _) => vec![*date],
        _ => vec![],
    }
}

fn split(number: usize) -> Date {
    Date { month: number / 1_000_000, day: number / 10_000 % 100, year: number % 10_000 }
}

fn past_its_month(date: Date) -> bool {
    let fields = (1..=12).contains(&date.month) && (1..=31).contains(&date.day) && (1..=9999).contains(&date.year);
    fields && date_to_number(date).number != 0
}
