//! Dates (document 01, "Dates (2.3.1)"; document 02, Ticket 3).

use crate::{Date, Dated, Numbered};

impl Date {
    /// "A date carries its own first and last day, 1 January of year 1 and 31 December of year 9999."
    pub const FIRST: Date = Date { month: 1, day: 1, year: 1 };
    pub const LAST: Date = Date { month: 12, day: 31, year: 9999 };

    /// "A date must be a real day of the Gregorian calendar, years 1 to 9999."
    fn exists(&self) -> bool {
        (1..=9999).contains(&self.year) && (1..=days_of(self.month, self.year)).contains(&self.day)
    }
}

/// "Leap years by the usual rule of 4, 100 and 400."
fn is_leap(year: usize) -> bool {
    year % 4 == 0 && (year % 100 != 0 || year % 400 == 0)
}

/// How many days the month has in that year; none if there is no such month.
pub(crate) fn days_of(month: usize, year: usize) -> usize {
    match month {
        1 | 3 | 5 | 7 | 8 | 10 | 12 => 31,
        4 | 6 | 9 | 11 => 30,
        2 if is_leap(year) => 29,
        2 => 28,
        _ => 0,
    }
}

/// The date of a number MMDDYYYY, if there is one.
pub(crate) fn from_number(number: usize) -> Option<Date> {
    let date = Date { month: number / 1_000_000, day: number / 10_000 % 100, year: number % 10_000 };
    date.exists().then_some(date)
}

/// "Month, day and four-digit year as one number MMDDYYYY."
pub(crate) fn to_number(date: Date) -> Option<usize> {
    date.exists().then(|| date.month * 1_000_000 + date.day * 10_000 + date.year)
}

/// The date of its three bytes, "big-endian in three bytes".
pub(crate) fn from_bytes(bytes: &[u8]) -> Option<Date> {
    from_number(bytes.iter().fold(0, |number, &byte| number * 256 + usize::from(byte)))
}

/// The three bytes of a date, if it exists.
pub(crate) fn to_bytes(date: Date) -> Option<[u8; 3]> {
    let number = to_number(date)?;
    Some([(number >> 16) as u8, (number >> 8) as u8, number as u8])
}

/// "A date alone: 6 from its number."
pub fn date_from_number(number: usize) -> Dated {
    match from_number(number) {
        Some(date) => Dated { number: 0, place: 0, date },
        None => Dated { number: 6, ..Dated::default() },
    }
}

/// "A date alone: 22 to it."
pub fn date_to_number(date: Date) -> Numbered {
    match to_number(date) {
        Some(value) => Numbered { number: 0, place: 0, value },
        None => Numbered { number: 22, ..Numbered::default() },
    }
}
