//! Days of the calendar, and dates that are none, or nearly.

use super::random::Random;
use crate::dates::days_of;
use crate::Date;

/// A day: the first and the last there is, a 29 February, the last of a month, or any.
pub(super) fn day(random: &mut Random) -> Date {
    let (month, year) = (random.within(1, 12), random.within(1, 9999));
    let last = days_of(month, year);
    match random.below(8) {
        0 => Date::FIRST,
        1 => Date::LAST,
        2 => Date { month: 2, day: 29, year: leap_year(random) },
        3 => Date { month, day: last, year },
        _ => Date { month, day: random.within(1, last), year },
    }
}

/// A year that has a 29 February.
fn leap_year(random: &mut Random) -> usize {
    let any = 4 * random.within(1, 2499);
    let year = random.pick(&[4, 400, 1904, 2000, 2004, 9600, 9996, any, any, any, any]);
    if days_of(2, year) == 29 {
        year
    } else {
        year + 4
    }
}

/// Nearly a day: up to 31, but past the last day of its month.
pub(super) fn past_the_month(random: &mut Random) -> Date {
    let (hundredth, any) = (100 * random.within(1, 99), random.within(1, 9999));
    let month = random.pick(&[2, 2, 2, 2, 4, 6, 9, 11]);
    let year = random.pick(&[1900, 2000, 2100, hundredth, hundredth, any, any]);
    let next = days_of(month, year) + 1;
    let other = random.within(next, 31);
    Date { month, day: random.pick(&[next, next, other]), year }
}

/// A date with a field at or past a border, or past its month's last day.
pub(super) fn about(random: &mut Random) -> Date {
    const MAX: usize = usize::MAX;
    let mut date = day(random);
    match random.below(4) {
        0 => date.month = random.pick(&[0, 1, 12, 13, 13, 257, MAX]),
        1 => date.day = random.pick(&[0, 1, 31, 32, 32, 100, 257, MAX]),
        2 => date.year = random.pick(&[0, 0, 1, 9999, 10_000, 10_001, MAX]),
        _ => date = past_the_month(random),
    }
    date
}

/// A number of three bytes that is no date, or just one.
pub(super) fn wrong_number(random: &mut Random) -> usize {
    let month = random.pick(&[0, 1, 1, 12, 13, 16]);
    let day = random.pick(&[0, 1, 31, 32, 99]);
    let year = random.pick(&[0, 0, 1, 9999]);
    match random.below(9) {
        0 => random.pick(&[0, 1, 1_010_000, 12_320_000, 12_319_999 + 2, 0xFF_FFFF]),
        1 => random.below(1 << 24),
        2 => number(random.within(1, 12), random.within(1, 31), 0),
        3 => number(random.within(1, 12), random.within(32, 99), random.within(1, 9999)),
        4 | 5 => number(month, day, year) & 0xFF_FFFF,
        _ => {
            let Date { month, day, year } = past_the_month(random);
            number(month, day, year)
        }
    }
}

/// MMDDYYYY, of whatever it is.
pub(super) fn number(month: usize, day: usize, year: usize) -> usize {
    month * 1_000_000 + day * 10_000 + year
}
