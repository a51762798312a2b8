//! Every number of three bytes against an independent calendar: days counted one by one, each turned into month, day and
//! year by the formula of Fliegel and Van Flandern (Communications of the ACM 11, 1968), which has neither a table of
//! months nor a test for leap years.

use fenderrope::{numbers, plain, Date};

/// 1 January of year 1 and 31 December of year 9999, as Julian day numbers.
const FIRST: i64 = 1_721_426;
const LAST: i64 = 5_373_484;

/// Month, day and year of a Julian day number.
fn calendar(julian: i64) -> (i64, i64, i64) {
    let l = julian + 68_569;
    let n = 4 * l / 146_097;
    let l = l - (146_097 * n + 3) / 4;
    let i = 4_000 * (l + 1) / 1_461_001;
    let l = l - 1_461 * i / 4 + 31;
    let j = 80 * l / 2_447;
    let day = l - 2_447 * j / 80;
    let l = j / 11;
    (j + 2 - 12 * l, day, 100 * (n - 49) + i + l)
}

/// Whether each number of three bytes is a day's.
fn days() -> Vec<bool> {
    let mut is_day = vec![false; 1 << 24];
    for (month, day, year) in (FIRST..=LAST).map(calendar) {
        let number = (month * 1_000_000 + day * 10_000 + year) as usize;
        assert!(!std::mem::replace(&mut is_day[number], true), "{number} is two days");
    }
    is_day
}

#[test]
fn every_number_of_three_bytes() {
    let mut count = 0;
    for (number, is_day) in days().into_iter().enumerate() {
        let answer = plain::date_from_number(number);
        let Date { month, day, year } = answer.date;
        if is_day {
            count += 1;
            assert_eq!((answer.number, answer.place), (0, 0), "{number}");
            assert_eq!((month, day, year), (number / 1_000_000, number / 10_000 % 100, number % 10_000));
            let back = plain::date_to_number(answer.date);
            assert_eq!((back.number, back.place, back.value), (0, 0, number));
        } else {
            assert_eq!((answer.number, answer.place), (numbers::NO_DATE, 0), "{number}");
            assert_eq!((month, day, year), (0, 0, 0), "{number}");
        }
    }
    assert_eq!(count, 3_652_059);
}

/// Dates whose fields may be any: every month and day, and some past them, in every fourth year and about the hundredth.
#[test]
fn every_month_and_day() {
    let is_day = days();
    for year in (0..=10_001).filter(|year| year % 4 == 0 || year % 100 < 3) {
        for (month, day) in (0..=13).flat_map(|month| (0..=33).map(move |day| (month, day))) {
            let number = month * 1_000_000 + day * 10_000 + year;
            let expected = if year < 10_000 && is_day[number] { (0, number) } else { (numbers::WRITE_DATE, 0) };
            let answer = plain::date_to_number(Date { month, day, year });
            assert_eq!((answer.number, answer.value), expected, "{month} {day} {year}");
        }
    }
}
