//! Dates and their numbers.

use core::fmt;

use crate::face;
use crate::layout::Date;
use crate::refusal::Refusal;

impl Date {
    /// 1 January of year 1.
    pub const FIRST: Date = Date { month: 1, day: 1, year: 1 };

    /// 31 December of year 9999.
    pub const LAST: Date = Date { month: 12, day: 31, year: 9999 };

    /// The date whose number MMDDYYYY this is.
    ///
    /// # Errors
    ///
    /// 6 `NO_DATE` ([`crate::numbers`]).
    ///
    /// ```
    /// use fenderrope::Date;
    /// assert_eq!(Date::from_number(3251957), Ok(Date { month: 3, day: 25, year: 1957 }));
    /// assert_eq!(Date::from_number(2301957).unwrap_err().number, 6);
    /// ```
    pub fn from_number(number: usize) -> Result<Date, Refusal> {
        let answer = face::date_from_number(number);
        Refusal::unless(answer.number, answer.place, answer.date)
    }

    /// The date's number MMDDYYYY.
    ///
    /// # Errors
    ///
    /// 22 `WRITE_DATE` ([`crate::numbers`]): there is no such date.
    ///
    /// ```
    /// use fenderrope::Date;
    /// assert_eq!(Date::LAST.number(), Ok(12319999));
    /// assert_eq!(Date { month: 11, ..Date::LAST }.number().unwrap_err().number, 22);
    /// ```
    pub fn number(self) -> Result<usize, Refusal> {
        let answer = face::date_to_number(self);
        Refusal::unless(answer.number, answer.place, answer.value)
    }
}

/// Year, month and day, as the listing program prints them: `1957-03-25`.
impl fmt::Display for Date {
    fn fmt(&self, f: &mut fmt::Formatter<'_>) -> fmt::Result {
        write!(f, "{:04}-{:02}-{:02}", self.year, self.month, self.day)
    }
}
