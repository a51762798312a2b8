//! The structs of the face, as include/fenderrope.h sets them out.

#[repr(C)]
#[derive(Clone, Copy, Default)]
pub struct Date {
    pub month: usize,
    pub day: usize,
    pub year: usize,
}

#[repr(C)]
#[derive(Clone, Copy, Default)]
pub struct Header {
    pub version: usize,
    pub country: [u8; 3],
    pub length: usize,
    pub issued_on: Date,
    pub signed_on: Date,
    pub definition: usize,
    pub category: usize,
}

#[repr(C)]
#[derive(Default)]
pub struct Ends {
    pub header: usize,
    pub message: usize,
    pub seal: usize,
}

#[repr(C)]
#[derive(Default)]
pub struct Part {
    pub place: usize,
    pub length: usize,
}

#[repr(C)]
#[derive(Default)]
pub struct Reading {
    pub number: usize,
    pub place: usize,
    pub header: Header,
    pub ends: Ends,
    pub signature: Part,
    pub count: usize,
    pub front: usize,
}

#[repr(C)]
#[derive(Default)]
pub struct Reason {
    pub number: usize,
    pub place: usize,
    pub item: usize,
    pub rule: usize,
    pub judged: Part,
}

#[repr(C)]
#[derive(Default)]
pub struct Start {
    pub number: usize,
    pub place: usize,
    pub at: usize,
}

#[repr(C)]
#[derive(Default)]
pub struct Step {
    pub number: usize,
    pub place: usize,
    pub tag: usize,
    pub tag_place: usize,
    pub value: Part,
    pub at: usize,
}

#[repr(C)]
#[derive(Default)]
pub struct Where {
    pub number: usize,
    pub place: usize,
    pub which: usize,
    pub value: Part,
}

#[repr(C)]
#[derive(Default)]
pub struct Filled {
    pub number: usize,
    pub place: usize,
    pub count: usize,
}

#[repr(C)]
#[derive(Default)]
pub struct Dated {
    pub number: usize,
    pub place: usize,
    pub date: Date,
}

#[repr(C)]
#[derive(Default)]
pub struct Numbered {
    pub number: usize,
    pub place: usize,
    pub value: usize,
}

#[repr(C)]
#[derive(Default)]
pub struct Integer {
    pub number: usize,
    pub place: usize,
    pub value: i64,
}

#[repr(C)]
#[derive(Default)]
pub struct Hashed {
    pub number: usize,
    pub place: usize,
    pub bits: usize,
}

/// A row of a table: a feature's tag and the tag's place, its value's place and length.
pub struct Row {
    pub tag: usize,
    pub tag_place: usize,
    pub value_place: usize,
    pub value_length: usize,
}

/// How many numbers a row has.
pub const ROW: usize = 4;

impl Row {
    pub fn numbers(&self) -> [usize; ROW] {
        [self.tag, self.tag_place, self.value_place, self.value_length]
    }

    /// The whole rows of a table.
    pub fn all(table: &[usize]) -> impl Iterator<Item = Row> + '_ {
        table.chunks_exact(ROW).map(|n| Row { tag: n[0], tag_place: n[1], value_place: n[2], value_length: n[3] })
    }
}

/// Why a call is refused, and where.
pub struct Refusal {
    pub number: usize,
    pub place: usize,
}

/// A refusal without a place.
pub fn refusal(number: usize) -> Refusal {
    Refusal { number, place: 0 }
}

impl Filled {
    /// The count written, or why nothing was.
    pub fn of(answer: Result<usize, Refusal>) -> Filled {
        match answer {
            Ok(count) => Filled { number: 0, place: 0, count },
            Err(Refusal { number, place }) => Filled { number, place, count: 0 },
        }
    }
}

impl Date {
    pub fn is_day(&self) -> bool {
        (1..=9999).contains(&self.year) && (1..=self.days_in_month()).contains(&self.day)
    }

    /// Of the Gregorian calendar; none if there is no such month.
    fn days_in_month(&self) -> usize {
        match self.month {
            1 | 3 | 5 | 7 | 8 | 10 | 12 => 31,
            4 | 6 | 9 | 11 => 30,
            2 if self.year % 4 == 0 && (self.year % 100 != 0 || self.year % 400 == 0) => 29,
            2 => 28,
            _ => 0,
        }
    }

    pub fn from_number(number: usize) -> Option<Date> {
        let date = Date { month: number / 1_000_000, day: number / 10_000 % 100, year: number % 10_000 };
        date.is_day().then_some(date)
    }

    pub fn number(&self) -> usize {
        self.month * 1_000_000 + self.day * 10_000 + self.year
    }
}
