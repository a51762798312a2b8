//! What comes of a call: the answer and the lent memory after it, both as plain values that can be compared.

use super::Call;
use crate::{Date, Dated, Filled, Hashed, Header, Integer, Numbered, Opened, Reading, Reason, Shown, Step};

/// The calls of the base. A program that is compared answers all of them, in the types of this crate.
pub trait Base {
    fn read(&self, seal: &[u8], table: &mut [usize], text: &mut [u8]) -> Reading;
    fn judge(&self, seal: &[u8]) -> Reading;
    fn why(&self, seal: &[u8]) -> Reason;
    fn walk_open(&self, seal: &[u8]) -> Opened;
    fn walk_next(&self, seal: &[u8], at: usize) -> Step;
    fn shown(&self, main: &[u8], extension: &[u8], tag: usize) -> Shown;
    fn write(&self, h: &Header, text: &[u8], rows: &[usize], values: &[u8], sig: &[u8], out: &mut [u8]) -> Filled;
    fn c40_read(&self, bytes: &[u8], out: &mut [u8]) -> Filled;
    fn c40_write(&self, text: &[u8], out: &mut [u8]) -> Filled;
    fn date_from_number(&self, number: usize) -> Dated;
    fn date_to_number(&self, date: Date) -> Numbered;
    fn integer_read(&self, bytes: &[u8]) -> Integer;
    fn integer_write(&self, value: i64, out: &mut [u8]) -> Filled;
    fn signature_to_der(&self, n: usize, raw: &[u8], out: &mut [u8]) -> Filled;
    fn signature_to_raw(&self, n: usize, der: &[u8], out: &mut [u8]) -> Filled;
    fn hash(&self, n: usize) -> Hashed;
}

/// The base as this crate reads it.
#[derive(Debug, Clone, Copy, Default)]
pub struct Reference;

impl Base for Reference {
    fn read(&self, seal: &[u8], table: &mut [usize], text: &mut [u8]) -> Reading {
        crate::read(seal, table, text)
    }
    fn judge(&self, seal: &[u8]) -> Reading {
        crate::judge(seal)
    }
    fn why(&self, seal: &[u8]) -> Reason {
        crate::why(seal)
    }
    fn walk_open(&self, seal: &[u8]) -> Opened {
        crate::walk_open(seal)
    }
    fn walk_next(&self, seal: &[u8], at: usize) -> Step {
        crate::walk_next(seal, at)
    }
    fn shown(&self, main: &[u8], extension: &[u8], tag: usize) -> Shown {
        crate::shown(main, extension, tag)
    }
    fn write(&self, h: &Header, text: &[u8], rows: &[usize], values: &[u8], sig: &[u8], out: &mut [u8]) -> Filled {
        crate::write(h, text, rows, values, sig, out)
    }
    fn c40_read(&self, bytes: &[u8], out: &mut [u8]) -> Filled {
        crate::c40_read(bytes, out)
    }
    fn c40_write(&self, text: &[u8], out: &mut [u8]) -> Filled {
        crate::c40_write(text, out)
    }
    fn date_from_number(&self, number: usize) -> Dated {
        crate::date_from_number(number)
    }
    fn date_to_number(&self, date: Date) -> Numbered {
        crate::date_to_number(date)
    }
    fn integer_read(&self, bytes: &[u8]) -> Integer {
        crate::integer_read(bytes)
    }
    fn integer_write(&self, value: i64, out: &mut [u8]) -> Filled {
        crate::integer_write(value, out)
    }
    fn signature_to_der(&self, n: usize, raw: &[u8], out: &mut [u8]) -> Filled {
        crate::signature_to_der(n, raw, out)
    }
    fn signature_to_raw(&self, n: usize, der: &[u8], out: &mut [u8]) -> Filled {
        crate::signature_to_raw(n, der, out)
    }
    fn hash(&self, n: usize) -> Hashed {
        crate::hash(n)
    }
}

/// The answer of any call.
#[derive(Debug, Clone, Copy, PartialEq, Eq)]
pub enum Answer {
    Reading(Reading),
    Reason(Reason),
    Opened(Opened),
    Step(Step),
    Shown(Shown),
    Filled(Filled),
    Dated(Dated),
    Numbered(Numbered),
    Integer(Integer),
    Hashed(Hashed),
}

impl Answer {
    /// The number and the place.
    pub fn told(&self) -> (usize, usize) {
        match self {
            Answer::Reading(answer) => (answer.number, answer.place),
            Answer::Reason(answer) => (answer.number, answer.place),
            Answer::Opened(answer) => (answer.number, answer.place),
            Answer::Step(answer) => (answer.number, answer.place),
            Answer::Shown(answer) => (answer.number, answer.place),
            Answer::Filled(answer) => (answer.number, answer.place),
            Answer::Dated(answer) => (answer.number, answer.place),
            Answer::Numbered(answer) => (answer.number, answer.place),
            Answer::Integer(answer) => (answer.number, answer.place),
            Answer::Hashed(answer) => (answer.number, answer.place),
        }
    }
}

/// The answer and all lent memory afterwards; what was not lent is empty.
#[derive(Debug, Clone, PartialEq, Eq)]
pub struct Outcome {
    pub answer: Answer,
    pub table: Vec<usize>,
    pub bytes: Vec<u8>,
}

impl Outcome {
    /// Whether the lent memory is as it was lent.
    pub fn untouched(&self) -> bool {
        self.bytes == lent(self.bytes.len()) && self.table == lent_table(self.table.len())
    }
}

/// A lent buffer before the call: each byte goes by its place, so that a byte that is moved is seen.
pub fn lent(room: usize) -> Vec<u8> {
    (0..room).map(|place| (place * 31 + place / 251 + 0x5B) as u8).collect()
}

/// A lent table before the call.
pub fn lent_table(room: usize) -> Vec<usize> {
    (0..room).map(|place| usize::MAX - 1000 * place).collect()
}

/// Puts a call to a program. The room of each buffer is lent in full and no more.
pub fn run(base: &impl Base, call: &Call) -> Outcome {
    let (mut table, mut bytes) = match *call {
        Call::Read { table_room, text_room, .. } => (lent_table(table_room), lent(text_room)),
        Call::Write { room, .. }
        | Call::C40Read { room, .. }
        | Call::C40Write { room, .. }
        | Call::IntegerWrite(_, room)
        | Call::ToDer { room, .. }
        | Call::ToRaw { room, .. } => (Vec::new(), lent(room)),
        _ => (Vec::new(), Vec::new()),
    };
    let out = &mut bytes[..];
    let answer = match call {
        Call::Read { seal, .. } => Answer::Reading(base.read(seal, &mut table, out)),
        Call::Judge { seal } => Answer::Reading(base.judge(seal)),
        Call::Why { seal } => Answer::Reason(base.why(seal)),
        Call::WalkOpen { seal } => Answer::Opened(base.walk_open(seal)),
        Call::WalkNext { seal, at } => Answer::Step(base.walk_next(seal, *at)),
        Call::Shown { main, extension, tag } => {
            // Two seals that are equal are one, lent twice.
            let extension = if extension == main { main } else { extension };
            Answer::Shown(base.shown(main, extension, *tag))
        }
        Call::Write { header, text, rows, values, signature, .. } => {
            Answer::Filled(base.write(header, text, rows, values, signature, out))
        }
        Call::C40Read { bytes, .. } => Answer::Filled(base.c40_read(bytes, out)),
        Call::C40Write { text, .. } => Answer::Filled(base.c40_write(text, out)),
        Call::DateFromNumber(number) => Answer::Dated(base.date_from_number(*number)),
        Call::DateToNumber(date) => Answer::Numbered(base.date_to_number(*date)),
        Call::IntegerRead(bytes) => Answer::Integer(base.integer_read(bytes)),
        Call::IntegerWrite(value, _) => Answer::Filled(base.integer_write(*value, out)),
        Call::ToDer { n, raw, .. } => Answer::Filled(base.signature_to_der(*n, raw, out)),
        Call::ToRaw { n, der, .. } => Answer::Filled(base.signature_to_raw(*n, der, out)),
        Call::Hash(n) => Answer::Hashed(base.hash(*n)),
    };
    Outcome { answer, table, bytes }
}
