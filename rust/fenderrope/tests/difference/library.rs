//! The proved library as a program to compare: its plain answers, with everything lent between guards.

use std::cell::Cell;
use std::ptr;

use fenderrope::plain;
use reference::inputs::{run, Base, Call, Outcome};
use reference::{Date, Dated, Filled, Hashed, Header, Integer, Numbered, Opened, Reading, Reason, Shown, Step};

use crate::lent::{bytes, numbers, Lent};
use crate::types::{
    date_in, date_out, filled_out, header_in, opened_out, reading_out, reason_out, shown_out, step_out,
};

/// The library, and whether it has touched memory that it may not.
#[derive(Default)]
struct Library {
    touched: Cell<bool>,
}

/// The library's outcome, unless it wrote outside of what was lent for writing.
pub fn library(call: &Call) -> Result<Outcome, String> {
    let library = Library::default();
    let outcome = run(&library, call);
    if library.touched.get() {
        return Err(format!("memory was touched that was not lent for writing; {outcome:?}"));
    }
    Ok(outcome)
}

impl Library {
    /// What was lent for reading must be as it was, guards and all.
    fn read_only(&self, lent: &[&Lent<u8>]) {
        if !lent.iter().all(|lent| lent.stays()) {
            self.touched.set(true);
        }
    }

    /// What was lent for writing goes back to where `run` compares it; the guards must be as they were.
    fn give_back<T: Copy + PartialEq>(&self, lent: &Lent<T>, out: &mut [T]) {
        if !lent.guards_stay() {
            self.touched.set(true);
        }
        out.copy_from_slice(lent.content());
    }

    /// A call from bytes into bytes.
    fn fill(&self, given: &[u8], out: &mut [u8], call: impl Fn(&[u8], &mut [u8]) -> plain::Filled) -> Filled {
        let (given, mut room) = (bytes(given), bytes(out));
        let answer = call(given.content(), room.content_mut());
        self.read_only(&[&given]);
        self.give_back(&room, out);
        filled_out(answer)
    }
}

impl Base for Library {
    fn read(&self, seal: &[u8], table: &mut [usize], text: &mut [u8]) -> Reading {
        let (seal, mut rows, mut names) = (bytes(seal), numbers(table), bytes(text));
        let answer = plain::read(seal.content(), rows.content_mut(), names.content_mut());
        self.read_only(&[&seal]);
        self.give_back(&rows, table);
        self.give_back(&names, text);
        reading_out(answer)
    }

    fn judge(&self, seal: &[u8]) -> Reading {
        let seal = bytes(seal);
        let answer = plain::judge(seal.content());
        self.read_only(&[&seal]);
        reading_out(answer)
    }

    fn why(&self, seal: &[u8]) -> Reason {
        let seal = bytes(seal);
        let answer = plain::why(seal.content());
        self.read_only(&[&seal]);
        reason_out(answer)
    }

    fn walk_open(&self, seal: &[u8]) -> Opened {
        let seal = bytes(seal);
        let answer = plain::walk_open(seal.content());
        self.read_only(&[&seal]);
        opened_out(answer)
    }

    fn walk_next(&self, seal: &[u8], at: usize) -> Step {
        let seal = bytes(seal);
        let answer = plain::walk_next(seal.content(), at);
        self.read_only(&[&seal]);
        step_out(answer)
    }

    fn shown(&self, main: &[u8], extension: &[u8], tag: usize) -> Shown {
        let (first, second) = (bytes(main), bytes(extension));
        // What is one slice lent twice is so here too.
        let behind = if ptr::eq(main, extension) { &first } else { &second };
        let answer = plain::shown(first.content(), behind.content(), tag);
        self.read_only(&[&first, &second]);
        shown_out(answer)
    }

    fn write(&self, h: &Header, text: &[u8], rows: &[usize], values: &[u8], sig: &[u8], out: &mut [u8]) -> Filled {
        let (text, rows, values, sig, mut room) = (bytes(text), numbers(rows), bytes(values), bytes(sig), bytes(out));
        let (names, table, signature) = (text.content(), rows.content(), sig.content());
        let answer = plain::write(&header_in(h), names, table, values.content(), signature, room.content_mut());
        self.read_only(&[&text, &values, &sig]);
        if !rows.stays() {
            self.touched.set(true);
        }
        self.give_back(&room, out);
        filled_out(answer)
    }

    fn c40_read(&self, given: &[u8], out: &mut [u8]) -> Filled {
        self.fill(given, out, plain::c40_read)
    }

    fn c40_write(&self, text: &[u8], out: &mut [u8]) -> Filled {
        self.fill(text, out, plain::c40_write)
    }

    fn date_from_number(&self, number: usize) -> Dated {
        let answer = plain::date_from_number(number);
        Dated { number: answer.number, place: answer.place, date: date_out(answer.date) }
    }

    fn date_to_number(&self, date: Date) -> Numbered {
        let answer = plain::date_to_number(date_in(date));
        Numbered { number: answer.number, place: answer.place, value: answer.value }
    }

    fn integer_read(&self, given: &[u8]) -> Integer {
        let given = bytes(given);
        let answer = plain::integer_read(given.content());
        self.read_only(&[&given]);
        Integer { number: answer.number, place: answer.place, value: answer.value }
    }

    fn integer_write(&self, value: i64, out: &mut [u8]) -> Filled {
        self.fill(&[], out, |_, out| plain::integer_write(value, out))
    }

    fn signature_to_der(&self, n: usize, raw: &[u8], out: &mut [u8]) -> Filled {
        self.fill(raw, out, |raw, out| plain::signature_to_der(n, raw, out))
    }

    fn signature_to_raw(&self, n: usize, der: &[u8], out: &mut [u8]) -> Filled {
        self.fill(der, out, |der, out| plain::signature_to_raw(n, der, out))
    }

    fn hash(&self, n: usize) -> Hashed {
        let answer = plain::hash(n);
        Hashed { number: answer.number, place: answer.place, bits: answer.bits }
    }
}
