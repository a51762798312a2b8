//! A second, independent reading of documents 01 and 02, in plain Rust.
//!
//! It was written from the document, docs/NUMBERS.md and the decisions, without sight of the proved code or its specs,
//! and in another structure: the reader is a set of small parsers over the bytes that are left, the writer builds the
//! seal and only then looks for room, and "the shortest form" is "what the writer would have written". Why a seal is
//! refused is told by a table of items and rules that does not ask the reader. A step of a walk finds what the writer
//! would have written at its place, and the whole walk takes no steps. How far an input is hopeful is searched for,
//! byte by byte. Where two of these programs differ, one of them misreads.
//!
//! Every call takes every input. "On any other number all lent memory stays and every field but number and place is 0";
//! where a seal is refused, a [`Reading`] has its front part too, a [`Reason`] its other fields, and a [`Shown`] says
//! which of two seals it is.
#![forbid(unsafe_code)]

mod c40;
mod dates;
mod der;
mod front;
pub mod inputs;
mod integers;
mod names;
mod reading;
mod reasons;
mod rows;
mod signatures;
mod walking;
mod words;
mod writing;

pub use c40::{c40_read, c40_write};
pub use dates::{date_from_number, date_to_number};
pub use front::front;
pub use integers::{integer_read, integer_write};
pub use reading::{judge, read};
pub use reasons::{item_name, put_item_name, put_rule_words, rule_words, why, Reason};
pub use rows::Row;
pub use signatures::{hash, signature_to_der, signature_to_raw};
pub use walking::{shown, walk, walk_next, walk_open, Opened, Shown, Step, EXTENSION, MAIN};
pub use words::{put_words, words};
pub use writing::write;

/// "Seal: 76 to 4,096 bytes."
pub const LONGEST_SEAL: usize = 4096;

/// "Signature size n: 28, 32, 48, 64 or 66; raw length 2n."
pub const SIGNATURE_SIZES: [usize; 5] = [28, 32, 48, 64, 66];

/// A month, a day and a year; not all of them are "a real day of the Gregorian calendar".
#[derive(Debug, Clone, Copy, PartialEq, Eq, Default)]
pub struct Date {
    pub month: usize,
    pub day: usize,
    pub year: usize,
}

/// The header as numbers: "version as 3 or 4, and L"; the fillers of the country are `<`.
#[derive(Debug, Clone, Copy, PartialEq, Eq, Default)]
pub struct Header {
    pub version: usize,
    pub country: [u8; 3],
    pub length: usize,
    pub issued_on: Date,
    pub signed_on: Date,
    pub definition: usize,
    pub category: usize,
}

/// "The three zone ends", each one past its zone.
#[derive(Debug, Clone, Copy, PartialEq, Eq, Default)]
pub struct Ends {
    pub header: usize,
    pub message: usize,
    pub seal: usize,
}

/// A part of the seal: where it begins and how long it is.
#[derive(Debug, Clone, Copy, PartialEq, Eq, Default)]
pub struct Part {
    pub place: usize,
    pub length: usize,
}

/// What the reader answers.
#[derive(Debug, Clone, Copy, PartialEq, Eq, Default)]
pub struct Reading {
    pub number: usize,
    pub place: usize,
    pub header: Header,
    pub ends: Ends,
    pub signature: Part,
    pub count: usize,
    /// "The length of the longest front part of the input with which some accepted seal begins", on a refusal too.
    pub front: usize,
}

/// The answer of a call that fills a buffer: "write from its start and give the count written".
#[derive(Debug, Clone, Copy, PartialEq, Eq, Default)]
pub struct Filled {
    pub number: usize,
    pub place: usize,
    pub count: usize,
}

/// The answer of a call that gives a date.
#[derive(Debug, Clone, Copy, PartialEq, Eq, Default)]
pub struct Dated {
    pub number: usize,
    pub place: usize,
    pub date: Date,
}

/// The answer of a call that gives a date's number.
#[derive(Debug, Clone, Copy, PartialEq, Eq, Default)]
pub struct Numbered {
    pub number: usize,
    pub place: usize,
    pub value: usize,
}

/// The answer of a call that gives an INTEGER's value.
#[derive(Debug, Clone, Copy, PartialEq, Eq, Default)]
pub struct Integer {
    pub number: usize,
    pub place: usize,
    pub value: i64,
}

/// The answer of the choice of hash: 224, 256, 384 or 512 bits of SHA-2.
#[derive(Debug, Clone, Copy, PartialEq, Eq, Default)]
pub struct Hashed {
    pub number: usize,
    pub place: usize,
    pub bits: usize,
}

/// Why a call that fills a buffer does not.
#[derive(Debug, Clone, Copy, PartialEq, Eq)]
struct Refusal {
    number: usize,
    place: usize,
}

impl Refusal {
    /// A refusal at place 0, "where no other is given".
    fn of(number: usize) -> Refusal {
        Refusal { number, place: 0 }
    }
}

/// Puts the bytes of a good answer at the start of the lent buffer, or refuses with `no_room`.
fn fill(answer: Result<Vec<u8>, Refusal>, no_room: usize, out: &mut [u8]) -> Filled {
    let bytes = match answer {
        Ok(bytes) if bytes.len() <= out.len() => bytes,
        Ok(_) => return Filled { number: no_room, ..Filled::default() },
        Err(Refusal { number, place }) => return Filled { number, place, count: 0 },
    };
    out[..bytes.len()].copy_from_slice(&bytes);
    Filled { number: 0, place: 0, count: bytes.len() }
}
