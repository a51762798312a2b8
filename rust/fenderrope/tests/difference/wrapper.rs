//! The crate's `Result`s as a program to compare: what a refusal does not carry is 0, as in the plain answers. A good
//! seal's front part, which the crate does not give, is its length.

use fenderrope::{judge, plain, walk, NotShown, Refusal, Verdict, Which};
use reference::inputs::{run, Base, Call, Outcome};
use reference::{
    Date, Dated, Filled, Hashed, Header, Integer, Numbered, Opened, Part, Reading, Reason, Row, Shown, Step,
};

use crate::lines;
use crate::types::{date_in, date_out, ends_out, header_in, header_out, part_out, step_out};

struct Wrapper;

/// The outcome of the crate's safe calls, unless a reason shows other lines than its own.
pub fn wrapper(call: &Call) -> Result<Outcome, String> {
    let outcome = run(&Wrapper, call);
    lines::lines(call, &outcome).map(|()| outcome)
}

fn reading(answer: Result<Verdict, Refusal>) -> Reading {
    match answer {
        Ok(Verdict { header, ends, signature, count }) => Reading {
            header: header_out(header),
            ends: ends_out(ends),
            signature: part_out(signature),
            count,
            front: ends.seal,
            ..Reading::default()
        },
        Err(Refusal { number, place, front }) => Reading { number, place, front, ..Reading::default() },
    }
}

pub fn filled(answer: Result<usize, Refusal>) -> Filled {
    match answer {
        Ok(count) => Filled { count, ..Filled::default() },
        Err(refusal) => {
            let (number, place) = told(refusal);
            Filled { number, place, ..Filled::default() }
        }
    }
}

/// Number and place of a refusal that has no front part, as it is not of a reading.
fn told(Refusal { number, place, front }: Refusal) -> (usize, usize) {
    assert_eq!(front, 0, "a front part from a call that gives none");
    (number, place)
}

/// Where in the seal these bytes lie; a copy of them would lie elsewhere.
pub fn part_of(seal: &[u8], part: &[u8]) -> Part {
    Part { place: (part.as_ptr() as usize).wrapping_sub(seal.as_ptr() as usize), length: part.len() }
}

/// The reason with its parts as codes, and where in the seal the bytes judged lie. Its front part is the judge's.
fn reason(seal: &[u8], why: fenderrope::Reason) -> Reason {
    assert_eq!(judge(seal), Err(why.refusal()), "another refusal than the judge's");
    let judged = part_of(seal, why.judged);
    Reason { number: why.number, place: why.place, item: why.item.code(), rule: why.rule.code(), judged }
}

/// The row of a feature, as its slices lie in the seal.
pub fn row(seal: &[u8], feature: fenderrope::Feature) -> Row {
    let (whole, value) = (part_of(seal, feature.whole), part_of(seal, feature.value));
    Row { tag: feature.tag, tag_place: whole.place, value_place: value.place, value_length: value.length }
}

/// A refusal of a look-up, and of which seal.
fn not_shown(refused: NotShown) -> Shown {
    let (number, place) = told(refused.refusal());
    Shown { number, place, which: refused.which().map_or(0, Which::code), ..Shown::default() }
}

impl Base for Wrapper {
    fn read(&self, seal: &[u8], table: &mut [usize], text: &mut [u8]) -> Reading {
        reading(fenderrope::read(seal, table, text).map(|read| read.verdict()))
    }

    fn judge(&self, seal: &[u8]) -> Reading {
        reading(fenderrope::judge(seal))
    }

    fn why(&self, seal: &[u8]) -> Reason {
        fenderrope::why(seal).map_or(Reason::default(), |why| reason(seal, why))
    }

    /// A walk does not tell its place: it is the first feature's, and without features the header's end.
    fn walk_open(&self, seal: &[u8]) -> Opened {
        match walk(seal) {
            Ok(mut walk) => {
                let first = walk.next().map(|feature| row(seal, feature).tag_place);
                let at = first.or(judge(seal).ok().map(|verdict| verdict.ends.header));
                Opened { at: at.unwrap_or_default(), ..Opened::default() }
            }
            Err(refusal) => {
                let (number, place) = told(refusal);
                Opened { number, place, ..Opened::default() }
            }
        }
    }

    /// The feature of a walk that comes to this place; elsewhere the crate has the plain step alone.
    fn walk_next(&self, seal: &[u8], at: usize) -> Step {
        let walked = walk(seal).ok().and_then(|mut walk| walk.find(|feature| feature.tag_place == at));
        walked.map_or_else(
            || step_out(plain::walk_next(seal, at)),
            |feature| Step { row: row(seal, feature), at: at + feature.whole.len(), ..Step::default() },
        )
    }

    fn shown(&self, main: &[u8], extension: &[u8], tag: usize) -> Shown {
        fenderrope::shown(main, extension, tag).map_or_else(not_shown, |shown| {
            let value = part_of(if shown.which == Which::Main { main } else { extension }, shown.value);
            assert_eq!(value.place, shown.place, "the value is not the part of the lent bytes that is named");
            Shown { which: shown.which.code(), value, ..Shown::default() }
        })
    }

    fn write(&self, h: &Header, text: &[u8], rows: &[usize], values: &[u8], sig: &[u8], out: &mut [u8]) -> Filled {
        filled(fenderrope::write(&header_in(h), text, rows, values, sig, out))
    }

    fn c40_read(&self, bytes: &[u8], out: &mut [u8]) -> Filled {
        filled(fenderrope::c40_read(bytes, out))
    }

    fn c40_write(&self, text: &[u8], out: &mut [u8]) -> Filled {
        filled(fenderrope::c40_write(text, out))
    }

    fn date_from_number(&self, number: usize) -> Dated {
        match fenderrope::Date::from_number(number) {
            Ok(date) => Dated { date: date_out(date), ..Dated::default() },
            Err(refusal) => {
                let (number, place) = told(refusal);
                Dated { number, place, ..Dated::default() }
            }
        }
    }

    fn date_to_number(&self, date: Date) -> Numbered {
        match date_in(date).number() {
            Ok(value) => Numbered { value, ..Numbered::default() },
            Err(refusal) => {
                let (number, place) = told(refusal);
                Numbered { number, place, ..Numbered::default() }
            }
        }
    }

    fn integer_read(&self, bytes: &[u8]) -> Integer {
        match fenderrope::integer_read(bytes) {
            Ok(value) => Integer { value, ..Integer::default() },
            Err(refusal) => {
                let (number, place) = told(refusal);
                Integer { number, place, ..Integer::default() }
            }
        }
    }

    fn integer_write(&self, value: i64, out: &mut [u8]) -> Filled {
        filled(fenderrope::integer_write(value, out))
    }

    fn signature_to_der(&self, n: usize, raw: &[u8], out: &mut [u8]) -> Filled {
        filled(fenderrope::signature_to_der(n, raw, out))
    }

    fn signature_to_raw(&self, n: usize, der: &[u8], out: &mut [u8]) -> Filled {
        filled(fenderrope::signature_to_raw(n, der, out))
    }

    fn hash(&self, n: usize) -> Hashed {
        match fenderrope::hash(n) {
            Ok(hash) => Hashed { bits: hash.bits(), ..Hashed::default() },
            Err(refusal) => {
                let (number, place) = told(refusal);
                Hashed { number, place, ..Hashed::default() }
            }
        }
    }
}
