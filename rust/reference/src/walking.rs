//! Walking the features, and extension tags (document 02, Ticket 2).
//!
//! A step asks which feature, as it is published, stands at a place. The whole walk and the look-up make no steps: they
//! go by the ticket's words, "exactly the rows of the full reading, in order".

use crate::{der, reading, Part, Refusal, Row};

/// "Which" of a look-up: the main seal.
pub const MAIN: usize = 1;

/// "Which" of a look-up: the extension seal.
pub const EXTENSION: usize = 2;

/// What the opening of a walk answers: the verdict, and where the first step is made.
#[derive(Debug, Clone, Copy, PartialEq, Eq, Default)]
pub struct Opened {
    pub number: usize,
    pub place: usize,
    pub at: usize,
}

/// What a step answers: the feature's row, and where the next step is made.
#[derive(Debug, Clone, Copy, PartialEq, Eq, Default)]
pub struct Step {
    pub number: usize,
    pub place: usize,
    pub row: Row,
    pub at: usize,
}

/// What a look-up answers: the value as "that part of the lent bytes", and which seal it is a part of. Where a seal is
/// refused, `which` says which one; 0 is neither.
#[derive(Debug, Clone, Copy, PartialEq, Eq, Default)]
pub struct Shown {
    pub number: usize,
    pub place: usize,
    pub which: usize,
    pub value: Part,
}

/// Opens a walk: at the header's end, where the first feature begins. "A refused seal gives its number and place, opens
/// no walk", and so its place to step at is 0; "12 is not given here".
pub fn walk_open(seal: &[u8]) -> Opened {
    match reading::header_end(seal) {
        Ok(at) => Opened { number: 0, place: 0, at },
        Err(Refusal { number, place }) => Opened { number, place, at: 0 },
    }
}

/// "02 is version 3, 03 is version 4."
fn version(seal: &[u8]) -> Option<usize> {
    match seal.get(1)? {
        0x02 => Some(3),
        0x03 => Some(4),
        _ => None,
    }
}

/// The length as it is published: "one plain byte in version 3 and a DER length in version 4".
fn published(version: usize, length: usize) -> Option<Vec<u8>> {
    match version {
        3 => u8::try_from(length).ok().map(|byte| vec![byte]),
        _ => Some(der::length_bytes(length)),
    }
}

/// The number that these bytes tell if they are a whole length and the one that is published for it. One byte tells
/// itself; of more the first only says how many follow.
fn length(version: usize, bytes: &[u8]) -> Option<usize> {
    let digits = if bytes.len() == 1 { bytes } else { &bytes[1..] };
    let number = digits.iter().fold(0, |number, &digit| 256 * number + usize::from(digit));
    (published(version, number)? == bytes).then_some(number)
}

/// The row of the feature that stands at a place, if one does: "tag, length, value", whole. None begins at 0, which is
/// how a walk is closed, and FF is no tag.
fn feature(seal: &[u8], tag_place: usize) -> Option<Row> {
    let version = version(seal)?;
    let &tag = seal.get(tag_place).filter(|&&tag| tag_place > 0 && tag < 0xFF)?;
    let rest = &seal[tag_place + 1..];
    // A length has 1 to 5 bytes, and none is the front of another.
    let (width, value_length) = (1..=5).find_map(|width| Some((width, length(version, rest.get(..width)?)?)))?;
    rest[width..].get(..value_length)?;
    Some(Row { tag: usize::from(tag), tag_place, value_place: tag_place + 1 + width, value_length })
}

/// A step at any place of any bytes: the feature that stands there, or "51 no further feature", and then the place to
/// step at is 0, so that 51 is said for ever. It does not judge the seal again.
pub fn walk_next(seal: &[u8], at: usize) -> Step {
    match feature(seal, at) {
        Some(row) => Step { number: 0, place: 0, row, at: row.value_place + row.value_length },
        None => Step { number: 51, ..Step::default() },
    }
}

/// The whole walk: "exactly the rows of the full reading, in order". A refused seal "opens no walk".
pub fn walk(seal: &[u8]) -> Vec<Row> {
    reading::rows(seal).unwrap_or_default()
}

/// The value that an accepted seal has for a tag, if it has that feature; else the seal's own refusal.
fn value(seal: &[u8], which: usize, tag: usize) -> Result<Option<Shown>, Shown> {
    let refused = |Refusal { number, place }| Shown { number, place, which, value: Part::default() };
    let row = reading::rows(seal).map_err(refused)?.into_iter().find(|row| row.tag == tag);
    let part = |row: Row| Part { place: row.value_place, length: row.value_length };
    Ok(row.map(|row| Shown { number: 0, place: 0, which, value: part(row) }))
}

/// "A refused seal gives its number and place, the main one's first."
fn in_both(main: &[u8], extension: &[u8], tag: usize) -> Result<[Option<Shown>; 2], Shown> {
    Ok([value(main, MAIN, tag)?, value(extension, EXTENSION, tag)?])
}

/// Looks a tag up: "the value out of the extension seal if it has that feature, otherwise out of the main seal". "50
/// feature in neither seal, after both seals' own."
pub fn shown(main: &[u8], extension: &[u8], tag: usize) -> Shown {
    match in_both(main, extension, tag) {
        Ok([_, Some(shown)]) | Ok([Some(shown), None]) => shown,
        Ok([None, None]) => Shown { number: 50, ..Shown::default() },
        Err(refused) => refused,
    }
}
