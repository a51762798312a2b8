//! The walk over the features of a seal, and the look-up of a tag in a main seal and its extension.
use crate::der;
use crate::face::{Part, Refusal, Start, Step, Where};
use crate::reader;

pub fn open(seal: &[u8]) -> Start {
    match reader::verdict(seal) {
        Ok(reading) => Start { at: reading.ends.header, ..Start::default() },
        Err(Refusal { number, place }) => Start { number, place, at: 0 },
    }
}

/// The feature at a place, if one stands there.
fn feature(seal: &[u8], at: usize) -> Option<Step> {
    let version = *seal.get(1)?;
    let (&tag, rest) = seal.get(at..)?.split_first()?;
    if at == 0 || tag == 0xFF {
        return None;
    }
    let (length, rest) = match version {
        2 => rest.split_first().map(|(&length, rest)| (length.into(), rest))?,
        3 => der::split_length(rest)?,
        _ => return None,
    };
    if rest.len() < length {
        return None;
    }
    let place = seal.len() - rest.len();
    let value = Part { place, length };
    Some(Step { number: 0, place: 0, tag: tag.into(), tag_place: at, value, at: place + length })
}

pub fn next(seal: &[u8], at: usize) -> Step {
    feature(seal, at).unwrap_or(Step { number: 51, ..Step::default() })
}

/// The value of a tag among the features from a place on.
fn value_from(seal: &[u8], mut at: usize, tag: usize) -> Option<Part> {
    loop {
        let step = feature(seal, at)?;
        if step.tag == tag {
            return Some(step.value);
        }
        at = step.at;
    }
}

const MAIN: usize = 1;
const EXTENSION: usize = 2;

pub fn shown(main: &[u8], extension: &[u8], tag: usize) -> Where {
    let refused = |which, Start { number, place, .. }| Where { number, place, which, ..Where::default() };
    let first = open(main);
    if first.number != 0 {
        return refused(MAIN, first);
    }
    let second = open(extension);
    if second.number != 0 {
        return refused(EXTENSION, second);
    }
    let found = |which| move |value| Where { which, value, ..Where::default() };
    value_from(extension, second.at, tag)
        .map(found(EXTENSION))
        .or_else(|| value_from(main, first.at, tag).map(found(MAIN)))
        .unwrap_or(Where { number: 50, ..Where::default() })
}
