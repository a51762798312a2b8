//! C40 text (document 01, "C40 (2.6)"; document 02, Ticket 1).

use crate::{fill, Filled, Refusal};

/// "Space is 3, digits 4 to 13, letters 14 to 39; 0, 1 and 2 are shifts." A shift stands here as a zero byte.
const CHART: [u8; 40] = *b"\0\0\0 0123456789ABCDEFGHIJKLMNOPQRSTUVWXYZ";

/// "Text in a value is up to 4,096 bytes or 6,144 characters."
const MOST_BYTES: usize = 4096;
const MOST_CHARACTERS: usize = 6144;

/// The character of a C40 value, if it is no shift.
fn character(value: usize) -> Option<u8> {
    CHART.get(value).copied().filter(|_| value > 2)
}

/// The C40 value of a character, if it is in the chart.
fn value(character: u8) -> Option<usize> {
    (3..CHART.len()).find(|&value| CHART[value] == character)
}

/// "Which fault in the C40?" (document 02, Ticket 1).
#[derive(Debug, Clone, Copy, PartialEq, Eq)]
pub(crate) enum Fault {
    /// "A pair value of 0 or over 64,000 that does not begin with FE."
    Value,
    /// "Shift value where none may stand."
    Shift,
    /// "FE misplaced or followed by a code outside the chart."
    Fe,
}

impl Fault {
    /// "Split it: 41 stays"; "46 shift value"; "47 FE".
    fn number(self) -> usize {
        match self {
            Fault::Value => 41,
            Fault::Shift => 46,
            Fault::Fe => 47,
        }
    }
}

/// The one character behind FE: "one left over is FE and its ASCII code plus 1", and "FE only at the start of the last
/// pair".
fn single(code: u8, last: bool) -> Result<u8, Fault> {
    code.checked_sub(1).filter(|&single| last && value(single).is_some()).ok_or(Fault::Fe)
}

/// The two or three characters of a pair's value. "Three values a, b, c make 1600a + 40b + c + 1", so none make 0 and
/// none make more than 64,000.
fn triple(number: usize, last: bool) -> Result<Vec<u8>, Fault> {
    let sum = number.checked_sub(1).filter(|&sum| sum < 64_000).ok_or(Fault::Value)?;
    let values = [sum / 1600, sum / 40 % 40, sum % 40];
    // "Two left over are completed with 0"; "0 only as the third of the last pair".
    let carried = if last && values[2] == 0 { 2 } else { 3 };
    values[..carried].iter().map(|&value| character(value).ok_or(Fault::Shift)).collect()
}

/// The characters of a pair, "big-endian in two bytes", or what is wrong with it.
fn pair(first: u8, second: u8, last: bool) -> Result<Vec<u8>, Fault> {
    if first == 0xFE {
        return Ok(vec![single(second, last)?]);
    }
    triple(usize::from(first) * 256 + usize::from(second), last)
}

/// The text of an even number of bytes, or the place of the first faulty pair and its fault: "the first faulty pair
/// decides".
pub(crate) fn decode(bytes: &[u8]) -> Result<Vec<u8>, (usize, Fault)> {
    let mut text = Vec::with_capacity(bytes.len() / 2 * 3);
    for (index, two) in bytes.chunks_exact(2).enumerate() {
        let last = 2 * index + 2 == bytes.len();
        text.extend(pair(two[0], two[1], last).map_err(|fault| (2 * index, fault))?);
    }
    Ok(text)
}

/// The bytes of a text, or the index of the first character that is not in the chart.
pub(crate) fn encode(text: &[u8]) -> Result<Vec<u8>, usize> {
    let mut values = Vec::with_capacity(text.len());
    for (index, &character) in text.iter().enumerate() {
        values.push(value(character).ok_or(index)?);
    }
    let mut bytes = Vec::with_capacity(text.len().div_ceil(3) * 2);
    for (three, group) in values.chunks(3).enumerate() {
        let sum = match *group {
            [a, b, c] => 1600 * a + 40 * b + c + 1,
            [a, b] => 1600 * a + 40 * b + 1,
            _ => 0xFE00 + usize::from(text[3 * three]) + 1,
        };
        bytes.extend([(sum / 256) as u8, (sum % 256) as u8]);
    }
    Ok(bytes)
}

/// Reads C40 bytes: "45, 40, 41, 42", with 46 and 47 "both at 41's place in the order".
pub fn c40_read(bytes: &[u8], out: &mut [u8]) -> Filled {
    let text = if bytes.len() > MOST_BYTES {
        Err(Refusal::of(45))
    } else if bytes.len() % 2 == 1 {
        Err(Refusal { number: 40, place: bytes.len() })
    } else {
        decode(bytes).map_err(|(place, fault)| Refusal { number: fault.number(), place })
    };
    fill(text, 42, out)
}

/// Writes text as C40 bytes: "45, 43, 44".
pub fn c40_write(text: &[u8], out: &mut [u8]) -> Filled {
    let bytes = if text.len() > MOST_CHARACTERS {
        Err(Refusal::of(45))
    } else {
        encode(text).map_err(|place| Refusal { number: 43, place })
    };
    fill(bytes, 44, out)
}
