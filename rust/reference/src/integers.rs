//! Single INTEGERs (document 01, "Signatures"): "read and written over the whole signed 64-bit range".

use crate::{der, fill, Filled, Integer};

/// The tag of an INTEGER.
pub(crate) const INTEGER: u8 = 0x02;

/// The number that bytes in two's complement are; the caller has seen to it that there are 1 to 8.
fn number(content: &[u8]) -> i64 {
    let sign = if content[0] < 0x80 { 0 } else { -1 };
    content.iter().fold(sign, |number, &byte| (number << 8) | i64::from(byte))
}

/// The shortest content: the fewest last bytes of the eight that still are this number.
fn content(value: i64) -> Vec<u8> {
    let eight = value.to_be_bytes();
    let fewest = (1..=8).find(|&count| number(&eight[8 - count..]) == value).unwrap_or(8);
    eight[8 - fewest..].to_vec()
}

/// The value of "one whole DER INTEGER of 1 to 8 bytes", if the bytes are one.
fn parse(bytes: &[u8]) -> Option<i64> {
    let (inside, after) = der::element(INTEGER, bytes)?;
    if !after.is_empty() || !(1..=8).contains(&inside.len()) {
        return None;
    }
    // The shortest form is the one that is written.
    Some(number(inside)).filter(|&value| content(value) == inside)
}

/// Reads an INTEGER: 65 or done.
pub fn integer_read(bytes: &[u8]) -> Integer {
    match parse(bytes) {
        Some(value) => Integer { number: 0, place: 0, value },
        None => Integer { number: 65, ..Integer::default() },
    }
}

/// Writes an INTEGER: 63 or done.
pub fn integer_write(value: i64, out: &mut [u8]) -> Filled {
    fill(Ok(der::put_element(INTEGER, &content(value))), 63, out)
}
