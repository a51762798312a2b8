//! Inputs of the C40, date and INTEGER calls.

use super::random::Random;
use super::{days, forms, Call};
use crate::{c40, Date};

const CHART: &[u8] = b" 0123456789ABCDEFGHIJKLMNOPQRSTUVWXYZ";

/// A text of the chart; mostly short, at times the longest, at times about as long as those from which the library goes a
/// way of its own, 384 characters or 256 bytes.
fn text(random: &mut Random) -> Vec<u8> {
    let count = match random.below(60) {
        0 => random.pick(&[255, 6142, 6143, 6144]),
        1..=4 => random.within(376, 398),
        _ => random.below(20),
    };
    random.text(count, CHART)
}

/// Text past the size, or bytes past theirs.
fn over(random: &mut Random, size: usize) -> Vec<u8> {
    let more = random.pick(&[1, 1, 2, 3, 1000]);
    vec![random.pick(b"A\0<\xFF"); size + more]
}

pub(super) fn c40_read(random: &mut Random) -> Call {
    let text = text(random);
    let mut bytes = c40::encode(&text).unwrap_or_default();
    match random.below(22) {
        0 => bytes = over(random, 4096),
        1 => bytes.truncate(random.below(bytes.len() + 1) | 1),
        2 => bytes.push(random.byte()),
        3..=7 => {
            let times = random.within(1, 3);
            forms::spoil_pairs(random, &mut bytes, times);
        }
        8 => bytes.extend(forms::wrong_pair(random)),
        9 => {
            let count = random.below(12);
            bytes = random.bytes(count);
        }
        10 => {
            let at = random.below(bytes.len());
            let byte = random.byte();
            bytes.get_mut(at).into_iter().for_each(|old| *old = byte);
        }
        11 => bytes.extend([0xFE, random.pick(b"\x20\x21\x22\x30\x31\x3A\x3B\x41\x42\x5B\x5C\x62\x00\x01\xFF")]),
        _ => {}
    }
    let room = if random.one_in(2) { text.len() + random.below(9) } else { random.room(text.len()) };
    Call::C40Read { bytes, room }
}

pub(super) fn c40_write(random: &mut Random) -> Call {
    let mut text = text(random);
    let needed = 2 * text.len().div_ceil(3);
    match random.below(12) {
        0 => text = over(random, 6144),
        1..=3 => {
            for _ in 0..random.within(1, 2) {
                let (at, any) = (random.below(text.len()), random.byte());
                let new = random.pick(&[b'<', b'a', b'@', b'[', b'/', b':', b'!', 0, 1, 2, 0x1F, 0xFF, any]);
                text.get_mut(at).into_iter().for_each(|old| *old = new);
            }
        }
        _ => {}
    }
    let room = if random.one_in(2) { needed + random.below(9) } else { random.room(needed) };
    Call::C40Write { text, room }
}

/// A number that is a date's, or nearly, or any.
pub(super) fn date_number(random: &mut Random) -> usize {
    let Date { month, day, year } = days::day(random);
    let number = days::number(month, day, year);
    match random.below(7) {
        0 | 1 => days::wrong_number(random),
        2 => random.pick(&[usize::MAX, usize::MAX - 1, 1 << 24, 112_319_999, 13_010_001, number + (1 << 32)]),
        3 => random.number() as usize,
        4 => random.below(13_500_000),
        _ => number,
    }
}

pub(super) fn date(random: &mut Random) -> Date {
    match random.below(5) {
        0 | 1 => days::day(random),
        2 => Date { month: random.below(15), day: random.below(34), year: random.below(10_002) },
        _ => days::about(random),
    }
}

/// A number of any width, or one at a border of the widths.
fn number(random: &mut Random) -> i64 {
    let any = (random.number() as i64) >> random.below(64);
    let border =
        (1i64 << random.pick(&[7, 8, 15, 16, 23, 31, 32, 39, 47, 55, 56, 62])).wrapping_sub(random.below(3) as i64 - 1);
    random.pick(&[any, any, any, border, -border, 0, 127, 128, -128, -129, -25357, i64::MAX, i64::MIN])
}

/// The content of a number in so many bytes or more, as its sign has it.
fn content(random: &mut Random) -> Vec<u8> {
    let value = number(random);
    let eight = value.to_be_bytes();
    let fits = |count: &usize| value >> (8 * count - 1) == value >> 63;
    let fewest = (1..8).find(fits).unwrap_or(8);
    eight[8 - fewest..].to_vec()
}

pub(super) fn integer(random: &mut Random) -> Vec<u8> {
    let mut content = content(random);
    if random.one_in(5) {
        let sign = random.pick(&[0x00, 0xFF]);
        content.splice(0..0, vec![sign; random.pick(&[1, 1, 2, 8])]);
    }
    let mut bytes = [vec![0x02, content.len() as u8], content.clone()].concat();
    match random.below(16) {
        0 => bytes[0] = random.pick(&[0x00, 0x03, 0x22, 0x30, 0x82]),
        1 => bytes[1] = bytes[1].wrapping_add(random.pick(&[1, 0xFF])),
        2 => bytes.truncate(random.below(bytes.len())),
        3 => bytes.push(random.byte()),
        4 => bytes = [vec![0x02, 0x81, content.len() as u8], content].concat(),
        5 => bytes = [vec![0x02, 0x82, 0x00, content.len() as u8], content].concat(),
        6 => {
            bytes = random
                .pick(&[&b""[..], b"\x02", b"\x02\x00", b"\x02\x80\x00\x00", b"\x02\xFF", b"\x02\x84\xFF\xFF\xFF\xFF"])
                .to_vec()
        }
        7 => {
            let count = random.below(12);
            bytes = random.bytes(count);
        }
        _ => {}
    }
    bytes
}

pub(super) fn integer_write(random: &mut Random) -> Call {
    let value = number(random);
    Call::IntegerWrite(value, random.below(14))
}
