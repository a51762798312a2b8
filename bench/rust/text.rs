//! C40 text: two passes, all is judged before the first byte is written.
use crate::face::{refusal, Refusal};

const CHART: &[u8; 40] = b"\0\0\0 0123456789ABCDEFGHIJKLMNOPQRSTUVWXYZ";

fn value_of(c: u8) -> usize {
    match c {
        b'0'..=b'@' => usize::from(c - b'0') + 4,
        b'A'..=b'Z' => usize::from(c - b'A') + 14,
        _ => 3,
    }
}

fn is_in_chart(c: u8) -> bool {
    CHART[value_of(c)] == c
}

/// How many characters a pair says, if it is rightly coded, and else the number of its fault.
fn count_in(pair: &[u8], is_last: bool) -> Result<usize, usize> {
    let (high, low) = (pair[0], pair[1]);
    let v = usize::from(high) * 256 + usize::from(low);
    if v == 0 || v > 64000 {
        return match high {
            0xFE if is_last && low != 0 && is_in_chart(low - 1) => Ok(1),
            0xFE => Err(47),
            _ => Err(41),
        };
    }
    let u = v - 1;
    match (u / 1600, u / 40 % 40, u % 40) {
        (0..=2, _, _) | (_, 0..=2, _) => Err(46),
        (_, _, 0) if is_last => Ok(2),
        (_, _, 0..=2) => Err(46),
        _ => Ok(3),
    }
}

/// The characters of a pair that is the last, and how many they are, if it is rightly coded.
pub fn characters(pair: [u8; 2]) -> Option<([u8; 3], usize)> {
    let count = count_in(&pair, true).ok()?;
    let u = usize::from(u16::from_be_bytes(pair)) - 1;
    let characters = match count {
        1 => [pair[1] - 1, 0, 0],
        _ => [CHART[u / 1600 % 40], CHART[u / 40 % 40], CHART[u % 40]],
    };
    Some((characters, count))
}

pub fn read(bytes: &[u8], out: &mut [u8]) -> Result<usize, Refusal> {
    let n = bytes.len();
    if n > 4096 {
        return Err(refusal(45));
    }
    if n % 2 != 0 {
        return Err(Refusal { number: 40, place: n });
    }
    let mut count = 0;
    for (i, pair) in bytes.chunks_exact(2).enumerate() {
        count += count_in(pair, 2 * i + 2 == n).map_err(|number| Refusal { number, place: 2 * i })?;
    }
    let out = out.get_mut(..count).ok_or(refusal(42))?;
    for (characters, pair) in out.chunks_mut(3).zip(bytes.chunks_exact(2)) {
        let v = usize::from(pair[0]) * 256 + usize::from(pair[1]);
        match characters {
            [one] => *one = pair[1] - 1,
            [a, b, rest @ ..] => {
                let u = v - 1;
                *a = CHART[u / 1600 % 40];
                *b = CHART[u / 40 % 40];
                if let [c] = rest {
                    *c = CHART[u % 40];
                }
            }
            [] => {}
        }
    }
    Ok(count)
}

/// The number of a pair of up to three characters that are in the chart.
fn pair_of(characters: &[u8]) -> u16 {
    let v = match *characters {
        [a, b, c] => 1600 * value_of(a) + 40 * value_of(b) + value_of(c) + 1,
        [a, b] => 1600 * value_of(a) + 40 * value_of(b) + 1,
        [a] => 0xFE00 + usize::from(a) + 1,
        _ => 0,
    };
    v as u16
}

/// Puts text down whose characters were judged, in a buffer of just its size.
pub fn put(text: &[u8], out: &mut [u8]) {
    for (pair, characters) in out.chunks_exact_mut(2).zip(text.chunks(3)) {
        pair.copy_from_slice(&pair_of(characters).to_be_bytes());
    }
}

pub fn size_of(characters: usize) -> usize {
    characters.div_ceil(3) * 2
}

pub fn write(text: &[u8], out: &mut [u8]) -> Result<usize, Refusal> {
    if text.len() > 6144 {
        return Err(refusal(45));
    }
    if let Some(place) = text.iter().position(|&c| !is_in_chart(c)) {
        return Err(Refusal { number: 43, place });
    }
    let count = size_of(text.len());
    put(text, out.get_mut(..count).ok_or(refusal(44))?);
    Ok(count)
}
