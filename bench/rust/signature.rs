//! Signatures, raw and DER, and the hash by size: all is judged before the first byte is written.
use crate::der::{is_shortest, split_element};
use crate::face::{refusal, Refusal};

fn is_size(n: usize) -> bool {
    matches!(n, 28 | 32 | 48 | 64 | 66)
}

pub fn hash_bits(n: usize) -> Option<usize> {
    match n {
        28 => Some(224),
        32 => Some(256),
        48 => Some(384),
        64 | 66 => Some(512),
        _ => None,
    }
}

/// The digits that are kept: leading zeros go, but not the last byte.
fn digits(number: &[u8]) -> &[u8] {
    let last = number.len() - 1;
    let start = number[..last].iter().take_while(|&&byte| byte == 0).count();
    &number[start..]
}

/// How many bytes the content takes: one more where the top bit is set.
fn size_of(digits: &[u8]) -> usize {
    digits.len() + usize::from(digits[0] >= 0x80)
}

/// Puts an INTEGER down and gives the rest of the buffer.
fn put_integer<'a>(digits: &[u8], out: &'a mut [u8]) -> &'a mut [u8] {
    let size = size_of(digits);
    let (integer, rest) = out.split_at_mut(2 + size);
    integer[0] = 0x02;
    integer[1] = size as u8;
    integer[2] = 0;
    integer[2 + size - digits.len()..].copy_from_slice(digits);
    rest
}

pub fn to_der(n: usize, raw: &[u8], out: &mut [u8]) -> Result<usize, Refusal> {
    if !is_size(n) {
        return Err(refusal(60));
    }
    if raw.len() != 2 * n {
        return Err(refusal(61));
    }
    let (r, s) = raw.split_at(n);
    let (r, s) = (digits(r), digits(s));
    let size = size_of(r) + size_of(s) + 4;
    let head = if size < 0x80 { 2 } else { 3 };
    let out = out.get_mut(..head + size).ok_or(refusal(63))?;
    out[0] = 0x30;
    out[1] = 0x81;
    out[head - 1] = size as u8;
    let rest = put_integer(r, &mut out[head..]);
    put_integer(s, rest);
    Ok(head + size)
}

/// The digits of the INTEGER at the head of `t`, if it is a number for n bytes, and the bytes after it.
fn split_number(n: usize, t: &[u8]) -> Option<(&[u8], &[u8])> {
    let (content, rest) = split_element(0x02, t)?;
    if !is_shortest(content) || content[0] >= 0x80 {
        return None;
    }
    let digits = match content {
        [0, digits @ ..] if !digits.is_empty() => digits,
        _ => content,
    };
    (digits.len() <= n).then_some((digits, rest))
}

/// The digits of r and of s in a whole DER signature.
fn split_pair(n: usize, der: &[u8]) -> Option<(&[u8], &[u8])> {
    let (pair, []) = split_element(0x30, der)? else {
        return None;
    };
    let (r, rest) = split_number(n, pair)?;
    let (s, []) = split_number(n, rest)? else {
        return None;
    };
    Some((r, s))
}

fn put_padded(digits: &[u8], out: &mut [u8]) {
    let (zeros, rest) = out.split_at_mut(out.len() - digits.len());
    zeros.fill(0);
    rest.copy_from_slice(digits);
}

pub fn to_raw(n: usize, der: &[u8], out: &mut [u8]) -> Result<usize, Refusal> {
    if !is_size(n) {
        return Err(refusal(60));
    }
    let (r, s) = split_pair(n, der).ok_or(refusal(62))?;
    let (first, second) = out.get_mut(..2 * n).ok_or(refusal(63))?.split_at_mut(n);
    put_padded(r, first);
    put_padded(s, second);
    Ok(2 * n)
}
