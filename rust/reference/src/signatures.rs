//! Raw and DER signatures and the choice of hash (document 01, "Signatures (Appendix B)").

use crate::integers::INTEGER;
use crate::{der, fill, Filled, Hashed, Refusal, SIGNATURE_SIZES};

/// The tag of a SEQUENCE.
const SEQUENCE: u8 = 0x30;

/// 60: "n is not one of the five".
fn size(n: usize) -> Result<usize, Refusal> {
    if SIGNATURE_SIZES.contains(&n) {
        Ok(n)
    } else {
        Err(Refusal::of(60))
    }
}

/// The digits of a number that is not negative, without its leading zeros.
fn digits(bytes: &[u8]) -> &[u8] {
    let zeros = bytes.iter().take_while(|&&byte| byte == 0).count();
    &bytes[zeros..]
}

/// The content of the INTEGER of these digits: "of the shortest form and not negative"; zero is one byte 00.
fn unsigned(bytes: &[u8]) -> Vec<u8> {
    let digits = digits(bytes);
    let mut content = Vec::with_capacity(digits.len() + 1);
    if digits.first().is_none_or(|&first| first >= 0x80) {
        content.push(0);
    }
    content.extend(digits);
    content
}

/// The DER form of a raw signature: "30, length, then r and s as INTEGERs".
fn form(n: usize, raw: &[u8]) -> Result<Vec<u8>, Refusal> {
    size(n)?;
    if raw.len() != 2 * n {
        return Err(Refusal::of(61));
    }
    let (r, s) = raw.split_at(n);
    let mut content = der::put_element(INTEGER, &unsigned(r));
    content.extend(der::put_element(INTEGER, &unsigned(s)));
    Ok(der::put_element(SEQUENCE, &content))
}

/// One INTEGER that is not negative and fits n bytes, as n bytes, and the bytes after it.
fn half(n: usize, bytes: &[u8]) -> Option<(Vec<u8>, &[u8])> {
    let (content, after) = der::element(INTEGER, bytes)?;
    let zeros = n.checked_sub(digits(content).len())?;
    // What is negative, or longer than it need be, is not what is written for its digits.
    if unsigned(content) != content {
        return None;
    }
    let mut padded = vec![0; zeros];
    padded.extend(digits(content));
    Some((padded, after))
}

/// The raw form, "r then s, n bytes each, big-endian", of strict DER with no bytes left over inside or after.
fn raw(n: usize, der: &[u8]) -> Option<Vec<u8>> {
    let (content, after) = der::element(SEQUENCE, der)?;
    let (mut raw, second) = half(n, content)?;
    let (s, inside) = half(n, second)?;
    raw.extend(s);
    (after.is_empty() && inside.is_empty()).then_some(raw)
}

/// 60, 61, 63: "The order for signatures is then 60, 61 or 62, 63" (document 02, Ticket 8).
pub fn signature_to_der(n: usize, raw: &[u8], out: &mut [u8]) -> Filled {
    fill(form(n, raw), 63, out)
}

/// "To raw 60, 62, 63."
pub fn signature_to_raw(n: usize, der: &[u8], out: &mut [u8]) -> Filled {
    let answer = size(n).and_then(|n| raw(n, der).ok_or(Refusal::of(62)));
    fill(answer, 63, out)
}

/// "Hash by n: 28 SHA-224, 32 SHA-256, 48 SHA-384, 64 and 66 SHA-512."
pub fn hash(n: usize) -> Hashed {
    let bits = match n {
        28 => 224,
        32 => 256,
        48 => 384,
        64 | 66 => 512,
        _ => return Hashed { number: 60, ..Hashed::default() },
    };
    Hashed { number: 0, place: 0, bits }
}
