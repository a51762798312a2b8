//! DER lengths, elements and the shortest form of an INTEGER.

/// The DER length at the head of `s`, and the bytes after it.
pub fn split_length(s: &[u8]) -> Option<(usize, &[u8])> {
    let (&first, rest) = s.split_first()?;
    match first {
        0..=0x7F => Some((first.into(), rest)),
        0x81..=0x84 => {
            let k = usize::from(first - 0x80);
            if rest.len() < k {
                return None;
            }
            let (bytes, rest) = rest.split_at(k);
            let value = number(bytes);
            (value >= least(k)).then_some((value, rest))
        }
        _ => None,
    }
}

/// The body of the element with this tag at the head of `s`, and the bytes after it.
pub fn split_element(tag: u8, s: &[u8]) -> Option<(&[u8], &[u8])> {
    let (&first, rest) = s.split_first()?;
    if first != tag {
        return None;
    }
    let (size, rest) = split_length(rest)?;
    (size <= rest.len()).then(|| rest.split_at(size))
}

/// A number in bytes, big-endian.
pub fn number(bytes: &[u8]) -> usize {
    bytes.iter().fold(0, |value, &byte| value << 8 | usize::from(byte))
}

/// The least length that needs `k` bytes after the first, 1 to 4.
pub fn least(k: usize) -> usize {
    if k == 1 {
        0x80
    } else {
        1 << (8 * (k - 1))
    }
}

/// Whether a first byte says no more than the second's top bit does.
pub fn is_redundant(x: u8, y: u8) -> bool {
    x == if y < 0x80 { 0 } else { 0xFF }
}

pub fn is_shortest(content: &[u8]) -> bool {
    match *content {
        [] => false,
        [_] => true,
        [x, y, ..] => !is_redundant(x, y),
    }
}
