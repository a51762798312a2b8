//! DER lengths (document 01, "Layout").

/// Why a length is not read.
#[derive(Debug, Clone, Copy, PartialEq, Eq)]
pub(crate) enum Fault {
    /// A byte of it is missing.
    Cut,
    /// It is malformed, or not the shortest.
    Wrong,
}

/// The shortest length: "one byte below 128; else 81 to 84, then 1 to 4 bytes accordingly, with no leading zero".
pub(crate) fn length_bytes(length: usize) -> Vec<u8> {
    let digits: Vec<u8> = length.to_be_bytes().into_iter().skip_while(|&digit| digit == 0).collect();
    if length < 128 {
        return vec![length as u8];
    }
    let mut bytes = vec![0x80 + digits.len() as u8];
    bytes.extend(digits);
    bytes
}

/// The length at the front, and the bytes after it. "80 and 85 to FF are malformed", and "the first byte of a DER
/// length is judged before its rest is looked for". A long form is the shortest if it is what `length_bytes` gives.
pub(crate) fn length(rest: &[u8]) -> Result<(usize, &[u8]), Fault> {
    let (&first, after) = rest.split_first().ok_or(Fault::Cut)?;
    let more = match first {
        0x00..=0x7F => return Ok((usize::from(first), after)),
        0x81..=0x84 => usize::from(first - 0x80),
        _ => return Err(Fault::Wrong),
    };
    let digits = after.get(..more).ok_or(Fault::Cut)?;
    let length = digits.iter().fold(0, |length, &digit| length * 256 + usize::from(digit));
    if length_bytes(length) != rest[..1 + more] {
        return Err(Fault::Wrong);
    }
    Ok((length, &after[more..]))
}

/// The content of one element with this tag at the front, and the bytes after it; nothing if it is not strict DER.
pub(crate) fn element(tag: u8, bytes: &[u8]) -> Option<(&[u8], &[u8])> {
    let (length, rest) = length(bytes.strip_prefix(&[tag])?).ok()?;
    rest.split_at_checked(length)
}

/// An element with this tag and content.
pub(crate) fn put_element(tag: u8, content: &[u8]) -> Vec<u8> {
    let mut bytes = vec![tag];
    bytes.extend(length_bytes(content.len()));
    bytes.extend(content);
    bytes
}
