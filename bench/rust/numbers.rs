//! Single INTEGERs over the signed 64-bit range.
use crate::der::{is_redundant, is_shortest, split_element};
use crate::face::{refusal, Refusal};

/// Two's complement: the sign fills the bytes that are not there.
pub fn read(bytes: &[u8]) -> Option<i64> {
    let (content, []) = split_element(0x02, bytes)? else {
        return None;
    };
    if !is_shortest(content) || content.len() > 8 {
        return None;
    }
    let sign = if content[0] < 0x80 { 0 } else { -1 };
    Some(content.iter().fold(sign, |value, &byte| value << 8 | i64::from(byte)))
}

pub fn write(value: i64, out: &mut [u8]) -> Result<usize, Refusal> {
    let bytes = value.to_be_bytes();
    let start = bytes.windows(2).take_while(|pair| is_redundant(pair[0], pair[1])).count();
    let content = &bytes[start..];
    let count = content.len() + 2;
    let out = out.get_mut(..count).ok_or(refusal(63))?;
    out[0] = 0x02;
    out[1] = content.len() as u8;
    out[2..].copy_from_slice(content);
    Ok(count)
}
