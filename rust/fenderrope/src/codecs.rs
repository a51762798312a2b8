//! C40 text and single DER INTEGERs.

use crate::face;
use crate::refusal::Refusal;

/// Text from C40 bytes, from the start of `out`; gives how many characters were written.
///
/// # Errors
///
/// 45 `C40_TOO_LONG`, 40 `C40_ODD` at the number of bytes, 41 `C40_PAIR`, 46 `C40_SHIFT` or 47 `C40_FE` at the first
/// faulty pair's first byte, 42 `C40_TEXT_ROOM`, judged in this order ([`crate::numbers`]). The first faulty pair
/// decides between 41, 46 and 47. All of `out` stays.
///
/// ```
/// let mut text = [0; 12];
/// let count = fenderrope::c40_read(&[0xDE, 0x51, 0x58, 0x26], &mut text)?;
/// assert_eq!(&text[..count], b"VISA01");
/// // FE may begin no pair but the last.
/// let refusal = fenderrope::c40_read(&[0xDE, 0x51, 0xFE, 0x45, 0x58, 0x26], &mut text).unwrap_err();
/// assert_eq!((refusal.number, refusal.place), (47, 2));
/// # Ok::<(), fenderrope::Refusal>(())
/// ```
pub fn c40_read(bytes: &[u8], out: &mut [u8]) -> Result<usize, Refusal> {
    Refusal::unless_filled(face::c40_read(bytes, out))
}

/// C40 bytes from text (space, `0` to `9`, `A` to `Z`), from the start of `out`; gives how many bytes were written.
///
/// # Errors
///
/// 45 `C40_TOO_LONG`, 43 `C40_CHARACTER` at the first wrong character's index, 44 `C40_BYTES_ROOM`, judged in this
/// order ([`crate::numbers`]). All of `out` stays.
///
/// ```
/// let mut bytes = [0; 8];
/// let count = fenderrope::c40_write(b"XKCD", &mut bytes)?;
/// assert_eq!(bytes[..count], [0xEB, 0x11, 0xFE, 0x45]);
/// let refusal = fenderrope::c40_write(b"XKcd", &mut bytes).unwrap_err();
/// assert_eq!((refusal.number, refusal.place), (43, 2));
/// # Ok::<(), fenderrope::Refusal>(())
/// ```
pub fn c40_write(text: &[u8], out: &mut [u8]) -> Result<usize, Refusal> {
    Refusal::unless_filled(face::c40_write(text, out))
}

/// The value of one whole DER INTEGER.
///
/// # Errors
///
/// 65 `NOT_INTEGER` ([`crate::numbers`]): it has 1 to 8 content bytes, in the shortest form, and nothing after it.
///
/// ```
/// assert_eq!(fenderrope::integer_read(&[0x02, 0x02, 0xFF, 0x7F]), Ok(-129));
/// assert_eq!(fenderrope::integer_read(&[0x02, 0x02, 0x00, 0x7F]).unwrap_err().number, 65);
/// ```
pub fn integer_read(bytes: &[u8]) -> Result<i64, Refusal> {
    let answer = face::integer_read(bytes);
    Refusal::unless(answer.number, answer.place, answer.value)
}

/// The DER INTEGER of a value, 3 to 10 bytes from the start of `out`; gives how many were written.
///
/// # Errors
///
/// 63 `NO_ROOM` ([`crate::numbers`]). All of `out` stays.
///
/// ```
/// let mut bytes = [0; fenderrope::INTEGER_MOST];
/// let count = fenderrope::integer_write(-25357, &mut bytes)?;
/// assert_eq!(bytes[..count], [0x02, 0x02, 0x9C, 0xF3]);
/// # Ok::<(), fenderrope::Refusal>(())
/// ```
pub fn integer_write(value: i64, out: &mut [u8]) -> Result<usize, Refusal> {
    Refusal::unless_filled(face::integer_write(value, out))
}
