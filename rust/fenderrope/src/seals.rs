//! Seals, judged, read and written.

use crate::face;
use crate::layout::Header;
use crate::reading::Reading;
use crate::reason::Reason;
use crate::refusal::Refusal;
use crate::verdict::Verdict;

/// Reads a seal. A row of four numbers for each feature then stands in `table` (tag, place of the tag, place of the
/// value, length of the value), and signer and reference in `text`; memory past them stays. The reading lends all of
/// this out by name.
///
/// [`crate::TABLE_MOST`] numbers and [`crate::TEXT_MOST`] bytes are room for every seal; [`judge`] says what a seal
/// needs. The signature is not verified: that is the signing unit's work, over [`Reading::signed`].
///
/// # Errors
///
/// 1 to 11 where the bytes are no seal, as [`judge`]; 12 `READ_ROOM` where they are one and there is not the room that
/// [`Verdict::table_room`] and [`Verdict::text_room`] say ([`crate::numbers`]), and then [`Refusal::front`] is the
/// seal's length. All lent memory stays.
///
/// ```
/// let mut seal = b"\xDC\x02\xD9\xC5\xD9\xB7\x5E\x65\x19\xA6\x31\x9E\xF5\x31\x9E\xF5\x01\x02".to_vec();
/// seal.extend([0x0A, 4, 0xDE, 0x51, 0x58, 0x26, 0xFF, 56]);
/// seal.extend([0xAA; 56]);
///
/// let (mut table, mut text) = ([0; fenderrope::TABLE_MOST], [0; fenderrope::TEXT_MOST]);
/// let reading = fenderrope::read(&seal, &mut table, &mut text)?;
/// assert_eq!(reading.names(), ("UTAB", "00001"));
/// let feature = reading.feature(10).unwrap();
/// assert_eq!((feature.place, feature.value), (20, &[0xDE, 0x51, 0x58, 0x26][..]));
/// assert_eq!((feature.tag_place, feature.whole), (18, &[0x0A, 4, 0xDE, 0x51, 0x58, 0x26][..]));
/// assert_eq!(reading.feature(11), None);
/// # Ok::<(), fenderrope::Refusal>(())
/// ```
pub fn read<'a>(seal: &'a [u8], table: &'a mut [usize], text: &'a mut [u8]) -> Result<Reading<'a>, Refusal> {
    let answer = face::read(seal, table, text);
    Reading::of(answer, seal, table, text)
}

/// The verdict on a seal, with nothing lent.
///
/// # Errors
///
/// 1 `TOO_LONG` at 4,096; then 2 to 11, item by item from the left ([`crate::numbers`]). The place is the first byte of
/// the item that was not read, for 5 of its first pair that is wrongly coded or does not fit if it has one, for 10 of
/// the signature's length, for 11 the first extra byte. [`Refusal::front`] is how far the seal is hopeful; a good
/// one is so to its end.
///
/// ```
/// let refusal = fenderrope::judge(b"").unwrap_err();
/// assert_eq!((refusal.number, refusal.place, refusal.front), (2, 0, 0));
/// ```
pub fn judge(seal: &[u8]) -> Result<Verdict, Refusal> {
    Verdict::of(face::judge(seal))
}

/// Why a seal is refused, with nothing lent: the item that breaks a rule, the rule, the bytes judged, and the first
/// hopeless byte; nothing where the seal is accepted. Number, place and front part are those of [`judge`].
///
/// ```
/// use fenderrope::{why, Item, Reason, Rule};
///
/// // Seal A of the tender, with its tag put once more where the message ends.
/// let mut seal = b"\xDC\x02\xD9\xC5\xD9\xB7\x5E\x65\x19\xA6\x31\x9E\xF5\x31\x9E\xF5\x01\x02".to_vec();
/// seal.extend([0x0A, 4, 0xDE, 0x51, 0x58, 0x26, 0x0A, 0, 0xFF, 56]);
/// seal.extend([0xAA; 56]);
///
/// let reason = why(&seal).unwrap();
/// let (item, rule) = (Item::Tag, Rule::NotUsedBefore);
/// let (judged, front, hopeless) = (&seal[24..25], 24, Some(0x0A));
/// assert_eq!(reason, Reason { number: 9, place: 24, item, rule, judged, front, hopeless });
/// assert_eq!(
///     reason.to_string().lines().collect::<Vec<_>>(),
///     [
///         "number 9",
///         "item tag",
///         "place 24",
///         "bytes 0A",
///         "rule a tag is used once only",
///         "good up to 24, no seal has 0A there",
///     ]
/// );
///
/// seal.drain(24..26);
/// assert_eq!(why(&seal), None);
/// ```
#[must_use]
pub fn why(seal: &[u8]) -> Option<Reason<'_>> {
    Reason::of(face::why(seal), face::judge(seal).front, seal)
}

/// Writes a seal from the start of `out` and gives its length; memory past it stays.
///
/// `text` is signer and reference; `rows` are rows as [`read`] fills them, over `values`; `signature` is r, then s. The
/// second number of a row, the tag's place, is ignored, whatever it is. [`crate::SEAL_MOST`] bytes are room for every
/// seal. [`Reading::write`] writes what was read.
///
/// # Errors
///
/// 20 to 28, judged in this order ([`crate::numbers`]), all at 0. All of `out` stays.
///
/// ```
/// use fenderrope::{Date, Header};
///
/// let today = Date { month: 3, day: 25, year: 1957 };
/// let (version, definition, category) = (4, 1, 2);
/// let header =
///     Header { version, country: *b"D<<", length: 1, issued_on: today, signed_on: today, definition, category };
/// let values = [0xDE, 0x51, 0x58, 0x26];
/// let rows = [10, 0, 0, 4, 11, 0, 0, 2];
/// let mut seal = [0; fenderrope::SEAL_MOST];
/// let length = fenderrope::write(&header, b"UTAB7", &rows, &values, &[0xAA; 64], &mut seal)?;
/// let verdict = fenderrope::judge(&seal[..length])?;
/// assert_eq!((verdict.header, verdict.count, verdict.signature.length), (header, 2, 64));
/// # Ok::<(), fenderrope::Refusal>(())
/// ```
pub fn write(
    header: &Header,
    text: &[u8],
    rows: &[usize],
    values: &[u8],
    signature: &[u8],
    out: &mut [u8],
) -> Result<usize, Refusal> {
    Refusal::unless_filled(face::write(header, text, rows, values, signature, out))
}
