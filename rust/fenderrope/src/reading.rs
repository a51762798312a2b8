//! A seal that was read, together with the memory that it was read into.

use core::str;

use crate::layout::{self, Header, Part};
use crate::refusal::Refusal;
use crate::seals::write;
use crate::sizes::{ROW, ROW_TAG, ROW_TAG_PLACE, ROW_VALUE_LENGTH, ROW_VALUE_PLACE};
use crate::verdict::Verdict;

/// A seal that [`crate::read`] has accepted. It holds the seal, the rows and the text, and lends out parts of these
/// alone: none of them can be exchanged or changed while the reading is in use.
///
/// ```compile_fail,E0506
/// # let seal = b"\xDC\x02\xD9\xC5\xD9\xB7\x5E\x65\x19\xA6\x31\x9E\xF5\x31\x9E\xF5\x01\x02\xFF\x38".to_vec();
/// # let seal = [seal, vec![0xAA; 56]].concat();
/// let (mut table, mut text) = ([0; fenderrope::TABLE_MOST], [0; fenderrope::TEXT_MOST]);
/// let reading = fenderrope::read(&seal, &mut table, &mut text)?;
/// table[0] = 11; // refused by the compiler: the table belongs to the reading
/// assert!(reading.feature(11).is_none());
/// # Ok::<(), fenderrope::Refusal>(())
/// ```
#[derive(Debug, Clone, Copy, PartialEq, Eq, Hash)]
#[must_use]
pub struct Reading<'a> {
    verdict: Verdict,
    seal: &'a [u8],
    rows: &'a [usize],
    text: &'a str,
}

/// One feature of a seal.
#[derive(Debug, Clone, Copy, PartialEq, Eq, Hash)]
#[must_use]
pub struct Feature<'a> {
    /// 0 to 254; no two features of a seal have the same.
    pub tag: usize,
    /// Where the tag stands in the seal. The feature begins there.
    pub tag_place: usize,
    /// Where the value stands in the seal.
    pub place: usize,
    /// The whole feature, tag, length and value: what an overlay frames.
    pub whole: &'a [u8],
    /// The value's bytes, the last ones of the whole.
    pub value: &'a [u8],
}

impl<'a> Feature<'a> {
    /// The feature with this tag, its place, and the value's part of the seal. What is not inside the seal would stop
    /// this.
    pub(crate) fn of(seal: &'a [u8], tag: usize, tag_place: usize, value: Part) -> Feature<'a> {
        let Part { place, length } = value;
        let value = &seal[place..][..length];
        let whole = &seal[tag_place..place + value.len()];
        Feature { tag, tag_place, place, whole, value }
    }

    /// The feature that a row tells of.
    fn of_row(seal: &'a [u8], row: &[usize]) -> Feature<'a> {
        let value = Part { place: row[ROW_VALUE_PLACE], length: row[ROW_VALUE_LENGTH] };
        Feature::of(seal, row[ROW_TAG], row[ROW_TAG_PLACE], value)
    }
}

impl<'a> Reading<'a> {
    /// What the library answered, with what it was lent. On 0 it is proved to have filled a row a feature, each inside
    /// the seal, and 4 + L letters and digits of text; were it not so, this would stop and make nothing up.
    pub(crate) fn of(
        answer: layout::Reading,
        seal: &'a [u8],
        table: &'a [usize],
        text: &'a [u8],
    ) -> Result<Reading<'a>, Refusal> {
        let verdict = Verdict::of(answer)?;
        let text = str::from_utf8(&text[..verdict.text_room()]).expect("signer and reference are letters and digits");
        Ok(Reading { verdict, seal, rows: &table[..verdict.table_room()], text })
    }

    /// What [`crate::judge`] says of the seal.
    pub fn verdict(&self) -> Verdict {
        self.verdict
    }

    /// The header.
    #[must_use]
    pub fn header(&self) -> Header {
        self.verdict.header
    }

    /// Signer and reference.
    #[must_use]
    pub fn names(&self) -> (&'a str, &'a str) {
        self.text.split_at(4)
    }

    /// The features in the seal's order. They lie one after another and are together the message zone, the seal from
    /// `ends.header` to `ends.message` of the [`Reading::verdict`].
    #[must_use]
    pub fn features(&self) -> impl ExactSizeIterator<Item = Feature<'a>> + DoubleEndedIterator + Clone + 'a {
        let seal = self.seal;
        self.rows.chunks_exact(ROW).map(move |row| Feature::of_row(seal, row))
    }

    /// The feature with this tag, if the seal has it.
    #[must_use]
    pub fn feature(&self, tag: usize) -> Option<Feature<'a>> {
        self.features().find(|feature| feature.tag == tag)
    }

    /// The raw signature: r, then s.
    #[must_use]
    pub fn signature(&self) -> &'a [u8] {
        &self.seal[self.verdict.signature.place..][..self.verdict.signature.length]
    }

    /// The bytes that the signature is made over: header and message, without FF, the length or the signature.
    #[must_use]
    pub fn signed(&self) -> &'a [u8] {
        &self.seal[..self.verdict.ends.message]
    }

    /// The seal's own bytes.
    #[must_use]
    pub fn seal(&self) -> &'a [u8] {
        self.seal
    }

    /// Writes what was read anew, with this signature, from the start of `out`, and gives the length. With the seal's
    /// own [`Reading::signature`] it is the same seal again.
    ///
    /// # Errors
    ///
    /// 26 `WRITE_SIGNATURE` where the signature has not 56, 64, 96, 128 or 132 bytes, 27 `WRITE_TOO_LONG`, 28
    /// `WRITE_ROOM`, judged in this order ([`crate::numbers`]). All of `out` stays.
    pub fn write(&self, signature: &[u8], out: &mut [u8]) -> Result<usize, Refusal> {
        write(&self.verdict.header, self.text.as_bytes(), self.rows, self.seal, signature, out)
    }
}
