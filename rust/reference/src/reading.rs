//! The reader (document 01, "Layout" and "The numbers a call answers"; document 02, Tickets 1, 10 and 12).
//!
//! A parser takes the bytes that are left and gives what it read and the bytes left after it. A refusal remembers how
//! many bytes were left where its item began, or the pair that it names; its place is then the seal's length less that.

use std::collections::BTreeSet;

use crate::der::Fault;
use crate::{c40, dates, der, front, names, Ends, Header, Part, Reading, Refusal, Row, LONGEST_SEAL, SIGNATURE_SIZES};

/// The number of a refusal, and how many bytes were left at the byte that it names.
struct Stopped {
    number: usize,
    left: usize,
}

type Parsed<'a, T> = Result<(T, &'a [u8]), Stopped>;

/// All that an accepted seal says.
struct Accepted {
    header: Header,
    text: Vec<u8>,
    rows: Vec<Row>,
    ends: Ends,
    signature: Part,
}

/// A feature: its tag, how many bytes are left there and at its value, and how long the value is.
struct Feature {
    tag: u8,
    left_at_tag: usize,
    left_at_value: usize,
    length: usize,
}

fn stop<T>(number: usize, rest: &[u8]) -> Result<T, Stopped> {
    Err(Stopped { number, left: rest.len() })
}

/// So many bytes. "An item cut short is 2, before its content is judged."
fn bytes(width: usize, rest: &[u8]) -> Parsed<'_, &[u8]> {
    rest.split_at_checked(width).map_or_else(|| stop(2, rest), Ok)
}

/// So many bytes that mean something, or else this number.
fn item<T>(width: usize, number: usize, rest: &[u8], meaning: impl FnOnce(&[u8]) -> Option<T>) -> Parsed<'_, T> {
    let (found, after) = bytes(width, rest)?;
    meaning(found).map_or_else(|| stop(number, rest), |meant| Ok((meant, after)))
}

/// The text of an item of so many characters: a full last pair, two characters and 0, or one after FE, as the count
/// asks. Else the place in it of "the item's first wrongly coded pair, a last pair that does not fit the number of
/// characters included" (document 02, Ticket 1).
fn text(characters: usize, coded: &[u8]) -> Result<Vec<u8>, usize> {
    match c40::decode(coded) {
        Ok(text) if text.len() == characters => Ok(text),
        Ok(_) => Err(coded.len() - 2),
        Err((place, _)) => Err(place),
    }
}

/// A text item that means something, or else 5: at the first wrongly coded pair, and "a wrong character alone keeps the
/// item's first byte". "So k characters take 2 x ceil(k / 3) bytes."
fn text_item<T>(characters: usize, rest: &[u8], meaning: impl FnOnce(Vec<u8>) -> Option<T>) -> Parsed<'_, T> {
    let (coded, after) = bytes(2 * characters.div_ceil(3), rest)?;
    let text = text(characters, coded).or_else(|place| stop(5, &rest[place..]))?;
    meaning(text).map_or_else(|| stop(5, rest), |meant| Ok((meant, after)))
}

/// The country. A filler is "carried in C40 as a space".
fn country(carried: Vec<u8>) -> Option<[u8; 3]> {
    let carried: [u8; 3] = carried.try_into().ok()?;
    let country = carried.map(|character| if character == b' ' { b'<' } else { character });
    names::is_country(&country).then_some(country)
}

/// "Version 3: nine characters, six bytes."
fn names_of_three(rest: &[u8]) -> Parsed<'_, Vec<u8>> {
    text_item(9, rest, |nine| (names::is_signer(&nine[..4]) && names::is_reference(&nine[4..])).then_some(nine))
}

/// Version 4: "the first four bytes and then the reference".
fn names_of_four(rest: &[u8]) -> Parsed<'_, Vec<u8>> {
    let ((mut signer, length), rest) = text_item(6, rest, |mut six| {
        let length = names::length_of(&six.split_off(4))?;
        names::is_signer(&six).then_some((six, length))
    })?;
    let (reference, rest) = text_item(length, rest, |reference| names::is_reference(&reference).then_some(reference))?;
    signer.extend(reference);
    Ok((signer, rest))
}

/// "Definition reference, then document category: one byte each, 1 to 254."
fn last_byte(rest: &[u8]) -> Parsed<'_, usize> {
    item(1, 7, rest, |one| Some(usize::from(one[0])).filter(|number| (1..=254).contains(number)))
}

/// The header zone, with signer and reference as text.
fn header(rest: &[u8]) -> Parsed<'_, (Header, Vec<u8>)> {
    let ((), rest) = item(1, 3, rest, |one| (one == [0xDC]).then_some(()))?;
    let (version, rest) = item(1, 4, rest, |one| match one {
        [0x02] => Some(3),
        [0x03] => Some(4),
        _ => None,
    })?;
    let (country, rest) = text_item(3, rest, country)?;
    let (text, rest) = if version == 3 { names_of_three(rest)? } else { names_of_four(rest)? };
    let (issued_on, rest) = item(3, 6, rest, dates::from_bytes)?;
    let (signed_on, rest) = item(3, 6, rest, dates::from_bytes)?;
    let (definition, rest) = last_byte(rest)?;
    let (category, rest) = last_byte(rest)?;
    let length = text.len() - 4;
    let header = Header { version, country, length, issued_on, signed_on, definition, category };
    Ok(((header, text), rest))
}

/// A DER length: 2 where it is cut, 8 where it is wrong, both at its first byte.
fn der_length(rest: &[u8]) -> Parsed<'_, usize> {
    der::length(rest).or_else(|fault| match fault {
        Fault::Cut => stop(2, rest),
        Fault::Wrong => stop(8, rest),
    })
}

/// "A feature's length is one plain byte in version 3 and a DER length in version 4."
fn feature_length(version: usize, rest: &[u8]) -> Parsed<'_, usize> {
    if version == 3 {
        item(1, 2, rest, |one| Some(usize::from(one[0])))
    } else {
        der_length(rest)
    }
}

/// The message zone: "tag, length, value, in any order, and that order is kept". It ends where FF stands for a tag, and
/// FF is left. "A repeated tag is judged at the tag."
fn features(version: usize, mut rest: &[u8]) -> Parsed<'_, Vec<Feature>> {
    let mut used = BTreeSet::new();
    let mut found = Vec::new();
    loop {
        let (one, after) = bytes(1, rest)?;
        let tag = one[0];
        if tag == 0xFF {
            return Ok((found, rest));
        }
        if !used.insert(tag) {
            return stop(9, rest);
        }
        let (length, value) = feature_length(version, after)?;
        found.push(Feature { tag, left_at_tag: rest.len(), left_at_value: value.len(), length });
        (_, rest) = bytes(length, value)?;
    }
}

/// "Byte FF, a length, the raw signature. Nothing after it." Gives the bytes of the signature.
fn signature(rest: &[u8]) -> Result<&[u8], Stopped> {
    let (_, rest) = bytes(1, rest)?;
    let (length, raw) = der_length(rest)?;
    if !SIGNATURE_SIZES.iter().any(|n| 2 * n == length) {
        return stop(10, rest);
    }
    let (signature, extra) = bytes(length, raw)?;
    if !extra.is_empty() {
        return stop(11, extra);
    }
    Ok(signature)
}

/// The whole seal: "item by item from the left".
fn seal(seal: &[u8]) -> Result<Accepted, Stopped> {
    let ((header, text), message) = header(seal)?;
    let (features, mark) = features(header.version, message)?;
    let raw = signature(mark)?;
    let place = |left: usize| seal.len() - left;
    let row = |feature: &Feature| Row {
        tag: usize::from(feature.tag),
        tag_place: place(feature.left_at_tag),
        value_place: place(feature.left_at_value),
        value_length: feature.length,
    };
    Ok(Accepted {
        header,
        text,
        rows: features.iter().map(row).collect(),
        ends: Ends { header: place(message.len()), message: place(mark.len()), seal: seal.len() },
        signature: Part { place: place(raw.len()), length: raw.len() },
    })
}

/// "Reader: 1 first, then item by item."
fn parse(bytes: &[u8]) -> Result<Accepted, Refusal> {
    if bytes.len() > LONGEST_SEAL {
        return Err(Refusal { number: 1, place: LONGEST_SEAL });
    }
    seal(bytes).map_err(|stopped| Refusal { number: stopped.number, place: bytes.len() - stopped.left })
}

/// A refusal is its number, its place and the front part of the input, and all else is 0.
fn refused(seal: &[u8], refusal: Refusal) -> Reading {
    Reading { number: refusal.number, place: refusal.place, front: front(seal), ..Reading::default() }
}

impl Accepted {
    /// "For an accepted seal it is the whole length."
    fn reading(&self) -> Reading {
        let Accepted { header, ends, signature, .. } = *self;
        Reading { number: 0, place: 0, header, ends, signature, count: self.rows.len(), front: ends.seal }
    }
}

/// The reader's answer without room for table and text, and so never 12.
pub fn judge(seal: &[u8]) -> Reading {
    parse(seal).map_or_else(|refusal| refused(seal, refusal), |accepted| accepted.reading())
}

/// Where the header of an accepted seal ends.
pub(crate) fn header_end(seal: &[u8]) -> Result<usize, Refusal> {
    Ok(parse(seal)?.ends.header)
}

/// The rows of an accepted seal, in its order.
pub(crate) fn rows(seal: &[u8]) -> Result<Vec<Row>, Refusal> {
    Ok(parse(seal)?.rows)
}

/// Reads a seal: writes a row for each feature "and the signer and reference text". "Answer 12 is given below 4 numbers
/// a feature."
pub fn read(seal: &[u8], table: &mut [usize], text: &mut [u8]) -> Reading {
    let accepted = match parse(seal) {
        Ok(accepted) => accepted,
        Err(refusal) => return refused(seal, refusal),
    };
    let rows = Row::table(&accepted.rows);
    if table.len() < rows.len() || text.len() < accepted.text.len() {
        return refused(seal, Refusal::of(12));
    }
    table[..rows.len()].copy_from_slice(&rows);
    text[..accepted.text.len()].copy_from_slice(&accepted.text);
    accepted.reading()
}
