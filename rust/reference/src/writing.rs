//! The writer (document 01, "Layout" and "The numbers a call answers"; document 02, Ticket 10): "20 to 28 in order".

use std::collections::BTreeSet;

use crate::{c40, dates, der, fill, names, Filled, Header, Refusal, Row, LONGEST_SEAL, SIGNATURE_SIZES};

/// A feature as it is asked for: its tag and its value's bytes.
type Feature<'a> = (u8, &'a [u8]);

/// Country, signer and reference as the seal carries them, or nothing (21).
fn names(header: &Header, text: &[u8]) -> Option<Vec<u8>> {
    let (signer, reference) = text.split_at_checked(4)?;
    let lengths = if header.version == 3 { 5..=5 } else { 1..=255 };
    let good = names::is_country(&header.country) && names::is_signer(signer) && names::is_reference(reference);
    if !good || header.length != reference.len() || !lengths.contains(&header.length) {
        return None;
    }
    let carried = header.country.map(|character| if character == b'<' { b' ' } else { character });
    let digits = if header.version == 3 { Vec::new() } else { names::length_digits(header.length) };
    let mut bytes = c40::encode(&carried).ok()?;
    bytes.extend(c40::encode(&[signer, &digits, reference].concat()).ok()?);
    Some(bytes)
}

/// Both dates, or nothing (22).
fn days(header: &Header) -> Option<Vec<u8>> {
    Some([dates::to_bytes(header.issued_on)?, dates::to_bytes(header.signed_on)?].concat())
}

/// Definition reference and category, or nothing (23).
fn last_bytes(header: &Header) -> Option<Vec<u8>> {
    let both = [header.definition, header.category];
    both.iter().all(|number| (1..=254).contains(number)).then(|| both.map(|number| number as u8).to_vec())
}

/// The features of the table, or nothing (24): "table not in fours, tag over 254 or used twice, or a value outside the
/// values buffer". The writer "ignores the second number", the tag's place.
fn features<'a>(table: &[usize], values: &'a [u8]) -> Option<Vec<Feature<'a>>> {
    let mut used = BTreeSet::new();
    let features = Row::all(table)?.into_iter().map(|Row { tag, value_place, value_length, .. }| {
        let tag = u8::try_from(tag).ok().filter(|&tag| tag < 255 && used.insert(tag))?;
        let value = values.get(value_place..value_place.checked_add(value_length)?)?;
        Some((tag, value))
    });
    features.collect()
}

/// A feature's length: one plain byte in version 3, a DER length in version 4.
fn length_bytes(version: usize, length: usize) -> Vec<u8> {
    if version == 3 {
        vec![length as u8]
    } else {
        der::length_bytes(length)
    }
}

/// The message zone, given up as soon as it alone would pass the longest seal.
fn message(version: usize, features: &[Feature]) -> Option<Vec<u8>> {
    let mut bytes = Vec::new();
    for &(tag, value) in features {
        if value.len() > LONGEST_SEAL || bytes.len() > LONGEST_SEAL {
            return None;
        }
        bytes.push(tag);
        bytes.extend(length_bytes(version, value.len()));
        bytes.extend(value);
    }
    Some(bytes)
}

/// "Byte FF, a length, the raw signature." The length is a DER length in both versions.
fn seal_zone(signature: &[u8]) -> Vec<u8> {
    let mut bytes = vec![0xFF];
    bytes.extend(der::length_bytes(signature.len()));
    bytes.extend(signature);
    bytes
}

/// The whole seal, or the first number of 20 to 27 whose condition holds.
fn seal(header: &Header, text: &[u8], rows: &[usize], values: &[u8], signature: &[u8]) -> Result<Vec<u8>, usize> {
    let version = match header.version {
        3 => 0x02,
        4 => 0x03,
        _ => return Err(20),
    };
    let names = names(header, text).ok_or(21usize)?;
    let days = days(header).ok_or(22usize)?;
    let last_bytes = last_bytes(header).ok_or(23usize)?;
    let features = features(rows, values).ok_or(24usize)?;
    if header.version == 3 && features.iter().any(|(_, value)| value.len() > 255) {
        return Err(25);
    }
    if !SIGNATURE_SIZES.iter().any(|n| 2 * n == signature.len()) {
        return Err(26);
    }
    let message = message(header.version, &features).ok_or(27usize)?;
    let seal = [vec![0xDC, version], names, days, last_bytes, message, seal_zone(signature)].concat();
    Some(seal).filter(|seal| seal.len() <= LONGEST_SEAL).ok_or(27)
}

/// Writes a seal. The place is 0 on every answer.
pub fn write(header: &Header, text: &[u8], rows: &[usize], values: &[u8], signature: &[u8], out: &mut [u8]) -> Filled {
    fill(seal(header, text, rows, values, signature).map_err(Refusal::of), 28, out)
}
