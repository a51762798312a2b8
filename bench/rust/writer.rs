//! The writer: all is judged and the size summed up before the first byte is written; then the parts are put down one after another.
use crate::face::{refusal, Date, Header, Refusal, Row, ROW};
use crate::text;

fn is_letter_or_digit(c: &u8) -> bool {
    c.is_ascii_uppercase() || c.is_ascii_digit()
}

fn is_reference(c: &u8) -> bool {
    is_letter_or_digit(c)
}

fn is_country(t: &[u8; 3]) -> bool {
    match t {
        [a, b, c] if a.is_ascii_uppercase() && b.is_ascii_uppercase() => c.is_ascii_uppercase() || *c == b'<',
        [a, b'<', b'<'] => a.is_ascii_uppercase(),
        _ => false,
    }
}

fn are_names(header: &Header, names: &[u8]) -> bool {
    let n = names.len();
    let fits = if header.version == 3 { n == 9 } else { (5..=259).contains(&n) };
    is_country(&header.country)
        && fits
        && header.length == n - 4
        && names[..2].iter().all(u8::is_ascii_uppercase)
        && names[2..4].iter().all(is_letter_or_digit)
        && names[4..].iter().all(is_reference)
}

fn is_last(x: usize) -> bool {
    (1..=254).contains(&x)
}

fn are_rows(rows: &[usize], size: usize) -> bool {
    let mut used = [false; 255];
    rows.len() % ROW == 0
        && Row::all(rows).all(|row| {
            let free = used.get_mut(row.tag).is_some_and(|used| !std::mem::replace(used, true));
            free && row.value_place <= size && row.value_length <= size - row.value_place
        })
}

fn width_of(version: usize, size: usize) -> usize {
    match size {
        _ if version == 3 => 1,
        0..=0x7F => 1,
        0x80..=0xFF => 2,
        _ => 3,
    }
}

fn names_size(version: usize, characters: usize) -> usize {
    if version == 3 {
        6
    } else {
        4 + text::size_of(characters - 4)
    }
}

/// The size of the seal, unless it passes 4,096.
fn seal_size(header: &Header, characters: usize, rows: &[usize], raw: usize) -> Option<usize> {
    let mut total = 12 + names_size(header.version, characters) + 1 + width_of(4, raw) + raw;
    for row in Row::all(rows) {
        let size = row.value_length;
        if size > 4096 {
            return None;
        }
        total += 1 + width_of(header.version, size) + size;
        if total > 4096 {
            return None;
        }
    }
    Some(total)
}

/// The part of the buffer that is still to be filled.
struct Rest<'a>(&'a mut [u8]);

impl<'a> Rest<'a> {
    fn take(&mut self, size: usize) -> &'a mut [u8] {
        let (part, rest) = std::mem::take(&mut self.0).split_at_mut(size);
        self.0 = rest;
        part
    }

    fn put(&mut self, bytes: &[u8]) {
        self.take(bytes.len()).copy_from_slice(bytes);
    }

    fn put_text(&mut self, characters: &[u8]) {
        text::put(characters, self.take(text::size_of(characters.len())));
    }

    /// In version 4 six characters, two whole pairs, are the signer and L, and the reference begins a pair of its own.
    fn put_names(&mut self, version: usize, names: &[u8]) {
        if version == 3 {
            return self.put_text(names);
        }
        let (signer, reference) = names.split_at(4);
        let length = reference.len();
        let hex = b"0123456789ABCDEF";
        self.put_text(&[signer[0], signer[1], signer[2], signer[3], hex[length / 16], hex[length % 16]]);
        self.put_text(reference);
    }

    fn put_date(&mut self, date: &Date) {
        self.put(&(date.number() as u32).to_be_bytes()[1..]);
    }

    fn put_feature(&mut self, version: usize, tag: usize, value: &[u8]) {
        let size = value.len();
        let (high, low) = ((size >> 8) as u8, size as u8);
        match width_of(version, size) {
            1 => self.put(&[tag as u8, low]),
            2 => self.put(&[tag as u8, 0x81, low]),
            _ => self.put(&[tag as u8, 0x82, high, low]),
        }
        self.put(value);
    }
}

pub fn write(
    header: &Header,
    names: &[u8],
    rows: &[usize],
    values: &[u8],
    signature: &[u8],
    out: &mut [u8],
) -> Result<usize, Refusal> {
    let version = header.version;
    if version != 3 && version != 4 {
        return Err(refusal(20));
    }
    if !are_names(header, names) {
        return Err(refusal(21));
    }
    if !header.issued_on.is_day() || !header.signed_on.is_day() {
        return Err(refusal(22));
    }
    if !is_last(header.definition) || !is_last(header.category) {
        return Err(refusal(23));
    }
    if !are_rows(rows, values.len()) {
        return Err(refusal(24));
    }
    if version == 3 && Row::all(rows).any(|row| row.value_length > 255) {
        return Err(refusal(25));
    }
    if !matches!(signature.len(), 56 | 64 | 96 | 128 | 132) {
        return Err(refusal(26));
    }
    let total = seal_size(header, names.len(), rows, signature.len()).ok_or(refusal(27))?;
    let mut out = Rest(out.get_mut(..total).ok_or(refusal(28))?);
    out.put(&[0xDC, version as u8 - 1]);
    out.put_text(&header.country.map(|c| if c == b'<' { b' ' } else { c }));
    out.put_names(version, names);
    out.put_date(&header.issued_on);
    out.put_date(&header.signed_on);
    out.put(&[header.definition as u8, header.category as u8]);
    for row in Row::all(rows) {
        out.put_feature(version, row.tag, &values[row.value_place..][..row.value_length]);
    }
    out.put_feature(4, 0xFF, signature);
    Ok(total)
}
