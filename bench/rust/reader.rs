//! The reader: item by item from the left, an item that is not read ends the reading; once all is judged a second walk writes the rows. How far a refused
//! seal is good is reckoned by a walk of its own.
use crate::der;
use crate::face::{refusal, Date, Ends, Header, Part, Reading, Refusal, Row, ROW};
use crate::front::front;
use crate::text;

/// A place in the seal, moved past each item that is read.
#[derive(Clone, Copy)]
struct Cursor<'a> {
    seal: &'a [u8],
    place: usize,
}

pub fn is_signer(t: &[u8]) -> bool {
    t[..2].iter().all(u8::is_ascii_uppercase) && t[2..4].iter().all(is_letter_or_digit)
}

fn is_letter_or_digit(c: &u8) -> bool {
    c.is_ascii_uppercase() || c.is_ascii_digit()
}

pub fn is_reference(c: &u8) -> bool {
    is_letter_or_digit(c)
}

pub fn is_country(t: &[u8; 3]) -> bool {
    match t {
        [a, b, c] if a.is_ascii_uppercase() && b.is_ascii_uppercase() => c.is_ascii_uppercase() || *c == b' ',
        [a, b' ', b' '] => a.is_ascii_uppercase(),
        _ => false,
    }
}

pub fn hex_value(c: u8) -> Option<usize> {
    match c {
        b'0'..=b'9' => Some(usize::from(c - b'0')),
        b'A'..=b'F' => Some(usize::from(c - b'A') + 10),
        _ => None,
    }
}

impl<'a> Cursor<'a> {
    fn refusal(self, number: usize) -> Refusal {
        Refusal { number, place: self.place }
    }

    fn bytes(&mut self, size: usize) -> Result<&'a [u8], Refusal> {
        let bytes = self.seal[self.place..].get(..size).ok_or(self.refusal(2))?;
        self.place += size;
        Ok(bytes)
    }

    fn byte(&mut self) -> Result<u8, Refusal> {
        let byte = *self.seal.get(self.place).ok_or(self.refusal(2))?;
        self.place += 1;
        Ok(byte)
    }

    /// C40 text of just the size of `text`: refused at the first pair that is wrongly coded, or at the last, as it does not fit.
    fn field(&mut self, text: &mut [u8]) -> Result<(), Refusal> {
        let start = *self;
        let bytes = self.bytes(text::size_of(text.len()))?;
        let offset = match text::read(bytes, text) {
            Ok(count) if count == text.len() => return Ok(()),
            Ok(_) | Err(Refusal { number: 42, .. }) => bytes.len() - 2,
            Err(fault) => fault.place,
        };
        Err(Refusal { number: 5, place: start.place + offset })
    }

    fn country(&mut self) -> Result<[u8; 3], Refusal> {
        let start = *self;
        let mut country = [0; 3];
        self.field(&mut country)?;
        if !is_country(&country) {
            return Err(start.refusal(5));
        }
        Ok(country.map(|c| if c == b' ' { b'<' } else { c }))
    }

    /// Signer and reference at the start of `names`; gives the reference's length.
    fn names(&mut self, version: usize, names: &mut [u8; 259]) -> Result<usize, Refusal> {
        let start = *self;
        if version == 3 {
            self.field(&mut names[..9])?;
            let good = is_signer(names) && names[4..9].iter().all(is_reference);
            return if good { Ok(5) } else { Err(start.refusal(5)) };
        }
        self.field(&mut names[..6])?;
        let length = match (hex_value(names[4]), hex_value(names[5])) {
            (Some(high), Some(low)) if is_signer(names) && high + low > 0 => high * 16 + low,
            _ => return Err(start.refusal(5)),
        };
        let middle = *self;
        let reference = &mut names[4..4 + length];
        self.field(reference)?;
        if reference.iter().all(is_reference) {
            Ok(length)
        } else {
            Err(middle.refusal(5))
        }
    }

    fn date(&mut self) -> Result<Date, Refusal> {
        let start = *self;
        Date::from_number(der::number(self.bytes(3)?)).ok_or(start.refusal(6))
    }

    /// Definition reference or category.
    fn last(&mut self) -> Result<usize, Refusal> {
        let start = *self;
        match self.byte()? {
            0 | 255 => Err(start.refusal(7)),
            x => Ok(x.into()),
        }
    }

    fn der_length(&mut self) -> Result<usize, Refusal> {
        let start = *self;
        match self.byte()? {
            x @ 0..=0x7F => Ok(x.into()),
            x @ 0x81..=0x84 => {
                let k = usize::from(x - 0x80);
                let value = der::number(self.bytes(k).map_err(|_| start.refusal(2))?);
                if value < der::least(k) {
                    Err(start.refusal(8))
                } else {
                    Ok(value)
                }
            }
            _ => Err(start.refusal(8)),
        }
    }

    /// The length and value of the feature whose tag was read: the value's place and length.
    fn value(&mut self, version: usize) -> Result<Part, Refusal> {
        let length = if version == 3 { self.byte()?.into() } else { self.der_length()? };
        let place = self.place;
        self.bytes(length)?;
        Ok(Part { place, length })
    }

    /// How many features there are; ends at FF.
    fn features(&mut self, version: usize) -> Result<usize, Refusal> {
        let mut tags = [0; 255];
        let mut count = 0;
        loop {
            let start = *self;
            let tag = self.byte()?;
            if tag == 0xFF {
                *self = start;
                return Ok(count);
            }
            if tags[..count].contains(&tag) {
                return Err(start.refusal(9));
            }
            self.value(version)?;
            tags[count] = tag;
            count += 1;
        }
    }

    fn signature(&mut self) -> Result<Part, Refusal> {
        let start = *self;
        let length = self.der_length()?;
        if !matches!(length, 56 | 64 | 96 | 128 | 132) {
            return Err(start.refusal(10));
        }
        let place = self.place;
        self.bytes(length)?;
        if self.place < self.seal.len() {
            return Err(self.refusal(11));
        }
        Ok(Part { place, length })
    }
}

fn judge_names(seal: &[u8], names: &mut [u8; 259]) -> Result<Reading, Refusal> {
    if seal.len() > 4096 {
        return Err(Refusal { number: 1, place: 4096 });
    }
    let mut at = Cursor { seal, place: 0 };
    if at.byte()? != 0xDC {
        return Err(refusal(3));
    }
    let version = match at.byte()? {
        2 => 3,
        3 => 4,
        _ => return Err(Refusal { number: 4, place: 1 }),
    };
    let country = at.country()?;
    let length = at.names(version, names)?;
    let issued_on = at.date()?;
    let signed_on = at.date()?;
    let definition = at.last()?;
    let category = at.last()?;
    let header = Header { version, country, length, issued_on, signed_on, definition, category };
    let header_end = at.place;
    let count = at.features(version)?;
    let message = at.place;
    at.byte()?;
    let signature = at.signature()?;
    Ok(Reading {
        number: 0,
        place: 0,
        header,
        ends: Ends { header: header_end, message, seal: seal.len() },
        signature,
        count,
        front: seal.len(),
    })
}

fn put_rows(reading: &Reading, seal: &[u8], table: &mut [usize]) -> Result<(), Refusal> {
    let mut at = Cursor { seal, place: reading.ends.header };
    for numbers in table.chunks_exact_mut(ROW) {
        let tag_place = at.place;
        let tag = at.byte()?.into();
        let value = at.value(reading.header.version)?;
        let row = Row { tag, tag_place, value_place: value.place, value_length: value.length };
        numbers.copy_from_slice(&row.numbers());
    }
    Ok(())
}

/// A seal that is refused for want of room, 12, is good to its end.
fn reading_of(seal: &[u8], answer: Result<Reading, Refusal>) -> Reading {
    answer.unwrap_or_else(|Refusal { number, place }| {
        let front = if number == 12 { seal.len() } else { front(seal) };
        Reading { number, place, front, ..Reading::default() }
    })
}

fn try_read(seal: &[u8], table: &mut [usize], text: &mut [u8]) -> Result<Reading, Refusal> {
    let mut names = [0; 259];
    let reading = judge_names(seal, &mut names)?;
    let size = 4 + reading.header.length;
    let table = table.get_mut(..ROW * reading.count).ok_or(refusal(12))?;
    let text = text.get_mut(..size).ok_or(refusal(12))?;
    put_rows(&reading, seal, table)?;
    text.copy_from_slice(&names[..size]);
    Ok(reading)
}

/// The verdict, with no front part of a refused seal.
pub fn verdict(seal: &[u8]) -> Result<Reading, Refusal> {
    judge_names(seal, &mut [0; 259])
}

pub fn judge(seal: &[u8]) -> Reading {
    reading_of(seal, verdict(seal))
}

pub fn read(seal: &[u8], table: &mut [usize], text: &mut [u8]) -> Reading {
    reading_of(seal, try_read(seal, table, text))
}
