//! The reason of a refusal: the reader's walk, which ends at the first rule that is broken, with the item, the rule and
//! the bytes judged.
use crate::der;
use crate::face::{Date, Part, Reason, Refusal};
use crate::reader::{hex_value, is_country, is_reference, is_signer};
use crate::text;

/// The items, of which a refusal names one.
#[derive(Clone, Copy)]
enum Item {
    Seal = 1,
    Mark,
    Version,
    Country,
    Names,
    SignerAndLength,
    Reference,
    Issued,
    Signed,
    Definition,
    Category,
    Tag,
    Length,
    Value,
    SignatureLength,
    Signature,
    End,
}

/// The rules, of which it breaks one.
#[derive(Clone, Copy)]
enum Rule {
    NotTooLong = 1,
    There,
    Mark,
    Version,
    WellCoded,
    Day,
    OneTo254,
    BeginsLength,
    NotUsedBefore,
    SignatureSize,
    NothingAfter,
    Country,
    Signer,
    Reference,
    Hexadecimal,
    NotZero,
    RestThere,
    Shortest,
}

impl Rule {
    /// The number that is answered where the rule is broken.
    fn number(self) -> usize {
        match self {
            Rule::Country | Rule::Signer | Rule::Reference | Rule::Hexadecimal | Rule::NotZero => 5,
            Rule::RestThere => 2,
            Rule::Shortest => 8,
            other => other as usize,
        }
    }
}

/// The seal, and the place of the item that is looked at.
struct Walk<'a> {
    seal: &'a [u8],
    place: usize,
}

/// So many bytes from a place on break a rule of an item.
fn breaks(item: Item, rule: Rule, place: usize, length: usize) -> Reason {
    let judged = Part { place, length };
    Reason { number: rule.number(), place, item: item as usize, rule: rule as usize, judged }
}

impl<'a> Walk<'a> {
    /// A rule of the item's first `length` bytes.
    fn keeps(&self, held: bool, item: Item, rule: Rule, length: usize) -> Result<(), Reason> {
        if held {
            Ok(())
        } else {
            Err(breaks(item, rule, self.place, length))
        }
    }

    fn rest(&self) -> &'a [u8] {
        &self.seal[self.place..]
    }

    /// So many bytes, if they are there.
    fn there(&self, item: Item, size: usize) -> Result<&'a [u8], Reason> {
        let rest = self.rest();
        rest.get(..size).ok_or_else(|| breaks(item, Rule::There, self.place, rest.len()))
    }

    fn byte(&self, item: Item) -> Result<u8, Reason> {
        self.there(item, 1).map(|bytes| bytes[0])
    }

    /// One byte of which a rule holds.
    fn one(&mut self, item: Item, rule: Rule, holds: impl Fn(u8) -> bool) -> Result<u8, Reason> {
        let byte = self.byte(item)?;
        self.keeps(holds(byte), item, rule, 1)?;
        self.place += 1;
        Ok(byte)
    }

    /// C40 text of just the size of `text`, and its width; else the first pair that is wrongly coded is judged, or the
    /// last, as it does not fit.
    fn field(&self, item: Item, text: &mut [u8]) -> Result<usize, Reason> {
        let bytes = self.there(item, text::size_of(text.len()))?;
        let offset = match text::read(bytes, text) {
            Ok(count) if count == text.len() => return Ok(bytes.len()),
            Ok(_) | Err(Refusal { number: 42, .. }) => bytes.len() - 2,
            Err(fault) => fault.place,
        };
        Err(breaks(item, Rule::WellCoded, self.place + offset, 2))
    }

    fn country(&mut self) -> Result<(), Reason> {
        let mut country = [0; 3];
        let width = self.field(Item::Country, &mut country)?;
        self.keeps(is_country(&country), Item::Country, Rule::Country, width)?;
        self.place += width;
        Ok(())
    }

    fn names(&mut self) -> Result<(), Reason> {
        let mut names = [0; 9];
        let width = self.field(Item::Names, &mut names)?;
        self.keeps(is_signer(&names), Item::Names, Rule::Signer, width)?;
        self.keeps(names[4..].iter().all(is_reference), Item::Names, Rule::Reference, width)?;
        self.place += width;
        Ok(())
    }

    /// Signer and the reference's length, which it gives.
    fn signer_and_length(&mut self) -> Result<usize, Reason> {
        let mut names = [0; 6];
        let item = Item::SignerAndLength;
        let width = self.field(item, &mut names)?;
        self.keeps(is_signer(&names), item, Rule::Signer, width)?;
        let (Some(high), Some(low)) = (hex_value(names[4]), hex_value(names[5])) else {
            return Err(breaks(item, Rule::Hexadecimal, self.place, width));
        };
        self.keeps(high + low > 0, item, Rule::NotZero, width)?;
        self.place += width;
        Ok(high * 16 + low)
    }

    fn reference(&mut self, length: usize) -> Result<(), Reason> {
        let mut room = [0; 255];
        let reference = &mut room[..length];
        let width = self.field(Item::Reference, reference)?;
        self.keeps(reference.iter().all(is_reference), Item::Reference, Rule::Reference, width)?;
        self.place += width;
        Ok(())
    }

    fn date(&mut self, item: Item) -> Result<(), Reason> {
        let number = der::number(self.there(item, 3)?);
        self.keeps(Date::from_number(number).is_some(), item, Rule::Day, 3)?;
        self.place += 3;
        Ok(())
    }

    /// A DER length's value and width; the walk stays at it.
    fn der_length(&self, item: Item) -> Result<(usize, usize), Reason> {
        let first = self.byte(item)?;
        if first < 0x80 {
            return Ok((first.into(), 1));
        }
        self.keeps((0x81..=0x84).contains(&first), item, Rule::BeginsLength, 1)?;
        let (k, rest) = (usize::from(first - 0x80), self.rest());
        let form = rest.get(1..=k).ok_or_else(|| breaks(item, Rule::RestThere, self.place, rest.len()))?;
        let value = der::number(form);
        self.keeps(value >= der::least(k), item, Rule::Shortest, 1 + k)?;
        Ok((value, 1 + k))
    }

    fn value(&mut self, version: u8) -> Result<(), Reason> {
        let (size, width) =
            if version == 2 { (self.byte(Item::Length)?.into(), 1) } else { self.der_length(Item::Length)? };
        self.place += width;
        self.there(Item::Value, size)?;
        self.place += size;
        Ok(())
    }

    fn features(&mut self, version: u8) -> Result<(), Reason> {
        let mut tags = [0; 255];
        let mut count = 0;
        loop {
            let tag = self.one(Item::Tag, Rule::NotUsedBefore, |tag| tag == 0xFF || !tags[..count].contains(&tag))?;
            if tag == 0xFF {
                return Ok(());
            }
            tags[count] = tag;
            count += 1;
            self.value(version)?;
        }
    }

    fn signature(&mut self) -> Result<(), Reason> {
        let (size, width) = self.der_length(Item::SignatureLength)?;
        let good = matches!(size, 56 | 64 | 96 | 128 | 132);
        self.keeps(good, Item::SignatureLength, Rule::SignatureSize, width)?;
        self.place += width;
        self.there(Item::Signature, size)?;
        self.place += size;
        self.keeps(self.place == self.seal.len(), Item::End, Rule::NothingAfter, 1)
    }
}

fn accepted(seal: &[u8]) -> Result<(), Reason> {
    if seal.len() > 4096 {
        return Err(breaks(Item::Seal, Rule::NotTooLong, 4096, 1));
    }
    let mut walk = Walk { seal, place: 0 };
    walk.one(Item::Mark, Rule::Mark, |byte| byte == 0xDC)?;
    let version = walk.one(Item::Version, Rule::Version, |byte| byte == 2 || byte == 3)?;
    walk.country()?;
    if version == 2 {
        walk.names()?;
    } else {
        let length = walk.signer_and_length()?;
        walk.reference(length)?;
    }
    walk.date(Item::Issued)?;
    walk.date(Item::Signed)?;
    walk.one(Item::Definition, Rule::OneTo254, |byte| byte != 0 && byte != 255)?;
    walk.one(Item::Category, Rule::OneTo254, |byte| byte != 0 && byte != 255)?;
    walk.features(version)?;
    walk.signature()
}

pub fn why(seal: &[u8]) -> Reason {
    accepted(seal).err().unwrap_or_default()
}
