//! The front part of an input: the longest with which some accepted seal begins. A walk that ends at the first byte
//! that no accepted seal has there; only a refused seal needs it.
use crate::face::Date;
use crate::reader::{hex_value, is_country, is_reference, is_signer};
use crate::text;

const LONGEST_SEAL: usize = 4096;

/// The least that a signature zone takes: FF, 38 and 56 bytes.
const ZONE: usize = 58;

/// The input, and how far it is good.
struct Walk<'a> {
    seal: &'a [u8],
    place: usize,
}

/// Whether a pair of C40 stands for characters of a kind.
fn fits(pair: [u8; 2], kind: impl Fn(&[u8]) -> bool) -> bool {
    text::characters(pair).is_some_and(|(characters, count)| kind(&characters[..count]))
}

fn is_country_pair(t: &[u8]) -> bool {
    t.try_into().is_ok_and(is_country)
}

/// The signer's first three characters.
fn is_signer_pair(t: &[u8]) -> bool {
    matches!(*t, [a, b, c] if is_signer(&[a, b, c, b'A']))
}

/// The length of the reference, by the three characters that the signer's last begins.
fn length_in(t: &[u8]) -> Option<usize> {
    match *t {
        [signer, high, low] if is_reference(&signer) => Some(hex_value(high)? * 16 + hex_value(low)?),
        _ => None,
    }
    .filter(|&length| length > 0)
}

/// Whether a number MMDDYYYY lies from the first day of its month to the last; 29 February was last in 9996.
fn is_in_month(number: usize) -> bool {
    let last = match number / 1_000_000 {
        1 | 3 | 5 | 7 | 8 | 10 | 12 => 319_999,
        4 | 6 | 9 | 11 => 309_999,
        2 => 299_996,
        _ => return false,
    };
    (10_001..=last).contains(&(number % 1_000_000))
}

/// Whether these bytes begin a date. The days of a month lie close together, and a month takes more numbers than one
/// byte leaves open: so the least number that is left and the greatest tell.
fn begins_date(bytes: &[u8]) -> bool {
    let number = |rest| bytes.iter().chain(&[rest; 3]).take(3).fold(0, |value, &byte| value << 8 | usize::from(byte));
    match bytes.len() {
        3 => Date::from_number(number(0)).is_some(),
        _ => is_in_month(number(0)) || is_in_month(number(0xFF)),
    }
}

/// An item ends the walk with `None`, at the byte that is hopeless or at the end of the input.
impl<'a> Walk<'a> {
    fn rest(&self) -> &'a [u8] {
        self.seal.get(self.place..).unwrap_or_default()
    }

    /// One byte with which some seal goes on.
    fn byte(&mut self, hopeful: impl Fn(u8) -> bool) -> Option<u8> {
        let byte = self.rest().first().copied().filter(|&byte| hopeful(byte))?;
        self.place += 1;
        Some(byte)
    }

    /// So many bytes of any kind, or those of them that are there.
    fn any(&mut self, size: usize) -> Option<()> {
        let there = self.rest().len();
        self.place += size.min(there);
        (size <= there).then_some(())
    }

    fn pair(&mut self, kind: impl Fn(&[u8]) -> bool) -> Option<[u8; 2]> {
        match *self.rest() {
            [first, second, ..] if fits([first, second], &kind) => {
                self.place += 2;
                Some([first, second])
            }
            _ => {
                self.byte(|first| (0..=255).any(|second| fits([first, second], &kind)))?;
                None
            }
        }
    }

    /// So many letters and digits.
    fn reference(&mut self, size: usize) -> Option<()> {
        for start in (0..size).step_by(3) {
            self.pair(|t| t.len() == 3.min(size - start) && t.iter().all(is_reference))?;
        }
        Some(())
    }

    fn names(&mut self, version: u8) -> Option<()> {
        self.pair(is_signer_pair)?;
        if version == 2 {
            return self.reference(6);
        }
        let (characters, _) = text::characters(self.pair(|t| length_in(t).is_some())?)?;
        self.reference(length_in(&characters)?)
    }

    fn date(&mut self) -> Option<()> {
        let (seal, start) = (self.seal, self.place);
        for place in start..start + 3 {
            self.byte(|_| begins_date(&seal[start..=place]))?;
        }
        Some(())
    }

    /// Whether so many bytes from here on leave room for a signature.
    fn has_room(&self, size: usize) -> bool {
        self.place + size + ZONE <= LONGEST_SEAL
    }

    /// A length of one byte, or of 81 or 82 and as many more as that says, whose least value must have room.
    fn length(&mut self, version: u8) -> Option<usize> {
        let at = Walk { ..*self };
        let first = self.byte(|first| match first {
            _ if version == 2 || first < 0x80 => at.has_room(1 + usize::from(first)),
            0x81 => at.has_room(2 + 0x80),
            0x82 => at.has_room(3 + 0x100),
            _ => false,
        })?;
        if version == 2 || first < 0x80 {
            return Some(first.into());
        }
        let at = Walk { ..*self };
        if first == 0x81 {
            return self.byte(|low| low >= 0x80 && at.has_room(1 + usize::from(low))).map(usize::from);
        }
        let high = self.byte(|high| high > 0 && at.has_room(2 + usize::from(high) * 256))?;
        let size = |low| usize::from(high) * 256 + usize::from(low);
        self.byte(|low| at.has_room(2 + size(low))).map(size)
    }

    fn features(&mut self, version: u8) -> Option<()> {
        let mut used = [false; 256];
        loop {
            let has_room = self.has_room(2);
            let tag = self.byte(|tag| tag == 0xFF || (has_room && !used[usize::from(tag)]))?;
            if tag == 0xFF {
                return Some(());
            }
            used[usize::from(tag)] = true;
            let size = self.length(version)?;
            self.any(size)?;
        }
    }

    fn signature(&mut self) -> Option<()> {
        let left = LONGEST_SEAL - self.place;
        let first = self.byte(|first| match first {
            56 | 64 | 96 => usize::from(first) < left,
            0x81 => 1 + 128 < left,
            _ => false,
        })?;
        if first != 0x81 {
            return self.any(first.into());
        }
        let size = self.byte(|size| matches!(size, 128 | 132) && 1 + usize::from(size) < left)?;
        self.any(size.into())
    }

    fn seal(&mut self) -> Option<()> {
        self.byte(|byte| byte == 0xDC)?;
        let version = self.byte(|byte| byte == 2 || byte == 3)?;
        self.pair(is_country_pair)?;
        self.names(version)?;
        self.date()?;
        self.date()?;
        self.byte(|byte| byte != 0 && byte != 255)?;
        self.byte(|byte| byte != 0 && byte != 255)?;
        self.features(version)?;
        self.signature()
    }
}

pub fn front(seal: &[u8]) -> usize {
    let mut walk = Walk { seal, place: 0 };
    walk.seal();
    walk.place
}
