//! The first hopeless byte (document 02, Ticket 12): "the length of the longest front part of the input with which some
//! accepted seal begins".
//!
//! It is searched for. What may stand next after some bytes is a [`State`] of the layout. From a state every next byte
//! is tried, and so on, for the fewest bytes that complete a seal; what was found is kept by state, for all calls.
//! Bytes are hopeful if the fewest behind them end at 4,096 or before. The reader is not asked, and nowhere does it say
//! which bytes are hopeful or how much room an item needs.

use std::collections::{BTreeSet, HashMap};
use std::sync::{LazyLock, Mutex, PoisonError};

use crate::{c40, dates, der, names, LONGEST_SEAL, SIGNATURE_SIZES};

/// What stands next: one item of the layout, or of a text one pair, as each pair is good or not by itself.
#[derive(Debug, Clone, Copy, PartialEq, Eq, Hash, Default)]
enum Next {
    #[default]
    Mark,
    Version,
    Country,
    /// The first three characters of the signer.
    Signer,
    /// Version 4: the signer's last character, and L.
    SignerAndLength,
    /// Letters and digits, so many. In version 3 the signer's last character is one of them.
    Reference(usize),
    Issued,
    Signed,
    Definition,
    Category,
    Tag,
    Length,
    SignatureLength,
    End,
}

/// A state of the layout: what stands next and which bytes of it are there, in which version, 0 before it is told, and
/// how many tags are used. Which ones these are does not matter to what can follow.
#[derive(Debug, Clone, PartialEq, Eq, Hash, Default)]
struct State {
    next: Next,
    there: Vec<u8>,
    version: usize,
    used: usize,
}

/// A state, and how many bytes come before it of which any serve: those of a value or of the signature.
type Step = (usize, State);

/// The characters of a pair that must have so many.
fn characters(count: usize, pair: &[u8]) -> Option<Vec<u8>> {
    c40::decode(pair).ok().filter(|text| text.len() == count)
}

impl State {
    /// How many bytes the item has, where that is known beforehand.
    fn width(&self) -> usize {
        match self.next {
            Next::Country | Next::Signer | Next::SignerAndLength | Next::Reference(_) => 2,
            Next::Issued | Next::Signed => 3,
            _ => 1,
        }
    }

    /// "The signature's length is a DER length in both", and a feature's in version 4.
    fn is_der(&self) -> bool {
        self.next == Next::SignatureLength || (self.next == Next::Length && self.version == 4)
    }

    /// The state with one byte more; nothing if the item is whole then and not good, or if no more bytes may stand.
    fn with(&self, byte: u8) -> Option<Step> {
        let there = [&self.there[..], &[byte]].concat();
        if self.is_der() {
            return self.with_der(there);
        }
        if there.len() < self.width() {
            return Some((0, State { there, ..*self }));
        }
        let mut state = State { next: self.behind(&there)?, there: Vec::new(), ..*self };
        match self.next {
            Next::Version => state.version = usize::from(byte) + 1,
            Next::Tag if byte < 0xFF => state.used += 1,
            Next::Length => return Some((usize::from(byte), state)),
            _ => {}
        }
        Some((0, state))
    }

    /// What stands behind the item if these bytes, which are all it has, are good.
    fn behind(&self, there: &[u8]) -> Option<Next> {
        let three = || characters(3, there);
        match self.next {
            Next::Mark => (there == [0xDC]).then_some(Next::Version),
            Next::Version => (there == [0x02] || there == [0x03]).then_some(Next::Country),
            Next::Country => {
                let country: Vec<u8> = three()?.iter().map(|&c| if c == b' ' { b'<' } else { c }).collect();
                names::is_country(&country.try_into().ok()?).then_some(Next::Signer)
            }
            Next::Signer => {
                let signer = [three()?, vec![b'A']].concat();
                let behind = if self.version == 3 { Next::Reference(6) } else { Next::SignerAndLength };
                names::is_signer(&signer).then_some(behind)
            }
            Next::SignerAndLength => {
                let text = three()?;
                let length = names::length_of(&text[1..])?;
                names::is_reference(&text[..1]).then_some(Next::Reference(length))
            }
            Next::Reference(count) => {
                let own = count.min(3);
                let behind = if count > own { Next::Reference(count - own) } else { Next::Issued };
                names::is_reference(&characters(own, there)?).then_some(behind)
            }
            Next::Issued => dates::from_bytes(there).map(|_| Next::Signed),
            Next::Signed => dates::from_bytes(there).map(|_| Next::Definition),
            Next::Definition => (1..=254).contains(&there[0]).then_some(Next::Category),
            Next::Category => (1..=254).contains(&there[0]).then_some(Next::Tag),
            // "Features: 0 to 255, tags 0 to 254, no tag twice."
            Next::Tag if there == [0xFF] => Some(Next::SignatureLength),
            Next::Tag => (self.used < 255).then_some(Next::Length),
            Next::Length => Some(Next::Tag),
            Next::SignatureLength | Next::End => None,
        }
    }

    /// A DER length with these bytes there: the same state while it is cut, else what stands behind it.
    fn with_der(&self, there: Vec<u8>) -> Option<Step> {
        let signature = self.next == Next::SignatureLength;
        match der::length(&there) {
            Err(der::Fault::Cut) => Some((0, State { there, ..*self })),
            Err(der::Fault::Wrong) => None,
            Ok((size, _)) if signature && !SIGNATURE_SIZES.iter().any(|n| 2 * n == size) => None,
            Ok((size, _)) => Some((size, self.behind_any())),
        }
    }

    /// What stands behind the bytes that a length tells of.
    fn behind_any(&self) -> State {
        let next = if self.next == Next::SignatureLength { Next::End } else { Next::Tag };
        State { next, there: Vec::new(), ..*self }
    }
}

/// What was found so far: from a state, the fewest bytes that complete a seal, or that none do; and in a DER length,
/// whatever tags are used, the fewest that complete it and the bytes that it tells of.
#[derive(Default)]
struct Search {
    seals: HashMap<State, Option<usize>>,
    lengths: HashMap<State, Option<usize>>,
}

static SEARCH: LazyLock<Mutex<Search>> = LazyLock::new(Mutex::default);

impl Search {
    fn fewest(&mut self, state: &State) -> Option<usize> {
        if let Some(&found) = self.seals.get(state) {
            return found;
        }
        let mut next = (0..=255).filter_map(|byte| Some(1 + self.fewest_after(state.with(byte)?)?));
        let found = match state.next {
            Next::End => Some(0),
            _ if state.is_der() => self.fewest_der(state),
            Next::Version | Next::SignerAndLength | Next::Tag | Next::Length => next.min(),
            // Whatever completes it, it is as long and the same follows, so the first will do.
            _ => next.next(),
        };
        self.seals.insert(state.clone(), found);
        found
    }

    /// The same over all DER lengths that begin so. One over 4,096 has no room in any seal.
    fn fewest_der(&mut self, state: &State) -> Option<usize> {
        let length = *self.lengths.entry(State { used: 0, ..state.clone() }).or_insert_with_key(|state| {
            let forms = (0..=LONGEST_SEAL).map(der::length_bytes).filter(|form| form.starts_with(&state.there));
            forms.filter_map(|form| Some(form.len() - state.there.len() + state.with_der(form)?.0)).min()
        });
        self.fewest_after((length?, state.behind_any()))
    }

    fn fewest_after(&mut self, (any, state): Step) -> Option<usize> {
        Some(any + self.fewest(&state)?)
    }
}

/// So many bytes: "some accepted seal starts with those", and "none with one byte more of the input, if it has more".
pub fn front(input: &[u8]) -> usize {
    let mut search = SEARCH.lock().unwrap_or_else(PoisonError::into_inner);
    let (mut state, mut place, mut tags) = (State::default(), 0, BTreeSet::new());
    while let Some(&byte) = input.get(place) {
        let used = state.next == Next::Tag && !tags.insert(byte);
        let Some((any, next)) = state.with(byte).filter(|_| !used) else { return place };
        let end = place + 1 + any;
        match search.fewest(&next) {
            Some(fewest) if end + fewest <= LONGEST_SEAL => (place, state) = (end, next),
            _ => return place,
        }
    }
    place.min(input.len())
}
