//! Inputs for a differential test: the same calls are put to two programs and the outcomes are compared.
//!
//! The calls are drawn from a seed, so that a run can be repeated. Legal contents are drawn first and then damaged in
//! one place or a few, as bytes drawn blindly hardly ever come past the country. The weights see to it that every
//! answer the base can give is frequent, and so is every reason why a seal is refused, and that a call is cheap on
//! average.
//!
//! A program is compared by answering the calls of [`Base`] in the types of this crate; for each call of [`Inputs`],
//! and for those that [`Call::beside`] puts beside it, then `run(&Reference, &call)` and `run(&program, &call)` must be
//! equal: number, place, every field and every lent byte.

mod codecs;
mod damage;
mod days;
mod forms;
mod names;
mod outcome;
mod random;
mod seals;
mod signatures;
mod walks;
mod writer;

pub use outcome::{lent, lent_table, run, Answer, Base, Outcome, Reference};

use crate::{Date, Header, Row, LONGEST_SEAL};
use random::Random;
use seals::Draft;

/// One call with all that is lent to it. A room is the length of a lent buffer.
#[derive(Debug, Clone, PartialEq, Eq)]
pub enum Call {
    Read { seal: Vec<u8>, table_room: usize, text_room: usize },
    Judge { seal: Vec<u8> },
    Why { seal: Vec<u8> },
    WalkOpen { seal: Vec<u8> },
    WalkNext { seal: Vec<u8>, at: usize },
    Shown { main: Vec<u8>, extension: Vec<u8>, tag: usize },
    Write { header: Header, text: Vec<u8>, rows: Vec<usize>, values: Vec<u8>, signature: Vec<u8>, room: usize },
    C40Read { bytes: Vec<u8>, room: usize },
    C40Write { text: Vec<u8>, room: usize },
    DateFromNumber(usize),
    DateToNumber(Date),
    IntegerRead(Vec<u8>),
    IntegerWrite(i64, usize),
    ToDer { n: usize, raw: Vec<u8>, room: usize },
    ToRaw { n: usize, der: Vec<u8>, room: usize },
    Hash(usize),
}

impl Call {
    /// The call's name, so that counts can be told apart.
    pub fn name(&self) -> &'static str {
        match self {
            Call::Read { .. } => "read",
            Call::Judge { .. } => "judge",
            Call::Why { .. } => "why",
            Call::WalkOpen { .. } => "walk_open",
            Call::WalkNext { .. } => "walk_next",
            Call::Shown { .. } => "shown",
            Call::Write { .. } => "write",
            Call::C40Read { .. } => "c40_read",
            Call::C40Write { .. } => "c40_write",
            Call::DateFromNumber(_) => "date_from_number",
            Call::DateToNumber(_) => "date_to_number",
            Call::IntegerRead(_) => "integer_read",
            Call::IntegerWrite(..) => "integer_write",
            Call::ToDer { .. } => "signature_to_der",
            Call::ToRaw { .. } => "signature_to_raw",
            Call::Hash(_) => "hash",
        }
    }

    /// The same seal, asked why it is refused; nothing where the call is no reading.
    pub fn why(&self) -> Option<Call> {
        match self {
            Call::Read { seal, .. } | Call::Judge { seal } => Some(Call::Why { seal: seal.clone() }),
            _ => None,
        }
    }

    /// The same seal, opened for a walk; nothing where the call is no reading.
    pub fn walk_open(&self) -> Option<Call> {
        match self {
            Call::Read { seal, .. } | Call::Judge { seal } => Some(Call::WalkOpen { seal: seal.clone() }),
            _ => None,
        }
    }

    /// The calls that are not drawn: they are put beside every reading that is.
    pub fn beside(&self) -> impl Iterator<Item = Call> {
        self.why().into_iter().chain(self.walk_open())
    }
}

/// Every answer that a call can give.
pub fn answers() -> impl Iterator<Item = usize> {
    (0..=12).chain(20..=28).chain(40..=47).chain(50..=51).chain(60..=63).chain([65])
}

/// The calls that follow from one seed, without end.
#[derive(Debug, Clone)]
pub struct Inputs {
    random: Random,
}

impl Inputs {
    pub fn new(seed: u64) -> Inputs {
        Inputs { random: Random::new(seed) }
    }

    /// The next call.
    #[allow(clippy::should_implement_trait)]
    pub fn next(&mut self) -> Call {
        let random = &mut self.random;
        match random.below(112) {
            0..=29 => read(random),
            30..=43 => Call::Judge { seal: seal(random).0 },
            44..=65 => writer::call(random),
            66..=71 => codecs::c40_read(random),
            72..=77 => codecs::c40_write(random),
            78..=80 => Call::DateFromNumber(codecs::date_number(random)),
            81..=83 => Call::DateToNumber(codecs::date(random)),
            84..=87 => Call::IntegerRead(codecs::integer(random)),
            88..=89 => codecs::integer_write(random),
            90..=93 => signatures::to_der(random),
            94..=97 => signatures::to_raw(random),
            98..=99 => Call::Hash(signatures::size(random)),
            100..=105 => walks::next(random),
            _ => walks::shown(random),
        }
    }
}

/// A legal seal or a damaged one, or no seal at all, and the draft behind it.
fn seal(random: &mut Random) -> (Vec<u8>, Draft) {
    let mut draft = Draft::legal(random);
    if random.one_in(100) {
        let size = random.within(LONGEST_SEAL, LONGEST_SEAL + 4);
        draft.fill_to(random, size);
    }
    if random.one_in(60) {
        draft.cramp(random);
    }
    let seal = match random.below(20) {
        0..=6 => draft.bytes(),
        7..=16 => damage::seal(random, &draft, 1),
        17..=18 => {
            let times = random.within(2, 4);
            damage::seal(random, &draft, times)
        }
        _ => noise(random),
    };
    (seal, draft)
}

/// Bytes drawn blindly, some with a front that takes them further.
fn noise(random: &mut Random) -> Vec<u8> {
    let fronts: [&[u8]; 4] = [b"", b"\xDC", b"\xDC\x02\xD9\xC5", b"\xDC\x03\xD9\xC5\xD9\xB7"];
    let mut bytes = random.pick(&fronts).to_vec();
    let more = if random.one_in(40) { random.below(2 * LONGEST_SEAL) } else { random.below(101) };
    bytes.extend(random.bytes(more));
    bytes
}

/// A reading in rooms that are mostly enough.
fn read(random: &mut Random) -> Call {
    let (seal, draft) = seal(random);
    let (features, text) = (draft.features.len(), draft.signer.len() + draft.reference.len());
    let rows = Row::WIDTH * features;
    let (table_room, text_room) = match random.below(9) {
        0 => (room_for_rows(random, features), random.room(text)),
        1 | 2 => (room_for_rows(random, features), text),
        3 => (rows, random.room(text)),
        4 => (rows, text),
        _ => (rows + random.below(8), text + random.below(8)),
    };
    Call::Read { seal, table_room, text_room }
}

/// A room for the rows of so many features: of any kind, or for rows of which all or some are a number short.
fn room_for_rows(random: &mut Random, features: usize) -> usize {
    let all_short = (Row::WIDTH - 1) * features;
    match random.below(4) {
        0 => all_short,
        1 => all_short + random.below(features),
        _ => random.room(Row::WIDTH * features),
    }
}
