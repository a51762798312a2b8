//! A call, an outcome and the counts, to be read by people.

use std::collections::BTreeMap;

use reference::inputs::{Call, Outcome};

use crate::{days, fronts, pairs, reasons, rows, walks};

/// How often, by call.
type ByCall = BTreeMap<&'static str, u64>;

/// An answer, and what is counted of it.
pub type Kind = (&'static str, &'static str);

/// How often each call gave each number, how often the calendar decided, how often a pair or a character did, how often
/// the tag's place in a row mattered, what walks and look-ups came to, which byte was the first hopeless one, and why
/// seals were refused.
#[derive(Debug, Default)]
pub struct Counts {
    pub answers: BTreeMap<usize, ByCall>,
    pub dates: BTreeMap<&'static str, ByCall>,
    pub pairs: BTreeMap<Kind, u64>,
    pub rows: BTreeMap<Kind, u64>,
    pub walks: BTreeMap<Kind, u64>,
    pub fronts: BTreeMap<Kind, u64>,
    pub reasons: reasons::Counts,
}

impl Counts {
    /// Counts what came of one call.
    pub fn add(&mut self, call: &Call, outcome: &Outcome) {
        *self.answers.entry(outcome.answer.told().0).or_default().entry(call.name()).or_default() += 1;
        if let Some(decided) = days::decided(call, outcome) {
            *self.dates.entry(decided).or_default().entry(call.name()).or_default() += 1;
        }
        pairs::decided(call, outcome).into_iter().for_each(|kind| *self.pairs.entry(kind).or_default() += 1);
        rows::decided(call, outcome).into_iter().for_each(|(kind, times)| *self.rows.entry(kind).or_default() += times);
        walks::decided(call, outcome).into_iter().for_each(|kind| *self.walks.entry(kind).or_default() += 1);
        fronts::decided(call, outcome).into_iter().for_each(|kind| *self.fronts.entry(kind).or_default() += 1);
        self.reasons.add(call, outcome);
    }
}

fn hex(bytes: &[u8]) -> String {
    bytes.iter().map(|byte| format!("{byte:02X}")).collect()
}

/// Everything given to a call, bytes in hexadecimal.
pub fn given(call: &Call) -> String {
    let given = match call {
        Call::Read { seal, table_room, text_room } => {
            format!("table room {table_room}, text room {text_room}\n  seal {}", hex(seal))
        }
        Call::Judge { seal } | Call::Why { seal } | Call::WalkOpen { seal } => format!("\n  seal {}", hex(seal)),
        Call::WalkNext { seal, at } => format!("at {at}\n  seal {}", hex(seal)),
        Call::Shown { main, extension, tag } => {
            format!("tag {tag}\n  main {}\n  extension {}", hex(main), hex(extension))
        }
        Call::Write { header, text, rows, values, signature, room } => format!(
            "room {room}\n  {header:?}\n  text {}\n  rows {rows:X?}\n  values {}\n  signature {}",
            hex(text),
            hex(values),
            hex(signature)
        ),
        Call::C40Read { bytes, room } => format!("room {room}\n  bytes {}", hex(bytes)),
        Call::C40Write { text, room } => format!("room {room}\n  text {}", hex(text)),
        Call::DateFromNumber(number) => format!("{number}"),
        Call::DateToNumber(date) => format!("{date:?}"),
        Call::IntegerRead(bytes) => format!("\n  bytes {}", hex(bytes)),
        Call::IntegerWrite(value, room) => format!("{value}, room {room}"),
        Call::ToDer { n, raw, room } => format!("n {n}, room {room}\n  raw {}", hex(raw)),
        Call::ToRaw { n, der, room } => format!("n {n}, room {room}\n  der {}", hex(der)),
        Call::Hash(n) => format!("{n}"),
    };
    format!("{} {given}", call.name())
}

/// An answer, and the lent memory after it.
pub fn outcome(outcome: &Outcome) -> String {
    let Outcome { answer, table, bytes } = outcome;
    format!("{answer:?}\n  table {table:X?}\n  bytes {}", hex(bytes))
}

/// One line for each number: how often it was given, and by which calls. Then the same for what the calendar decided,
/// for each refusal of a pair or a character where it stood and what was wrong, what was counted of rows, of walks and
/// of look-ups, the first hopeless bytes by item, and the reasons by item and by rule.
pub fn counts(counts: &Counts) -> String {
    let times = |by_call: &ByCall| {
        let calls: Vec<_> = by_call.iter().map(|(name, count)| format!("{name} {count}")).collect();
        format!("{:9}   {}\n", by_call.values().sum::<u64>(), calls.join(", "))
    };
    let answers = counts.answers.iter().map(|(number, by_call)| format!("{number:6} {}", times(by_call)));
    let dates = counts.dates.iter().map(|(decided, by_call)| format!("date {decided}\n       {}", times(by_call)));
    let pairs = pairs::ALL.iter().map(|(answer, kinds)| format!("pair {}", by_kind(answer, kinds, &counts.pairs)));
    let rows = rows::ALL.iter().map(|(answer, kinds)| format!("row {}", by_kind(answer, kinds, &counts.rows)));
    let walks = walks::ALL.iter().map(|(answer, kinds)| by_kind(answer, kinds, &counts.walks));
    let fronts = fronts::ALL.iter().map(|(item, kinds)| by_kind(item, kinds, &counts.fronts));
    answers.chain(dates).chain(pairs).chain(rows).chain(walks).chain(fronts).chain([counts.reasons.show()]).collect()
}

/// An answer, and a line of how often each kind of it was counted.
pub fn by_kind(answer: &'static str, kinds: &[&'static str], counts: &BTreeMap<Kind, u64>) -> String {
    let times = |kind| counts.get(&(answer, kind)).unwrap_or(&0);
    let kinds: Vec<_> = kinds.iter().map(|&kind| format!("{kind} {}", times(kind))).collect();
    format!("{answer}\n       {}\n", kinds.join(", "))
}
