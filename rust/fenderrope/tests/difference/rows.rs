//! Where the tag's place in a row mattered (document 02, Ticket 10), so that it can be counted.

use fenderrope::TEXT_MOST;
use reference::inputs::{run, Answer, Call, Outcome, Reference};
use reference::{judge, read, Filled, Reading, Row};

use crate::show::Kind;

/// The answers, by call.
const READ: &str = "0 read";
const NO_ROOM: &str = "12";
const WRITTEN: &str = "0 written, second numbers";
const NO_ROWS: &str = "24, table not in fours";

/// Of a seal with features that was read: its tag places, which were all compared, and that the room was just enough.
const COMPARED: &str = "tag places compared";
const ENOUGH: &str = "4 numbers a feature lent";

/// Of 12, where the room for the text was enough: how short the table was.
const THREE: &str = "3 numbers a feature lent";
const UNDER_FOUR: &str = "over 3 and under 4 lent";
const ONE_SHORT: &str = "one number short";

/// Of a seal that was written: whether the second numbers of its rows, which are ignored, are the tags' true places.
const ALL_TRUE: &str = "all true";
const OTHER: &str = "one untrue";
const GREATEST: &str = "one the greatest there is";

/// Of a table that was refused as it is not in fours: all, those in threes, and those that would be good without the
/// numbers past the last whole row.
const ALL_TABLES: &str = "all";
const IN_THREES: &str = "in threes";
const WHOLE_ROWS_GOOD: &str = "whole rows good";

/// All that a run must have seen, answer by answer.
pub const ALL: [(&str, &[&str]); 4] = [
    (READ, &[COMPARED, ENOUGH]),
    (NO_ROOM, &[THREE, UNDER_FOUR, ONE_SHORT]),
    (WRITTEN, &[ALL_TRUE, OTHER, GREATEST]),
    (NO_ROWS, &[ALL_TABLES, IN_THREES, WHOLE_ROWS_GOOD]),
];

/// What is to be counted of a call, and how often; nothing where no row mattered.
pub fn decided(call: &Call, outcome: &Outcome) -> Vec<(Kind, u64)> {
    match (call, outcome.answer) {
        (Call::Read { table_room, .. }, Answer::Reading(Reading { number: 0, count, .. })) if count > 0 => {
            let enough = *table_room == Row::WIDTH * count;
            vec![((READ, COMPARED), count as u64), ((READ, ENOUGH), u64::from(enough))]
        }
        (Call::Read { seal, table_room, text_room }, Answer::Reading(Reading { number: 12, .. })) => {
            once(NO_ROOM, no_room(seal, *table_room, *text_room))
        }
        (Call::Write { rows, .. }, Answer::Filled(Filled { number: 0, count, .. })) if !rows.is_empty() => {
            once(WRITTEN, written(rows, &outcome.bytes[..count]))
        }
        (Call::Write { rows, .. }, Answer::Filled(Filled { number: 24, .. })) if Row::all(rows).is_none() => {
            once(NO_ROWS, no_fours(call, rows.len()))
        }
        _ => vec![],
    }
}

/// What holds of an answer, each counted once.
fn once(answer: &'static str, kinds: [(&'static str, bool); 3]) -> Vec<(Kind, u64)> {
    kinds.map(|(kind, holds)| ((answer, kind), u64::from(holds))).to_vec()
}

fn no_room(seal: &[u8], table_room: usize, text_room: usize) -> [(&'static str, bool); 3] {
    let Reading { count, header, .. } = judge(seal);
    let (three, four) = ((Row::WIDTH - 1) * count, Row::WIDTH * count);
    let by_table = text_room >= 4 + header.length;
    [
        (THREE, by_table && table_room == three),
        (UNDER_FOUR, by_table && (three + 1..four).contains(&table_room)),
        (ONE_SHORT, by_table && table_room + 1 == four),
    ]
}

fn written(given: &[usize], seal: &[u8]) -> [(&'static str, bool); 3] {
    let (mut table, mut text) = (vec![0; given.len()], [0; TEXT_MOST]);
    assert_eq!(read(seal, &mut table, &mut text).number, 0, "what is written is read");
    let second = |table| Row::all(table).into_iter().flatten().map(|row| row.tag_place);
    let all_true = second(given).eq(second(&table));
    [(ALL_TRUE, all_true), (OTHER, !all_true), (GREATEST, second(given).any(|number| number == usize::MAX))]
}

fn no_fours(call: &Call, length: usize) -> [(&'static str, bool); 3] {
    let mut whole = call.clone();
    if let Call::Write { rows, .. } = &mut whole {
        rows.truncate(length - length % Row::WIDTH);
    }
    let good = run(&Reference, &whole).answer.told().0 != 24;
    [(ALL_TABLES, true), (IN_THREES, length % (Row::WIDTH - 1) == 0), (WHOLE_ROWS_GOOD, good)]
}
