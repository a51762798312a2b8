//! What walks, steps and look-ups came to (document 02, Ticket 2), so that it can be counted.

use reference::inputs::{Answer, Call, Outcome};
use reference::{judge, walk, Opened, Shown, Step, EXTENSION, LONGEST_SEAL, MAIN};

use crate::show::Kind;

/// Openings, by how many features the walk has.
const OPENED: &str = "walk 0 opened";
const OF_NONE: &str = "no feature";
const OF_ONE: &str = "one";
const OF_MORE: &str = "more";
const OF_ALL: &str = "255";
const NOT_OPENED: &str = "walk refused, not opened, by number";

/// Steps that find a feature: one of an accepted seal; in an accepted seal, but not where a feature of it begins; in a
/// refused seal, at a tag used before and past the longest seal among others.
const STEP: &str = "step 0";
const OF_SEAL: &str = "feature of the seal";
const BESIDE: &str = "beside the seal's features";
const IN_REFUSED: &str = "in a refused seal";
const USED: &str = "tag used before";
const PAST_LONGEST: &str = "past 4,096";
const TO_END: &str = "to the last byte";
const EMPTY: &str = "empty value";
const PLAIN: &str = "plain length";
const DER_ONE: &str = "DER length of 1 byte";
const DER_TWO: &str = "of 2";
const DER_MORE: &str = "of more";

/// Steps that find none.
const END: &str = "step 51";
const CLOSED: &str = "place 0";
const NO_VERSION: &str = "no version";
const AT_END: &str = "place at the end";
const PAST_END: &str = "past it";
const GREATEST: &str = "the greatest there is";
const MARK: &str = "FF";
const NO_LENGTH: &str = "no length";
const MALFORMED: &str = "length malformed";
const LENGTH_CUT: &str = "length cut";
const NOT_SHORTEST: &str = "not shortest";
const VALUE_CUT: &str = "value cut";

/// Look-ups, by what they show.
const FROM_EXTENSION: &str = "shown 0 out of the extension";
const FROM_MAIN: &str = "shown 0 out of the main seal";
const IN_BOTH: &str = "tag in both";
const IN_ONE: &str = "in this one";
const SAME: &str = "same version";
const OTHER: &str = "other versions";
const TWICE: &str = "one slice lent twice";
const NEITHER: &str = "shown 50";
const TO_254: &str = "tag to 254";
const TAG_255: &str = "tag 255";
const OVER: &str = "tag over 255";
const LAST_BYTE: &str = "its last byte a tag that is there";

/// Look-ups that are refused by a seal, and its numbers.
const MAIN_REFUSED: &str = "shown, main seal refused";
const EXTENSION_REFUSED: &str = "shown, extension refused";
const HAS_TAG: &str = "the other has the tag";
const BOTH: &str = "both refused";
const NUMBERS: [&str; 11] = ["1", "2", "3", "4", "5", "6", "7", "8", "9", "10", "11"];
const OF_MAIN: &str = "shown, main seal refused, by number";
const OF_EXTENSION: &str = "shown, extension refused, by number";

/// All that a run must have seen, answer by answer.
pub const ALL: [(&str, &[&str]); 11] = [
    (OPENED, &[OF_NONE, OF_ONE, OF_MORE, OF_ALL]),
    (NOT_OPENED, &NUMBERS),
    (STEP, &[OF_SEAL, BESIDE, IN_REFUSED, USED, PAST_LONGEST, TO_END, EMPTY, PLAIN, DER_ONE, DER_TWO, DER_MORE]),
    (
        END,
        &[
            CLOSED,
            NO_VERSION,
            AT_END,
            PAST_END,
            GREATEST,
            MARK,
            NO_LENGTH,
            MALFORMED,
            LENGTH_CUT,
            NOT_SHORTEST,
            VALUE_CUT,
        ],
    ),
    (FROM_EXTENSION, &[IN_BOTH, IN_ONE, EMPTY, SAME, OTHER, TWICE]),
    (FROM_MAIN, &[IN_ONE, EMPTY, SAME, OTHER]),
    (NEITHER, &[TO_254, TAG_255, OVER, LAST_BYTE, SAME, OTHER, TWICE]),
    (MAIN_REFUSED, &[HAS_TAG, BOTH, TWICE]),
    (EXTENSION_REFUSED, &[HAS_TAG]),
    (OF_MAIN, &NUMBERS),
    (OF_EXTENSION, &NUMBERS),
];

/// A step at every place of a reading's seal, at the places behind it and at the greatest; none of a long seal.
pub fn every_place(call: &Call) -> Vec<Call> {
    match call {
        Call::Read { seal, .. } | Call::Judge { seal } if seal.len() < 300 => {
            let places = (0..seal.len() + 3).chain([LONGEST_SEAL, 1 << 32, usize::MAX - 1, usize::MAX]);
            places.map(|at| Call::WalkNext { seal: seal.clone(), at }).collect()
        }
        _ => vec![],
    }
}

/// What is to be counted of a call; nothing where it is no walk, step or look-up.
pub fn decided(call: &Call, outcome: &Outcome) -> Vec<Kind> {
    match (call, outcome.answer) {
        (Call::WalkOpen { seal }, Answer::Opened(opened)) => vec![opening(seal, opened)],
        (Call::WalkNext { seal, at }, Answer::Step(step)) if step.number == 0 => found(seal, *at, step),
        (Call::WalkNext { seal, at }, Answer::Step(_)) => vec![(END, ended(seal, *at))],
        (Call::Shown { main, extension, tag }, Answer::Shown(shown)) => looked_up(main, extension, *tag, shown),
        _ => vec![],
    }
}

/// The kinds that hold of an answer.
fn of(answer: &'static str, kinds: &[(&'static str, bool)]) -> Vec<Kind> {
    kinds.iter().filter(|(_, holds)| *holds).map(|&(kind, _)| (answer, kind)).collect()
}

fn opening(seal: &[u8], opened: Opened) -> Kind {
    match (opened.number, walk(seal).len()) {
        (0, 0) => (OPENED, OF_NONE),
        (0, 1) => (OPENED, OF_ONE),
        (0, 255) => (OPENED, OF_ALL),
        (0, _) => (OPENED, OF_MORE),
        (number, _) => (NOT_OPENED, NUMBERS[number - 1]),
    }
}

fn found(seal: &[u8], at: usize, step: Step) -> Vec<Kind> {
    let (verdict, rows) = (judge(seal), walk(seal));
    let of_seal = rows.contains(&step.row);
    let (three, width) = (seal[1] == 2, step.row.value_place - at - 1);
    let kinds = [
        (OF_SEAL, of_seal),
        (BESIDE, verdict.number == 0 && !of_seal),
        (IN_REFUSED, verdict.number != 0),
        (USED, (verdict.number, verdict.place) == (9, at)),
        (PAST_LONGEST, step.at > LONGEST_SEAL),
        (TO_END, step.at == seal.len()),
        (EMPTY, step.row.value_length == 0),
        (PLAIN, three),
        (DER_ONE, !three && width == 1),
        (DER_TWO, !three && width == 2),
        (DER_MORE, !three && width > 2),
    ];
    of(STEP, &kinds)
}

/// Why a step finds no feature.
fn ended(seal: &[u8], at: usize) -> &'static str {
    let version = seal.get(1).copied();
    match seal.get(at..) {
        _ if at == 0 => CLOSED,
        None if at == usize::MAX => GREATEST,
        None => PAST_END,
        Some([]) => AT_END,
        _ if version != Some(2) && version != Some(3) => NO_VERSION,
        Some([0xFF, ..]) => MARK,
        Some([_]) => NO_LENGTH,
        Some([_, 0x80 | 0x85..=0xFF, ..]) if version == Some(3) => MALFORMED,
        Some([_, first @ 0x81..=0x84, digits @ ..]) if version == Some(3) => match usize::from(first - 0x80) {
            more if digits.len() < more => LENGTH_CUT,
            more if digits[0] == 0 || (more == 1 && digits[0] < 128) => NOT_SHORTEST,
            _ => VALUE_CUT,
        },
        Some(_) => VALUE_CUT,
    }
}

fn looked_up(main: &[u8], extension: &[u8], tag: usize, shown: Shown) -> Vec<Kind> {
    let has = |seal: &[u8], tag: usize| walk(seal).iter().any(|row| row.tag == tag);
    let (same, twice) = (main.get(1) == extension.get(1), main == extension);
    let versions = [(SAME, same), (OTHER, !same), (TWICE, twice)];
    let (empty, in_main) = ((EMPTY, shown.value.length == 0), has(main, tag));
    match (shown.number, shown.which) {
        (0, EXTENSION) => {
            [of(FROM_EXTENSION, &[(IN_BOTH, in_main), (IN_ONE, !in_main), empty]), of(FROM_EXTENSION, &versions)]
                .concat()
        }
        (0, _) => of(FROM_MAIN, &[(IN_ONE, true), empty, versions[0], versions[1]]),
        (50, _) => {
            let last_byte = tag > 255 && (has(main, tag % 256) || has(extension, tag % 256));
            let numbers = [(TO_254, tag < 255), (TAG_255, tag == 255), (OVER, tag > 255), (LAST_BYTE, last_byte)];
            [of(NEITHER, &numbers), of(NEITHER, &versions)].concat()
        }
        (number, MAIN) => {
            let both = judge(extension).number != 0;
            let kinds = [(HAS_TAG, has(extension, tag)), (BOTH, both && !twice), (TWICE, twice)];
            [of(MAIN_REFUSED, &kinds), vec![(OF_MAIN, NUMBERS[number - 1])]].concat()
        }
        (number, _) => {
            [of(EXTENSION_REFUSED, &[(HAS_TAG, in_main)]), vec![(OF_EXTENSION, NUMBERS[number - 1])]].concat()
        }
    }
}
