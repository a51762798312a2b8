//! 200,000 drawn calls, answered by this crate alone.

mod common;

use std::collections::BTreeMap;

use common::{filled, frames_are_features, rows};
use reference::inputs::{answers, lent, lent_table, run, Answer, Call, Inputs, Outcome, Reference};
use reference::*;

const CALLS: usize = 200_000;

#[test]
fn every_answer_is_frequent() {
    let mut inputs = Inputs::new(1);
    let (mut all, mut of_call) = (BTreeMap::new(), BTreeMap::new());
    for _ in 0..CALLS {
        let call = inputs.next();
        let (number, _) = run(&Reference, &call).answer.told();
        *all.entry(number).or_insert(0) += 1;
        *of_call.entry((call.name(), number)).or_insert(0) += 1;
    }
    for ((call, number), count) in &of_call {
        println!("{call:18} {number:3} {count:7}");
    }
    println!("{all:?}");
    assert!(all.keys().copied().eq(answers()));
    for (number, count) in all {
        assert!(count >= CALLS / 5000, "{number} is given only {count} times");
    }
}

#[test]
fn a_refusal_is_a_number_and_a_place() {
    let mut inputs = Inputs::new(2);
    for _ in 0..CALLS {
        let call = inputs.next();
        let outcome = run(&Reference, &call);
        let (number, place) = outcome.answer.told();
        if number == 0 {
            assert_eq!(place, 0);
            continue;
        }
        assert!(outcome.untouched(), "{call:?}");
        let bare = match outcome.answer {
            // "On a refusal this length is the one further field that need not be 0."
            Answer::Reading(Reading { front, .. }) => {
                Answer::Reading(Reading { number, place, front, ..Reading::default() })
            }
            // Reasons and openings are not drawn.
            Answer::Reason(_) | Answer::Opened(_) => outcome.answer,
            Answer::Step(_) => Answer::Step(Step { number, place, ..Step::default() }),
            // A seal that is refused is named.
            Answer::Shown(Shown { which, .. }) => Answer::Shown(Shown { number, place, which, ..Shown::default() }),
            Answer::Filled(_) => Answer::Filled(Filled { number, place, ..Filled::default() }),
            Answer::Dated(_) => Answer::Dated(Dated { number, place, ..Dated::default() }),
            Answer::Numbered(_) => Answer::Numbered(Numbered { number, place, ..Numbered::default() }),
            Answer::Integer(_) => Answer::Integer(Integer { number, place, ..Integer::default() }),
            Answer::Hashed(_) => Answer::Hashed(Hashed { number, place, ..Hashed::default() }),
        };
        assert_eq!(outcome.answer, bare);
    }
}

/// An accepted seal, read and written anew out of its own bytes, is the same seal, and its rows frame its features.
fn writes_back(seal: &[u8], outcome: &Outcome, reading: Reading) {
    let (rows, text) = (Row::WIDTH * reading.count, 4 + reading.header.length);
    assert_eq!(outcome.table[rows..], lent_table(outcome.table.len())[rows..]);
    assert_eq!(outcome.bytes[text..], lent(outcome.bytes.len())[text..]);
    let signature = &seal[reading.signature.place..][..reading.signature.length];
    let table = &outcome.table[..rows];
    let again = filled(seal.len(), |out| write(&reading.header, &outcome.bytes[..text], table, seal, signature, out));
    assert_eq!(again.as_deref(), Ok(seal));
    frames_are_features(seal);
}

/// What is written reads back as the fields, tags, value bytes and signature given.
fn reads_back(seal: &[u8], header: &Header, text: &[u8], table: &[usize], values: &[u8], signature: &[u8]) {
    let given = Row::all(table).expect("a table in fours");
    let (mut room, mut names) = (vec![0; table.len()], vec![0; text.len()]);
    let reading = read(seal, &mut room, &mut names);
    assert_eq!((reading.number, reading.header, reading.count), (0, *header, given.len()));
    assert_eq!(names, text);
    for (given, found) in given.iter().zip(rows(seal)) {
        assert_eq!(given.tag, found.tag);
        let value = &values[given.value_place..][..given.value_length];
        assert_eq!(*value, seal[found.value_place..][..found.value_length]);
    }
    assert_eq!(seal[reading.signature.place..], *signature);
    assert_eq!(
        (reading.ends.seal, reading.ends.message),
        (seal.len(), reading.signature.place - if signature.len() < 128 { 2 } else { 3 })
    );
}

#[test]
fn accepted_seals_write_back_and_written_seals_read_back() {
    let mut inputs = Inputs::new(3);
    let (mut accepted, mut written) = (0, 0);
    for _ in 0..CALLS {
        let call = inputs.next();
        let outcome = run(&Reference, &call);
        match (&call, outcome.answer) {
            (Call::Read { seal, .. }, Answer::Reading(reading)) if reading.number == 0 => {
                accepted += 1;
                writes_back(seal, &outcome, reading);
            }
            (Call::Write { header, text, rows, values, signature, .. }, Answer::Filled(answer))
                if answer.number == 0 =>
            {
                written += 1;
                assert_eq!(outcome.bytes[answer.count..], lent(outcome.bytes.len())[answer.count..]);
                reads_back(&outcome.bytes[..answer.count], header, text, rows, values, signature);
            }
            _ => {}
        }
    }
    println!("accepted {accepted}, written {written}");
    assert!(accepted > CALLS / 20 && written > CALLS / 20);
}

/// The codecs give back what they were given.
fn codec_back(call: &Call, outcome: &Outcome) {
    let room = 8192;
    match (call, outcome.answer) {
        (Call::C40Read { bytes, .. }, Answer::Filled(answer)) => {
            assert_eq!(filled(room, |out| c40_write(&outcome.bytes[..answer.count], out)).as_ref(), Ok(bytes));
        }
        (Call::C40Write { text, .. }, Answer::Filled(answer)) => {
            assert_eq!(filled(room, |out| c40_read(&outcome.bytes[..answer.count], out)).as_ref(), Ok(text));
        }
        (Call::DateFromNumber(number), Answer::Dated(answer)) => assert_eq!(date_to_number(answer.date).value, *number),
        (Call::DateToNumber(date), Answer::Numbered(answer)) => assert_eq!(date_from_number(answer.value).date, *date),
        (Call::IntegerRead(bytes), Answer::Integer(answer)) => {
            assert_eq!(filled(room, |out| integer_write(answer.value, out)).as_ref(), Ok(bytes));
        }
        (Call::IntegerWrite(value, _), Answer::Filled(answer)) => {
            assert_eq!(integer_read(&outcome.bytes[..answer.count]), Integer { number: 0, place: 0, value: *value });
        }
        (Call::ToDer { n, raw, .. }, Answer::Filled(answer)) => {
            assert_eq!(filled(room, |out| signature_to_raw(*n, &outcome.bytes[..answer.count], out)).as_ref(), Ok(raw));
        }
        (Call::ToRaw { n, der, .. }, Answer::Filled(answer)) => {
            assert_eq!(answer.count, 2 * n);
            assert_eq!(filled(room, |out| signature_to_der(*n, &outcome.bytes[..answer.count], out)).as_ref(), Ok(der));
        }
        _ => {}
    }
}

#[test]
fn codecs_give_back_what_they_were_given() {
    let mut inputs = Inputs::new(4);
    for _ in 0..CALLS {
        let call = inputs.next();
        let outcome = run(&Reference, &call);
        if outcome.answer.told().0 == 0 {
            codec_back(&call, &outcome);
        }
    }
}
