//! There and back through the library: an accepted seal is written anew, a written seal is read.

use fenderrope::{judge, read, walk, why, Feature, Reading, Refusal};
use reference::inputs::{lent, Answer, Call, Outcome};
use reference::{Header, Row};

use crate::lent::{bytes, numbers};
use crate::types::header_in;
use crate::wrapper::row;

/// What is wrong with the way back, if anything. Only seals that were accepted or written have one.
pub fn back(call: &Call, outcome: &Outcome) -> Result<(), String> {
    match (call, outcome.answer) {
        (Call::Read { seal, .. } | Call::Judge { seal }, Answer::Reading(answer)) if answer.number == 0 => {
            accepted(seal)
        }
        (Call::Write { header, text, rows, values, signature, .. }, Answer::Filled(answer)) if answer.number == 0 => {
            let (seal, rest) = outcome.bytes.split_at(answer.count);
            expect(rest == &lent(outcome.bytes.len())[answer.count..], "memory past the seal changed")?;
            written(seal, header, text, rows, values, signature)
        }
        _ => Ok(()),
    }
}

fn expect(good: bool, fault: &str) -> Result<(), String> {
    if good {
        Ok(())
    } else {
        Err(fault.to_string())
    }
}

/// Reads a seal that was accepted, in the rooms that the judge says; whatever is wrong with that, or with what `good`
/// finds in the reading, is told.
fn read_again(seal: &[u8], good: impl Fn(Reading) -> Result<(), String>) -> Result<(), String> {
    let verdict = judge(seal).map_err(|refusal| refusal.to_string())?;
    let (mut table, mut text) = (numbers(&vec![0; verdict.table_room()]), bytes(&vec![0; verdict.text_room()]));
    let reading = read(seal, table.content_mut(), text.content_mut()).map_err(|refusal| refusal.to_string())?;
    expect(reading.verdict() == verdict && reading.seal() == seal, "judge and read differ")?;
    expect(why(seal).is_none(), "an accepted seal has a reason")?;
    expect(reading.features().len() == verdict.count, "another count of features")?;
    expect(reading.features().all(|feature| reading.feature(feature.tag) == Some(feature)), "a feature is not found")?;
    framed(reading)?;
    walked(reading)?;
    good(reading)?;
    expect(table.guards_stay() && text.guards_stay(), "memory was touched that was not lent")
}

/// The features lie one after another, from the header's end to the mark; each is whole from its tag's place to its
/// value's end.
fn framed(reading: Reading) -> Result<(), String> {
    let (seal, ends) = (reading.seal(), reading.verdict().ends);
    let mut end = ends.header;
    for Feature { tag, tag_place, place, whole, value } in reading.features() {
        expect(tag_place == end && usize::from(seal[tag_place]) == tag, "a tag that is not at its place")?;
        end = place + value.len();
        expect(*value == seal[place..end], "a value that is not at its place")?;
        expect(*whole == seal[tag_place..end] && place > tag_place + 1, "a feature that is not whole")?;
    }
    expect(end == ends.message, "features that are not the message")
}

/// A walk gives the features of the reading in order, as parts of the seal and no copies, and the rows of the
/// reference; then nothing, again and again.
fn walked(reading: Reading) -> Result<(), String> {
    let seal = reading.seal();
    let mut walk = walk(seal).map_err(|refusal| refusal.to_string())?;
    expect(walk.clone().eq(reading.features()), "a walk of other features than the reading's")?;
    expect(walk.clone().map(|feature| row(seal, feature)).eq(reference::walk(seal)), "a walk of other rows")?;
    expect(walk.by_ref().count() == reading.features().len(), "a walk that was not cloned")?;
    expect((0..3).all(|_| walk.next().is_none()), "a walk that goes on past its end")
}

/// What the reader accepts writes back, given room, as the same bytes; and a room that is one short is refused.
fn accepted(seal: &[u8]) -> Result<(), String> {
    read_again(seal, |reading| {
        let mut again = bytes(&vec![0; seal.len()]);
        let count = reading.write(reading.signature(), again.content_mut());
        expect(again.guards_stay(), "memory was touched that was not lent")?;
        expect(count == Ok(seal.len()), "an accepted seal is not written back")?;
        expect(again.content() == seal, "an accepted seal is written back otherwise")?;
        let short = reading.write(reading.signature(), &mut again.content_mut()[1..]);
        expect(short == Err(Refusal { number: 28, place: 0, front: 0 }), "a seal is written where there is no room")?;
        let mark = &seal[reading.signed().len()..seal.len() - reading.signature().len()];
        expect(mark[0] == 0xFF, "the signed bytes do not end at the mark")?;
        expect([reading.signed(), mark, reading.signature()].concat() == seal, "zones that are not the seal's")
    })
}

/// What is written reads back as the fields, tags, value bytes and signature given.
fn written(
    seal: &[u8],
    header: &Header,
    text: &[u8],
    rows: &[usize],
    values: &[u8],
    signature: &[u8],
) -> Result<(), String> {
    read_again(seal, |reading| {
        let (signer, reference) = reading.names();
        expect(reading.header() == header_in(header), "another header is read back")?;
        expect([signer, reference].concat().as_bytes() == text, "other names are read back")?;
        expect(reading.signature() == signature, "another signature is read back")?;
        let given = Row::all(rows).ok_or("a table that is not in fours was written")?.into_iter();
        let given = given.map(|row| (row.tag, &values[row.value_place..][..row.value_length]));
        let found = reading.features().map(|feature| (feature.tag, feature.value));
        expect(given.eq(found), "other features are read back")
    })
}
