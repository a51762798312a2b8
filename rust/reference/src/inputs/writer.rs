//! What the writer is asked for: legal contents, and damaged ones for each of its answers, alone and several at once.

use std::iter;

use super::random::Random;
use super::seals::Draft;
use super::{days, Call};
use crate::{Header, Row, LONGEST_SEAL};

/// The arguments of one writing, and whether the table of the rows is to be in fours.
struct Asked {
    header: Header,
    text: Vec<u8>,
    rows: Vec<Row>,
    in_fours: bool,
    values: Vec<u8>,
    signature: Vec<u8>,
    room: usize,
}

const MAX: usize = usize::MAX;

/// One writing: the content is legal, or has one damage or a few.
pub(super) fn call(random: &mut Random) -> Call {
    let mut draft = Draft::legal(random);
    if random.one_in(25) {
        let size = random.within(LONGEST_SEAL - 1, LONGEST_SEAL + 4);
        draft.fill_to(random, size);
    }
    let mut asked = ask(random, &draft);
    let times = random.pick(&[0, 0, 0, 1, 1, 1, 1, 2, 2, 4]);
    for _ in 0..times {
        damage(random, &mut asked);
    }
    put_tag_places(random, &draft, &mut asked.rows);
    let Asked { header, text, rows, in_fours, values, signature, room } = asked;
    let rows = if in_fours { Row::table(&rows) } else { no_fours(random, &rows) };
    Call::Write { header, text, rows, values, signature, room }
}

/// The draft as arguments, in a room that is mostly enough.
fn ask(random: &mut Random, draft: &Draft) -> Asked {
    let (rows, values) = lay_out(random, draft);
    let size = draft.bytes().len();
    let room = match random.below(6) {
        0 | 1 => random.room(size),
        2 => LONGEST_SEAL,
        _ => size + random.below(700),
    };
    Asked {
        header: draft.header(),
        text: [&draft.signer[..], &draft.reference].concat(),
        rows,
        in_fours: true,
        values,
        signature: draft.signature.clone(),
        room,
    }
}

/// A row for a value at a place of the buffer; the tag's place is put in later.
fn row_of(tag: usize, value_place: usize, value_length: usize) -> Row {
    Row { tag, value_place, value_length, ..Row::default() }
}

/// The values in a buffer: one after another, in the other order with bytes between, or all out of shared bytes.
fn lay_out(random: &mut Random, draft: &Draft) -> (Vec<Row>, Vec<u8>) {
    let longest = draft.features.iter().map(|feature| feature.1.len()).max().unwrap_or(0);
    let (mut rows, mut values) = (Vec::new(), Vec::new());
    match random.below(4) {
        0 => {
            let spare = random.below(5);
            values = random.bytes(longest + spare);
            for (tag, value) in &draft.features {
                let place = random.within(0, values.len() - value.len());
                rows.push(row_of(usize::from(*tag), place, value.len()));
            }
        }
        1 => {
            for (tag, value) in draft.features.iter().rev() {
                let gap = random.below(3);
                values.extend(random.bytes(gap));
                rows.insert(0, row_of(usize::from(*tag), values.len(), value.len()));
                values.extend(value);
            }
            let gap = random.below(3);
            values.extend(random.bytes(gap));
        }
        _ => {
            for (tag, value) in &draft.features {
                rows.push(row_of(usize::from(*tag), values.len(), value.len()));
                values.extend(value);
            }
        }
    }
    (rows, values)
}

/// Puts the tags' places into the rows, which the writer ignores: all as the draft has them, or each as it comes.
fn put_tag_places(random: &mut Random, draft: &Draft, rows: &mut [Row]) {
    let all_true = random.one_in(4);
    let places = draft.tag_places().into_iter().chain(iter::repeat(LONGEST_SEAL));
    for (row, place) in rows.iter_mut().zip(places) {
        let (small, any) = (random.below(LONGEST_SEAL), random.number() as usize);
        let drawn = [place, place + 1, row.value_place, row.tag, 0, 1, small, any, 1 << 32, MAX / 2 + 1, MAX - 1, MAX];
        row.tag_place = if all_true { place } else { random.pick(&drawn) };
    }
}

/// One damage, meant for the answer that stands beside it; some leave the content legal.
fn damage(random: &mut Random, asked: &mut Asked) {
    match random.below(20) {
        0 => asked.header.version = random.pick(&[0, 1, 2, 5, 255, 259, 260, MAX]), // 20
        1 => asked.header.version = 7 - asked.header.version.min(4),                // 21, or another legal content
        2 => country(random, &mut asked.header.country),                            // 21
        3 | 4 => text(random, &mut asked.text),                                     // 21
        5 => asked.header.length = other_length(random, asked.header.length),       // 21
        6 => asked.header.issued_on = days::about(random),                          // 22
        7 => asked.header.signed_on = days::about(random),                          // 22
        8 => asked.header.definition = random.pick(&[0, 255, 256, 257, 510, MAX]),  // 23
        9 => asked.header.category = random.pick(&[0, 255, 256, 257, 510, MAX]),    // 23
        10 => asked.in_fours = false,                                               // 24
        11 | 12 => row(random, &mut asked.rows, asked.values.len()),                // 24
        13 => long_value(random, asked),                                            // 25
        14 => {
            let any = random.below(141);
            let length = random.pick(&[any, any, any, 0, 55, 57, 65, 127, 129, 130, 131, 133, 255, 256, 4096, 5000]);
            asked.signature = random.bytes(length); // 26
        }
        15 | 17 => too_long(random, asked),                     // 27
        16 => whole_text(random, asked),                        // 21, or another legal content
        _ => asked.room = random.pick(&[0, 1, 18, 75, 76, 77]), // 28
    }
}

fn country(random: &mut Random, country: &mut [u8; 3]) {
    let wrong = [
        *b"   ", *b"D  ", *b"<<<", *b"<DE", *b"D<E", *b"U<1", *b"UT0", *b"1TO", *b"uTO", *b"UT[", *b"U@O", [0; 3],
        [0xFF; 3],
    ];
    *country = random.pick(&wrong);
    if random.one_in(3) {
        *country = [*b"UTO", *b"D<<", *b"DE<"][random.below(3)];
        country[random.below(3)] = random.byte();
    }
}

fn text(random: &mut Random, text: &mut Vec<u8>) {
    match random.below(8) {
        0 => text.truncate(random.below(text.len() + 1)),
        1 => text.push(random.pick(b"A0 <")),
        2 => text.clear(),
        3 => text.resize(random.pick(&[3, 4, 5, 8, 9, 10, 258, 259, 260, 261]), b'7'),
        _ => {
            let (place, any) = (random.below(text.len()), random.byte());
            let new = random.pick(&[b' ', b'<', b'a', b'@', b'[', b'/', b':', b'0', 0, 0xFF, any]);
            text.get_mut(place).into_iter().for_each(|character| *character = new);
        }
    }
}

/// A text of another length, and the header says that length too.
fn whole_text(random: &mut Random, asked: &mut Asked) {
    asked.text.resize(random.pick(&[0, 4, 5, 6, 8, 9, 9, 10, 258, 259, 260, 261, 265, 515, 516]), b'7');
    asked.header.length = asked.text.len().wrapping_sub(4);
}

fn other_length(random: &mut Random, length: usize) -> usize {
    random.pick(&[length.wrapping_add(1), length.wrapping_sub(1), length.wrapping_add(256), 0, 256, MAX])
}

/// A table that is not in fours: numbers too many, numbers too few, or rows of three, without the tags' places.
fn no_fours(random: &mut Random, rows: &[Row]) -> Vec<usize> {
    let mut table = Row::table(rows);
    let count = random.within(1, Row::WIDTH - 1);
    match random.below(4) {
        0 => table.extend((0..count).map(|_| random.below(255))),
        1 => table.truncate(table.len().saturating_sub(count)),
        _ => table = rows.iter().flat_map(|row| [row.tag, row.value_place, row.value_length]).collect(),
    }
    table
}

/// A row with a wrong tag, or a value at or past the end of the buffer. Where there are not two, two are put in.
fn row(random: &mut Random, rows: &mut Vec<Row>, end: usize) {
    if rows.len() < 2 {
        rows.splice(0..0, [row_of(random.below(255), 0, 0), row_of(random.below(255), 0, 0)]);
    }
    let (at, other) = (random.below(rows.len()), random.pick(rows));
    let row = &mut rows[at];
    let (mut place, mut length) = (row.value_place, row.value_length);
    match random.below(10) {
        0 => row.tag = random.pick(&[255, 256, 510, MAX]),
        1 => row.tag = row.tag.wrapping_add(256),
        2 | 3 => row.tag = other.tag,
        4 => (place, length) = (end, random.pick(&[0, 0, 1])),
        5 => (place, length) = (end + 1, random.pick(&[0, 0, MAX])),
        6 => length = end.wrapping_sub(place).wrapping_add(random.pick(&[0, 1])),
        7 => {
            place = random.pick(&[MAX, MAX - 1, MAX / 2 + 1]);
            length = random.pick(&[0, 1, 2, MAX / 2 + 1, MAX]);
        }
        8 => (place, length) = (random.below(end + 1), random.pick(&[MAX, MAX - 1, MAX - end, 1 << 32])),
        _ => place = place.wrapping_add(random.within(1, 300)),
    }
    (row.value_place, row.value_length) = (place, length);
}

/// A value of 255 bytes, which version 3 may have, or of 256 and more, which it may not.
fn long_value(random: &mut Random, asked: &mut Asked) {
    let length = random.pick(&[255, 256, 256, 257, 300, 511, 512]);
    let place = asked.values.len();
    let more = random.bytes(length);
    asked.values.extend(more);
    if random.one_in(4) || asked.rows.is_empty() {
        asked.rows = vec![row_of(random.below(255), place, length)];
        return;
    }
    let at = random.below(asked.rows.len());
    (asked.rows[at].value_place, asked.rows[at].value_length) = (place, length);
}

/// Values that together pass the longest seal, most of them out of the same bytes.
fn too_long(random: &mut Random, asked: &mut Asked) {
    let (count, length) =
        random.pick(&[(1, 4096), (1, 70_000), (17, 255), (255, 255), (40, 100), (200, 18), (255, 5000)]);
    let first = random.below(255 - count + 1);
    asked.values = vec![random.byte(); length];
    asked.rows = (first..first + count).map(|tag| row_of(tag, 0, length)).collect();
}
