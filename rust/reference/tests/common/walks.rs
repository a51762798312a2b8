//! Walks that are asked step by step.

use super::{read, rows};
use reference::{judge, walk, walk_next, walk_open, Opened, Row, Step};

/// "51 no further feature": every other field is 0.
pub const END: Step =
    Step { number: 51, place: 0, row: Row { tag: 0, tag_place: 0, value_place: 0, value_length: 0 }, at: 0 };

/// The step that finds this row.
pub fn found(tag: usize, tag_place: usize, value_place: usize, value_length: usize) -> Step {
    let row = Row { tag, tag_place, value_place, value_length };
    Step { number: 0, place: 0, row, at: value_place + value_length }
}

/// Asks one step after another, from the opening on, until 51; and 51 is said again and again.
pub fn asked(seal: &[u8]) -> Vec<Row> {
    let mut at = walk_open(seal).at;
    let mut rows = Vec::new();
    loop {
        let step = walk_next(seal, at);
        if step.number != 0 {
            assert_eq!((step, walk_next(seal, step.at)), (END, END));
            return rows;
        }
        assert_eq!((step.place, step.row.tag_place), (0, at));
        rows.push(step.row);
        at = step.at;
    }
}

/// "It gives exactly the rows of the full reading, in order."
pub fn walks(seal: &[u8]) {
    let reading = judge(seal);
    assert_eq!(walk_open(seal), Opened { number: 0, place: 0, at: reading.ends.header });
    assert_eq!(asked(seal), rows(seal));
    assert_eq!(walk(seal), rows(seal));
}

/// "A refused seal gives its number and place, opens no walk"; asked all the same it says 51.
pub fn opens_no_walk(seal: &[u8]) {
    let (number, place) = read(seal);
    assert_ne!(number, 0);
    assert_eq!(walk_open(seal), Opened { number, place, at: 0 });
    assert_eq!((asked(seal), walk(seal)), (vec![], vec![]));
}
