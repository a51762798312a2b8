//! Document 02, Ticket 2, on drawn seals: walks give the rows, steps give what is published at their place and nothing
//! else, and look-ups agree with the walks.

mod common;

use std::collections::BTreeMap;

use common::walks::{opens_no_walk, walks, END};
use common::{hex, published, read, seal_a};
use reference::inputs::{Call, Inputs};
use reference::{shown, walk, walk_next, Part, Shown, Step, EXTENSION, MAIN};

const CALLS: usize = 50_000;

/// The drawn seals of a seed.
fn seals(seed: u64) -> impl Iterator<Item = Vec<u8>> {
    let mut inputs = Inputs::new(seed);
    (0..CALLS).filter_map(move |_| match inputs.next() {
        Call::Read { seal, .. } | Call::Judge { seal } => Some(seal),
        _ => None,
    })
}

#[test]
fn walks_of_drawn_seals() {
    let (mut accepted, mut refused) = (0, 0);
    for seal in seals(1).chain(seals(2)) {
        if read(&seal).0 == 0 {
            accepted += 1;
            walks(&seal);
        } else {
            refused += 1;
            opens_no_walk(&seal);
        }
    }
    println!("walked {accepted}, refused {refused}");
    assert!(accepted > CALLS / 10 && refused > CALLS / 10);
}

/// A feature as it is published stands at the place of each row, and where 51 is said there is none, of any length.
fn holds(bytes: &[u8], place: usize) -> bool {
    let step = walk_next(bytes, place);
    let version = bytes.get(1).map_or(0, |&byte| usize::from(byte) + 1);
    if step.number == 0 {
        let Step { row, at, .. } = step;
        assert_eq!((step.place, row.tag_place, at), (0, place, row.value_place + row.value_length));
        let value = &bytes[row.value_place..at];
        assert_eq!(bytes[place..at], published(version, row.tag as u8, value));
        return true;
    }
    assert_eq!(step, END);
    let tagged = place > 0 && (3..=4).contains(&version) && bytes.get(place).is_some_and(|&tag| tag < 0xFF);
    if tagged {
        let rest = &bytes[place..];
        let most = if version == 3 { rest.len().min(255) } else { rest.len() };
        for value_length in 0..most {
            let feature = published(version, rest[0], &vec![0; value_length]);
            let front = feature.len() - value_length;
            assert!(feature.len() > rest.len() || feature[..front] != rest[..front], "{place} {bytes:02X?}");
        }
    }
    false
}

#[test]
fn steps_at_every_place_of_drawn_seals() {
    let mut counts = BTreeMap::new();
    for seal in seals(3).filter(|seal| seal.len() < 200).take(1000) {
        for place in (0..seal.len() + 3).chain([4096, usize::MAX - 1, usize::MAX]) {
            *counts.entry(holds(&seal, place)).or_insert(0) += 1;
        }
    }
    println!("a feature stands there: {counts:?}");
    assert!(counts.len() == 2 && counts.values().all(|&count| count > 10_000));
}

/// What a look-up says, from what each seal says alone.
fn expected(main: &[u8], extension: &[u8], tag: usize) -> Shown {
    for (seal, which) in [(main, MAIN), (extension, EXTENSION)] {
        let (number, place) = read(seal);
        if number != 0 {
            return Shown { number, place, which, ..Shown::default() };
        }
    }
    for (seal, which) in [(extension, EXTENSION), (main, MAIN)] {
        if let Some(row) = walk(seal).into_iter().find(|row| row.tag == tag) {
            let value = Part { place: row.value_place, length: row.value_length };
            return Shown { number: 0, place: 0, which, value };
        }
    }
    Shown { number: 50, ..Shown::default() }
}

#[test]
fn look_ups_in_drawn_seals() {
    let mut counts = BTreeMap::new();
    let few: Vec<Vec<u8>> = seals(4).filter(|seal| seal.len() < 300).take(300).chain([seal_a(), hex("DC")]).collect();
    for (main, extension) in few.iter().flat_map(|main| few.iter().map(move |extension| (main, extension))) {
        let (first, second) = (walk(main), walk(extension));
        let tags = first.first().into_iter().chain(second.last()).map(|row| row.tag);
        for tag in tags.chain([0, 10, 255]) {
            let answer = shown(main, extension, tag);
            assert_eq!(answer, expected(main, extension, tag));
            *counts.entry((answer.number, answer.which)).or_insert(0) += 1;
        }
    }
    println!("number and which: {counts:?}");
    for found in [(0, MAIN), (0, EXTENSION), (50, 0), (2, MAIN), (2, EXTENSION), (9, MAIN), (9, EXTENSION)] {
        assert!(counts.get(&found).is_some_and(|&count| count > 100), "{found:?}");
    }
}
