//! The comparison notices: programs that walk and look up as the reference does but for one fault.

use reference::inputs::{Answer, Call, Outcome};
use reference::{judge, shown, walk_next, Opened, Shown, Step, EXTENSION, LONGEST_SEAL, MAIN};

use crate::wrong::noticed;

const END: Step =
    Step { number: 51, place: 0, row: reference::Row { tag: 0, tag_place: 0, value_place: 0, value_length: 0 }, at: 0 };

/// A program that changes openings.
fn opening_noticed(change: impl Fn(&mut Opened)) {
    let fault = |_: &Call, outcome: &mut Outcome| {
        if let Answer::Opened(opened) = &mut outcome.answer {
            change(opened);
        }
    };
    noticed(fault, "walk_open ");
}

/// A program that changes steps: it has the bytes, the place and the right step.
fn step_noticed(change: impl Fn(&[u8], usize, &mut Step)) {
    let fault = |call: &Call, outcome: &mut Outcome| {
        if let (Call::WalkNext { seal, at }, Answer::Step(step)) = (call, &mut outcome.answer) {
            change(seal, *at, step);
        }
    };
    noticed(fault, "walk_next at ");
}

/// A program that changes look-ups: it has both seals, the tag and the right answer.
fn shown_noticed(change: impl Fn(&[u8], &[u8], usize, &mut Shown)) {
    let fault = |call: &Call, outcome: &mut Outcome| {
        if let (Call::Shown { main, extension, tag }, Answer::Shown(shown)) = (call, &mut outcome.answer) {
            change(main, extension, *tag, shown);
        }
    };
    noticed(fault, "shown tag ");
}

/// A refused seal that opens a walk, a place one on, and another number.
#[test]
fn other_openings_are_noticed() {
    opening_noticed(|opened| opened.at = if opened.number == 9 { 18 } else { opened.at });
    opening_noticed(|opened| opened.at += usize::from(opened.number == 0));
    opening_noticed(|opened| opened.number = if opened.number == 11 { 0 } else { opened.number });
    opening_noticed(|opened| opened.place += usize::from(opened.number == 2));
}

#[test]
fn another_field_of_a_step_is_noticed() {
    step_noticed(|_, _, step| step.row.tag += usize::from(step.number == 0));
    step_noticed(|_, _, step| step.row.tag_place += usize::from(step.number == 0));
    step_noticed(|_, _, step| step.row.value_place += usize::from(step.number == 0));
    step_noticed(|_, _, step| step.row.value_length += usize::from(step.number == 0));
    step_noticed(|_, _, step| step.at += usize::from(step.number == 0));
}

/// A walk that does not close: it says 51, and where it stands.
#[test]
fn an_end_with_a_place_is_noticed() {
    step_noticed(|_, at, step| step.at = if step.number == 51 { at } else { step.at });
    step_noticed(|_, at, step| step.place = if step.number == 51 { at } else { 0 });
}

/// A program that takes the other version's lengths: DER lengths for version 3, plain bytes for version 4.
#[test]
fn lengths_of_the_other_version_are_noticed() {
    for (version, other) in [(2, 3), (3, 2)] {
        step_noticed(|seal, at, step| {
            if at > 1 && seal.get(1) == Some(&version) {
                *step = walk_next(&[&[seal[0], other], &seal[2..]].concat(), at);
            }
        });
    }
}

/// A program that begins a feature at place 0, as if a byte stood before it.
#[test]
fn a_feature_at_place_0_is_noticed() {
    step_noticed(|seal, at, step| {
        if at == 0 && seal.get(1).is_some_and(|version| [2, 3].contains(version)) {
            *step = Step { number: 0, row: reference::Row { tag: 0xDC, ..END.row }, ..END };
        }
    });
}

/// Programs that judge in a step: the longest seal, a tag used before, or the whole seal.
#[test]
fn a_step_that_judges_is_noticed() {
    step_noticed(|seal, _, step| *step = if seal.len() > LONGEST_SEAL { END } else { *step });
    step_noticed(|seal, at, step| {
        let verdict = judge(seal);
        *step = if (verdict.number, verdict.place) == (9, at) { END } else { *step };
    });
    step_noticed(|seal, _, step| *step = if judge(seal).number == 10 { END } else { *step });
}

#[test]
fn another_field_of_a_look_up_is_noticed() {
    shown_noticed(|_, _, _, shown| shown.value.place += usize::from(shown.number == 0));
    shown_noticed(|_, _, _, shown| shown.value.length += usize::from(shown.number == 0));
    shown_noticed(|_, _, _, shown| shown.which = if shown.number == 0 { 3 - shown.which } else { shown.which });
    shown_noticed(|_, _, _, shown| shown.which = if shown.number == 50 { MAIN } else { shown.which });
    shown_noticed(|_, _, _, shown| shown.which = if shown.number == 11 { 0 } else { shown.which });
    shown_noticed(|_, _, _, shown| shown.place += usize::from(shown.number == 50));
}

/// A program that looks into the main seal first, and one that tells the extension's refusal first.
#[test]
fn the_main_seal_first_is_noticed() {
    let other_way = |main: &[u8], extension: &[u8], tag: usize| {
        let other = shown(extension, main, tag);
        Shown { which: (3 - other.which) % 3, ..other }
    };
    shown_noticed(|main, extension, tag, shown| {
        *shown = if shown.number == 0 { other_way(main, extension, tag) } else { *shown };
    });
    shown_noticed(|main, extension, tag, shown| {
        *shown = if ![0, 50].contains(&shown.number) { other_way(main, extension, tag) } else { *shown };
    });
}

/// A program that makes do with one seal where the other is refused.
#[test]
fn a_value_beside_a_refused_seal_is_noticed() {
    shown_noticed(|main, _, tag, found| {
        let alone = shown(main, main, tag);
        let makes_do = found.number != 50 && found.which == EXTENSION && alone.number == 0;
        *found = if makes_do { Shown { which: MAIN, ..alone } } else { *found };
    });
    shown_noticed(|_, extension, tag, found| {
        let alone = shown(extension, extension, tag);
        *found = if found.number != 0 && found.which == MAIN && alone.number == 0 { alone } else { *found };
    });
}

/// A program that passes over empty values, and one that goes by a tag's last byte.
#[test]
fn empty_values_and_tags_over_254_are_noticed() {
    shown_noticed(|_, _, _, shown| {
        let empty = (shown.number, shown.which, shown.value.length) == (0, EXTENSION, 0);
        *shown = if empty { Shown { number: 50, ..Shown::default() } } else { *shown };
    });
    shown_noticed(|main, extension, tag, found| {
        *found = if tag > 255 { shown(main, extension, tag % 256) } else { *found };
    });
}
