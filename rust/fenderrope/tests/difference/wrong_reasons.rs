//! The comparison notices: programs that tell the reference's reasons but for one fault.

use reference::inputs::{Answer, Call, Outcome};
use reference::{Part, Reason};

use crate::reasons::{
    second, CUT_AND_NOT_SHORTEST, NOT_SHORTEST_AND_NO_SIZE, SIGNER_AND_DIGITS, SIGNER_AND_REFERENCE, SIGNER_AND_ZERO,
};
use crate::wrong::noticed;

/// A program that changes the reasons of refused seals; the difference that the comparison tells must show `shown`.
fn reason_noticed(change: impl Fn(&[u8], &mut Reason), shown: &str) {
    let fault = |call: &Call, outcome: &mut Outcome| {
        let (Call::Why { seal }, Answer::Reason(reason)) = (call, &mut outcome.answer) else { return };
        if reason.number != 0 {
            change(seal, reason);
        }
    };
    noticed(fault, shown);
}

#[test]
fn a_reason_for_an_accepted_seal_is_noticed() {
    for reason in [Reason { item: 1, ..Reason::default() }, Reason { rule: 1, ..Reason::default() }] {
        let fault = |_: &Call, outcome: &mut Outcome| match &mut outcome.answer {
            Answer::Reason(answer) if answer.number == 0 => *answer = reason,
            _ => {}
        };
        noticed(fault, "number: 0, place: 0");
    }
}

/// Each of the six numbers, one more.
#[test]
fn another_number_in_a_reason_is_noticed() {
    reason_noticed(|_, reason| reason.number += usize::from(reason.number == 7), "number: 7");
    reason_noticed(|_, reason| reason.place += usize::from(reason.item == 16), "item: 16");
    reason_noticed(|_, reason| reason.item += usize::from(reason.item == 8), "item: 8");
    reason_noticed(|_, reason| reason.rule -= usize::from(reason.rule == 16), "rule: 16");
    reason_noticed(|_, reason| reason.judged.place += usize::from(reason.rule == 12), "rule: 12");
    reason_noticed(|_, reason| reason.judged.length += usize::from(reason.rule == 11), "rule: 11");
}

/// A program that names a rule that the item breaks too, but behind another.
#[test]
fn a_later_rule_of_the_same_item_is_noticed() {
    for (both, rule) in [
        (SIGNER_AND_REFERENCE, 14),
        (SIGNER_AND_DIGITS, 15),
        (SIGNER_AND_ZERO, 16),
        (CUT_AND_NOT_SHORTEST, 18),
        (NOT_SHORTEST_AND_NO_SIZE, 10),
    ] {
        let change = |seal: &[u8], reason: &mut Reason| {
            if second(seal, reason) == Some(both) {
                reason.rule = rule;
            }
        };
        reason_noticed(change, &format!("rule: {rule}"));
    }
}

/// A program that does not tell the first byte of a length from its rest.
#[test]
fn one_rule_for_all_that_is_missing_is_noticed() {
    reason_noticed(|_, reason| reason.rule = if reason.rule == 17 { 2 } else { reason.rule }, "rule: 17");
}

/// Programs that judge other bytes than they should: the whole item for a wrong pair, the first byte of a length for
/// all of it, the whole rest of the seal for the first byte too many, and what is missing for what is there.
#[test]
fn other_bytes_judged_are_noticed() {
    let names = |_: &[u8], reason: &mut Reason| {
        if (reason.item, reason.rule) == (5, 5) {
            reason.judged = Part { place: 4, length: 6 };
        }
    };
    reason_noticed(names, "item: 5, rule: 5");
    reason_noticed(
        |_, reason| reason.judged.length = if reason.rule == 18 { 1 } else { reason.judged.length },
        "rule: 18",
    );
    let rest = |seal: &[u8], reason: &mut Reason| {
        if reason.rule == 11 {
            reason.judged.length = seal.len() - reason.place;
        }
    };
    reason_noticed(rest, "rule: 11");
    reason_noticed(
        |_, reason| reason.judged.length = if reason.rule == 2 { 0 } else { reason.judged.length },
        "rule: 2",
    );
}
