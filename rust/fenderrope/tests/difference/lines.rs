//! The lines that tell the crew why, as the crate shows them, against those made of the reason's numbers and of the
//! reference's words.

use reference::inputs::{Answer, Call, Outcome};
use reference::{front, item_name, rule_words, Reason};

/// What is wrong with the lines, if anything. Only a seal that was asked why it is refused has some.
pub fn lines(call: &Call, outcome: &Outcome) -> Result<(), String> {
    let (Call::Why { seal }, Answer::Reason(reason)) = (call, outcome.answer) else { return Ok(()) };
    let shown = fenderrope::why(seal).map(|reason| reason.to_string());
    if shown == (reason.number != 0).then(|| six(seal, reason)) {
        Ok(())
    } else {
        Err(format!("other lines are shown: {shown:?}"))
    }
}

/// The six lines of a reason: of the bytes judged the first sixteen, and how many more; and the first hopeless byte.
fn six(seal: &[u8], reason: Reason) -> String {
    let Reason { number, place, item, rule, judged } = reason;
    let bytes: Vec<String> = seal[judged.place..][..judged.length].iter().map(|byte| format!("{byte:02X}")).collect();
    let shown = match bytes.len() {
        0 => "none".to_string(),
        1..=16 => bytes.join(" "),
        all => format!("{} and {} more", bytes[..16].join(" "), all - 16),
    };
    let (name, words) = (item_name(item), rule_words(rule));
    let good = front(seal);
    let ends = seal.get(good).map_or("the input ends too early".into(), |byte| format!("no seal has {byte:02X} there"));
    format!("number {number}\nitem {name}\nplace {place}\nbytes {shown}\nrule {words}\ngood up to {good}, {ends}")
}
