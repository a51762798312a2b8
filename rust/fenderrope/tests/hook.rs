//! What the display at the hook shows, on tags that tests/hook does not have; that runs the program as a whole, beside
//! the same program in C.

#[allow(dead_code)]
#[path = "../examples/hook.rs"]
mod hook;

use fenderrope::{c40_write, judge, Refusal};
use hook::told;

const HEADER_THREE: &[u8] = b"\xDC\x02\xD9\xC5\xD9\xB7\x5E\x65\x19\xA6\x31\x9E\xF5\x31\x9E\xF5\x01\x02";
const HEADER_FOUR: &[u8] = b"\xDC\x03\xD9\xC5\xD9\xB7\x5E\x6A\x19\xA5\x19\xC9\x31\x9E\xF5\x31\x9E\xF5\x01\x02";

/// AAA in C40, as feature 11.
const PRESS: &[u8] = b"\x0B\x02\x59\xBF";

/// A tag of this header and message, and 56 bytes of signature.
fn tag(header: &[u8], message: &[u8]) -> Vec<u8> {
    [header, message, &[0xFF, 56], &[0xAA; 56]].concat()
}

/// Every tag that a feature can have, and as its value every byte in turn.
#[test]
fn every_tag_and_every_byte() {
    let named = tag(HEADER_FOUR, PRESS);
    for (header, shift) in [(HEADER_THREE, 0), (HEADER_FOUR, 1)] {
        let features: Vec<_> = (0..=254u8).map(|tag| [tag, 1, tag + shift]).collect();
        let lines: String = features.iter().map(|[tag, _, value]| format!("{tag} {value:02X}\n")).collect();
        let all = tag(header, &features.concat());
        assert_eq!(told(&all, None), Ok(format!("{lines}no press\n")));
        assert_eq!(told(&all, Some(&named)), Ok(format!("{lines}\n11 59BF\npress AAA\n")));
        // The extension's feature 11 is no C40 text, and the main tag's is not asked for.
        assert_eq!(told(&named, Some(&all)), Ok(format!("11 59BF\n\n{lines}no press\n")));
    }
}

/// Lengths in one byte, and in DER's two and three.
#[test]
fn values_of_every_form_of_length() {
    let cases = [
        (HEADER_THREE, &[127][..], 127),
        (HEADER_THREE, &[128], 128),
        (HEADER_THREE, &[255], 255),
        (HEADER_FOUR, &[127], 127),
        (HEADER_FOUR, &[0x81, 128], 128),
        (HEADER_FOUR, &[0x81, 255], 255),
        (HEADER_FOUR, &[0x82, 1, 0], 256),
    ];
    for (header, length, count) in cases {
        let feature = [&[7], length, &vec![0xFF; count]].concat();
        let text = format!("7 {}\n11 59BF\npress AAA\n", "FF".repeat(count));
        assert_eq!(told(&tag(header, &[&feature, PRESS].concat()), None), Ok(text));
    }
}

/// A name is shown as C40 has it, whatever its length, with its spaces.
#[test]
fn names_of_presses() {
    for name in ["A", "7", "AB", "ABC", "ABCD", "PRESS7HALL2", "ABCDEFGHIJKLM", " ", "A ", "  A", "HALL 2 PRESS 7"] {
        let mut value = [0; 16];
        let count = c40_write(name.as_bytes(), &mut value).expect("good text");
        let seal = tag(HEADER_FOUR, &[&[11, count as u8], &value[..count]].concat());
        let lines = told(&seal, None).expect("a good tag");
        assert_eq!(lines.lines().last(), Some(format!("press {name}").as_str()));
    }
}

/// A tag is refused where it is judged so, and nothing is shown, though the other one names a press.
fn refused_as_judged(seal: &[u8], good: &[u8]) {
    let Err(Refusal { number, place, .. }) = judge(seal) else {
        assert!(told(seal, None).is_ok() && told(good, Some(seal)).is_ok());
        return;
    };
    let line = |which| Err(format!("refused {number} at {place} in {which}\n"));
    for extension in [None, Some(good), Some(seal), Some(&[])] {
        assert_eq!(told(seal, extension), line("main"));
    }
    assert_eq!(told(good, Some(seal)), line("extension"));
}

#[test]
fn cut_and_changed_tags() {
    for header in [HEADER_THREE, HEADER_FOUR] {
        let good = tag(header, &[b"\x0A\x04\xDE\x51\x58\x26\x07\x00", PRESS].concat());
        (0..good.len()).for_each(|length| refused_as_judged(&good[..length], &good));
        for place in 0..good.len() {
            for value in 0..=255 {
                let mut changed = good.clone();
                changed[place] = value;
                refused_as_judged(&changed, &good);
            }
        }
    }
}
