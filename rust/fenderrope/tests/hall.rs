//! The parts of the hall's program; tests/hall runs it as a whole, beside the same program in C.

#[allow(dead_code)]
#[path = "../examples/hall.rs"]
mod hall;

use fenderrope::Date;
use hall::{date_after, told, unsigned, Fault};

const DAY: Date = Date { month: 3, day: 25, year: 2026 };

fn tag(name: &str) -> Vec<u8> {
    unsigned(name.as_bytes(), DAY).expect("a good name")
}

#[test]
fn a_tag_that_was_made_locks_its_press() {
    for (name, length) in [("A", 4), ("7", 4), ("PRESS7", 6), ("ABCDEFGHIJKL", 10), ("000000000000", 10)] {
        let line = format!("locked {name}, signer UTAB, reference 00001, frame at 20 length {length}");
        assert_eq!(told(&tag(name)), (0, line));
    }
}

/// The frame of feature 11 follows it: behind other features, and before them.
#[test]
fn the_frame_is_the_whole_feature() {
    let seal = tag("PRESS7");
    let (header, message, rest) = (&seal[..20], &seal[20..26], &seal[26..]);
    let long = [&[0x07, 0x81, 0x80][..], &[0xFF; 128]].concat();
    let longer = [&[0xFE, 0x82, 0x01, 0x00][..], &[0x0B; 256]].concat();
    for (before, behind) in
        [(&[][..], &long[..]), (&[0x0A, 0x00], &[]), (&long, &longer), (&longer, &[0x00, 0x01, 0x0B]), (&long, &[])]
    {
        let line = format!("locked PRESS7, signer UTAB, reference 00001, frame at {} length 6", 20 + before.len());
        assert_eq!(told(&[header, before, message, behind, rest].concat()), (0, line));
    }
}

#[test]
fn a_tag_that_is_not_good_locks_nothing() {
    let seal = tag("PRESS7");
    let mut other = seal.clone();
    other[20] = 12;
    assert_eq!(told(&other), (1, "no lock tag: no press is named".to_string()));
    let no_name = [&seal[..20], &[11, 2, 0, 0], &seal[26..]].concat();
    assert_eq!(told(&no_name), (1, "no lock tag: no name of a press at 22".to_string()));
}

/// The line of today, and then the six that say why.
fn refused(seal: &[u8], lines: [&str; 7]) {
    assert_eq!(told(seal), (1, lines.join("\n")));
}

#[test]
fn a_refused_tag_says_why() {
    let seal = tag("PRESS7");
    let used = [&seal[..26], &[0x0B, 0x00], &seal[26..]].concat();
    refused(
        &used,
        [
            "refused 9 at 26: tag already used",
            "number 9",
            "item tag",
            "place 26",
            "bytes 0B",
            "rule a tag is used once only",
            "good up to 26, no seal has 0B there",
        ],
    );
    refused(
        &seal[..30],
        [
            "refused 2 at 28: the input ends before an item is whole",
            "number 2",
            "item signature",
            "place 28",
            "bytes 00 00",
            "rule all its bytes are there",
            "good up to 30, the input ends too early",
        ],
    );
    refused(
        &[],
        [
            "refused 2 at 0: the input ends before an item is whole",
            "number 2",
            "item mark",
            "place 0",
            "bytes none",
            "rule all its bytes are there",
            "good up to 0, the input ends too early",
        ],
    );
    refused(
        &[0xDC; 4097],
        [
            "refused 1 at 4096: seal longer than 4,096",
            "number 1",
            "item seal",
            "place 4096",
            "bytes DC",
            "rule a seal has at most 4,096 bytes",
            "good up to 1, no seal has DC there",
        ],
    );
    refused(
        &seal[..91],
        [
            "refused 2 at 28: the input ends before an item is whole",
            "number 2",
            "item signature",
            "place 28",
            "bytes 00 00 00 00 00 00 00 00 00 00 00 00 00 00 00 00 and 47 more",
            "rule all its bytes are there",
            "good up to 91, the input ends too early",
        ],
    );
}

#[test]
fn no_tag_is_made_of_a_wrong_name_or_day() {
    for name in ["", "press7", "PRESS 7", " ", "PRESS-7", "ABCDEFGHIJKLM", "PRESS7\n"] {
        let Err(Fault(status, words)) = unsigned(name.as_bytes(), DAY) else { panic!("{name} is no name") };
        assert_eq!((status, &words[..]), (2, &b"a press's name is 1 to 12 upper-case letters and digits"[..]));
    }
    let Err(Fault(status, words)) = unsigned(b"PRESS7", Date::default()) else { panic!("there is no such day") };
    assert_eq!((status, &words[..]), (1, &b"refused 22 at 0: writer: date"[..]));
}

#[test]
fn days_after_the_first_of_1970() {
    let cases = [
        (0, "1970-01-01"),
        (30, "1970-01-31"),
        (31, "1970-02-01"),
        (364, "1970-12-31"),
        (365, "1971-01-01"),
        (789, "1972-02-29"),
        (790, "1972-03-01"),
        (11_016, "2000-02-29"),
        (11_322, "2000-12-31"),
        (19_782, "2024-02-29"),
        (47_540, "2100-02-28"),
        (47_541, "2100-03-01"),
        (2_932_896, "9999-12-31"),
    ];
    for (days, date) in cases {
        assert_eq!(date_after(days).to_string(), date);
    }
}
