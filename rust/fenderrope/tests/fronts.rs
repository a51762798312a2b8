//! The first hopeless byte of refused seals: as a refusal and a reason tell it; and against the reference with every
//! byte of a seal changed to every other, every cut, every date of three bytes near its borders, and every pair of the
//! header.

use fenderrope::{judge, numbers, plain, read, walk, why, Reason, Refusal, SEAL_MOST, TABLE_MOST, TEXT_MOST};
use reference::front;

const HEADER_THREE: &[u8] = b"\xDC\x02\xD9\xC5\xD9\xB7\x5E\x65\x19\xA6\x31\x9E\xF5\x31\x9E\xF5\x01\x02";
const HEADER_FOUR: &[u8] = b"\xDC\x03\xD9\xC5\xD9\xB7\x5E\x6A\x19\xA5\x19\xC9\x31\x9E\xF5\x31\x9E\xF5\x01\x02";

/// A seal of this header and message, and 56 bytes of signature.
fn seal(header: &[u8], message: &[u8]) -> Vec<u8> {
    [header, message, &[0xFF, 56], &[0xAA; 56]].concat()
}

/// Seal A of the tender.
fn seal_a() -> Vec<u8> {
    seal(HEADER_THREE, b"\x0A\x04\xDE\x51\x58\x26")
}

/// The bytes with others from a place on.
fn with(bytes: &[u8], place: usize, new: &[u8]) -> Vec<u8> {
    let mut bytes = bytes.to_vec();
    bytes[place..place + new.len()].copy_from_slice(new);
    bytes
}

/// Number, place and front part of a refused seal, as the judge, a reading and the reason give them.
fn refused(seal: &[u8]) -> (usize, usize, usize) {
    let refusal = judge(seal).expect_err("a refused seal");
    let Refusal { number, place, front } = refusal;
    assert_eq!(read(seal, &mut [0; TABLE_MOST], &mut [0; TEXT_MOST]).expect_err("a refused seal"), refusal);
    assert_eq!(read(seal, &mut [], &mut []).expect_err("a refused seal"), refusal);
    assert_eq!(why(seal).map(|reason| reason.refusal()), Some(refusal));
    assert_eq!(front, reference::front(seal), "{seal:02X?}");
    (number, place, front)
}

#[test]
fn seal_a_and_its_refusals() {
    let seal = seal_a();
    assert_eq!(refused(&[]), (2, 0, 0));
    assert_eq!(refused(&[&seal[..], &[0]].concat()), (11, 82, 82));
    assert_eq!(refused(&seal[..81]), (2, 26, 81));
    assert_eq!(refused(&with(&seal, 24, &[0x0A])), (9, 24, 24));
    // 25 March of year 0, 32 March, and month 13.
    assert_eq!(refused(&with(&seal, 10, b"\x31\x97\x50")), (6, 10, 12));
    assert_eq!(refused(&with(&seal, 10, b"\x32\xB0\x55")), (6, 10, 11));
    assert_eq!(refused(&with(&seal, 10, b"\xC6\x84\x51")), (6, 10, 10));
    // Version 4 with L = 00.
    assert_eq!(refused(b"\xDC\x03\xD9\xC5\xD9\xB7\x5E\x65"), (5, 4, 7));
}

/// "For an accepted seal it is the whole length", also where there is no room for the reading of it.
#[test]
fn good_seals_and_no_room() {
    for seal in [seal_a(), seal(HEADER_THREE, b""), seal(HEADER_FOUR, b"\x07\x00"), seal_of(SEAL_MOST)] {
        let front = seal.len();
        assert_eq!((plain::judge(&seal).number, plain::judge(&seal).front), (numbers::DONE, front));
        let no_room = Refusal { number: numbers::READ_ROOM, place: 0, front };
        assert_eq!(read(&seal, &mut [0; TABLE_MOST], &mut [0; 8]), Err(no_room));
    }
}

/// A walk, a look-up and what is no reading give no front part.
#[test]
fn other_calls_have_none() {
    let cut = &seal_a()[..81];
    assert_eq!(walk(cut).err(), Some(Refusal { number: 2, place: 26, front: 0 }));
    let shown = fenderrope::shown(cut, cut, 10).expect_err("a refused seal");
    assert_eq!(shown.refusal(), Refusal { number: 2, place: 26, front: 0 });
    assert_eq!(fenderrope::c40_write(b"XKcd", &mut [0; 8]), Err(Refusal { number: 43, place: 2, front: 0 }));
    assert_eq!(fenderrope::hash(65), Err(Refusal { number: 60, place: 0, front: 0 }));
}

/// A refusal shows itself without it.
#[test]
fn the_line_of_a_refusal_stays() {
    let refusal = judge(&with(&seal_a(), 24, &[0x0A])).expect_err("a used tag");
    assert_eq!(refusal.to_string(), "refused 9 at 24: tag already used");
}

/// The sixth line of a reason.
fn sixth(seal: &[u8]) -> String {
    let reason: Reason = why(seal).expect("a refused seal");
    let shown = reason.to_string();
    assert_eq!((shown.lines().count(), shown.ends_with('\n')), (6, false));
    shown.lines().last().unwrap_or_default().to_string()
}

#[test]
fn sixth_lines() {
    let seal = seal_a();
    assert_eq!(sixth(&[]), "good up to 0, the input ends too early");
    assert_eq!(sixth(&[0x0F]), "good up to 0, no seal has 0F there");
    assert_eq!(sixth(&seal[..26]), "good up to 26, the input ends too early");
    assert_eq!(sixth(&with(&seal, 24, &[0x0A])), "good up to 24, no seal has 0A there");
    assert_eq!(sixth(&[&seal[..], &[0, 1]].concat()), "good up to 82, no seal has 00 there");
    assert_eq!(sixth(&with(&seal, 10, b"\x31\x97\x50")), "good up to 12, no seal has 50 there");
    let long = seal_of(SEAL_MOST);
    assert_eq!(sixth(&[&long[..], &[0xEF]].concat()), "good up to 4096, no seal has EF there");
    assert_eq!(sixth(&[0; 5000]), "good up to 0, no seal has 00 there");
}

/// A good version 4 seal of so many bytes, with one long value.
fn seal_of(size: usize) -> Vec<u8> {
    let value = size - HEADER_FOUR.len() - 4 - 58;
    let length = (value as u16).to_be_bytes();
    let seal = seal(HEADER_FOUR, &[&[0x07, 0x82, length[0], length[1]][..], &vec![0x5A; value]].concat());
    assert_eq!((judge(&seal).is_ok(), seal.len()), (size <= SEAL_MOST, size));
    seal
}

/// At the limit: 4,097 bytes are too many from the length's last byte on, and what is behind 4,096 is hopeless.
#[test]
fn about_4096_bytes() {
    assert_eq!(refused(&seal_of(SEAL_MOST + 1)), (1, SEAL_MOST, 23));
    assert_eq!(refused(&seal_of(SEAL_MOST)[..SEAL_MOST - 1]), (2, 4040, SEAL_MOST - 1));
    assert_eq!(refused(&[seal_of(SEAL_MOST), vec![0; 9]].concat()), (1, SEAL_MOST, SEAL_MOST));
    assert_eq!(refused(&[seal_of(500), vec![0; SEAL_MOST]].concat()), (1, SEAL_MOST, 500));
}

/// How many of all bytes at a place are hopeful; the library says so as the reference does.
fn hopeful(seal: &[u8], place: usize) -> usize {
    let count = |byte: &u8| {
        let changed = with(seal, place, &[*byte]);
        let found = plain::judge(&changed).front;
        assert_eq!(found, front(&changed), "{changed:02X?}");
        found > place
    };
    (0..=255).filter(count).count()
}

#[test]
fn every_byte_changed_to_every_other() {
    for (header, names) in [(HEADER_THREE, 10), (HEADER_FOUR, 12)] {
        let seal = seal(header, b"\x0A\x04\xDE\x51\x58\x26\x00\x00\xFE\x7F");
        let seal = [&seal[..header.len() + 10], &[0xFF; 127], &seal[header.len() + 10..]].concat();
        let counts: Vec<usize> = (0..seal.len()).map(|place| hopeful(&seal, place)).collect();
        assert_eq!((counts[0], counts[1]), (1, 2));
        // 69 first bytes of dates, 254 numbers; a tag that is not used and FF; at the end four first bytes of lengths.
        assert_eq!((counts[names], counts[names + 3], counts[names + 6], counts[names + 7]), (69, 69, 254, 254));
        assert_eq!((counts[header.len()], counts[header.len() + 6], counts[header.len() + 8]), (256, 255, 254));
        let mark = seal.len() - 58;
        assert_eq!((counts[mark], counts[mark + 1], counts[mark + 2]), (253, 4, 256));
        for cut in 0..seal.len() {
            assert_eq!((plain::judge(&seal[..cut]).front, front(&seal[..cut])), (cut, cut));
        }
    }
}

/// Every pair at a place, and how many of them are hopeful to the second byte.
fn hopeful_pairs(seal: &[u8], place: usize) -> usize {
    let count = |pair: &u16| {
        let changed = with(seal, place, &pair.to_be_bytes());
        let found = plain::judge(&changed).front;
        assert_eq!(found, front(&changed), "{changed:02X?}");
        found > place + 1
    };
    (0..=u16::MAX).filter(count).count()
}

/// A country of one, two or three letters; a signer's three; letters and digits; one of these and L; one, two or three.
#[test]
fn every_pair_of_the_header() {
    let (three, four) = (seal_a(), seal(HEADER_FOUR, b""));
    let one = seal(b"\xDC\x03\xD9\xC5\xD9\xB7\x5E\x66\xFE\x38\x31\x9E\xF5\x31\x9E\xF5\x01\x02", b"");
    assert_eq!(hopeful_pairs(&three, 2), 26 + 26 * 26 + 26 * 26 * 26);
    assert_eq!(hopeful_pairs(&three, 4), 26 * 26 * 36);
    assert_eq!((hopeful_pairs(&three, 6), hopeful_pairs(&three, 8)), (36 * 36 * 36, 36 * 36 * 36));
    assert_eq!(hopeful_pairs(&four, 6), 36 * 255);
    assert_eq!(
        (hopeful_pairs(&four, 8), hopeful_pairs(&four, 10), hopeful_pairs(&one, 8)),
        (36 * 36 * 36, 36 * 36, 36)
    );
}

/// Every three bytes of a date whose first is at a border: where January begins, in February, and where December ends.
#[test]
fn dates_at_the_borders() {
    for (first, days) in [(0x0E, 0), (0x0F, 38_572), (0x22, 62_681), (0xBB, 64_762), (0xBC, 0)] {
        let of_first = |rest: &u16| {
            let [second, third] = rest.to_be_bytes();
            let changed = with(&seal_a(), 10, &[first, second, third]);
            let found = plain::judge(&changed).front;
            assert_eq!(found, front(&changed), "{changed:02X?}");
            found > 12
        };
        let count = (0..=u16::MAX).filter(of_first).count();
        assert_eq!(count, days, "{first:02X}");
    }
}
