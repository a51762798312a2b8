//! What the crate makes of a reason: the item and the rule by name, the bytes judged as a part of the seal, and the
//! lines that the crew reads.

use fenderrope::{judge, why, Item, Reason, Refusal, Rule};

/// Seal A of the tender.
fn seal_a() -> Vec<u8> {
    let mut seal = b"\xDC\x02\xD9\xC5\xD9\xB7\x5E\x65\x19\xA6\x31\x9E\xF5\x31\x9E\xF5\x01\x02".to_vec();
    seal.extend([0x0A, 4, 0xDE, 0x51, 0x58, 0x26, 0xFF, 56]);
    seal.extend([0xAA; 56]);
    seal
}

/// Seal A with these bytes put at a place.
fn with(place: usize, new: &[u8]) -> Vec<u8> {
    let mut seal = seal_a();
    seal[place..place + new.len()].copy_from_slice(new);
    seal
}

/// The reason of a refused seal: number, place and front part are the judge's, the bytes judged stand at the place, and
/// the hopeless byte behind the front part.
fn reason(seal: &[u8]) -> Reason<'_> {
    let reason = why(seal).expect("a refused seal");
    assert_eq!(judge(seal), Err(reason.refusal()));
    assert_eq!(reason.refusal(), Refusal { number: reason.number, place: reason.place, front: reason.front });
    assert_eq!(reason.hopeless, seal.get(reason.front).copied());
    assert_eq!(reason.judged.as_ptr(), seal[reason.place..].as_ptr());
    reason
}

/// The item, the rule and how many bytes were judged.
fn named(seal: &[u8]) -> (Item, Rule, usize) {
    let Reason { item, rule, judged, .. } = reason(seal);
    (item, rule, judged.len())
}

#[test]
fn an_accepted_seal_has_none() {
    assert_eq!(why(&seal_a()), None);
}

/// Seal A with one fault, from the left. Three spaces are 13 3C.
#[test]
fn items_and_rules_of_seal_a() {
    assert_eq!(named(&[]), (Item::Mark, Rule::There, 0));
    assert_eq!(named(&with(0, b"\xDD")), (Item::Mark, Rule::Mark, 1));
    assert_eq!(named(&with(1, b"\x04")), (Item::Version, Rule::Version, 1));
    assert_eq!(named(&with(2, b"\x00\x00")), (Item::Country, Rule::WellCoded, 2));
    assert_eq!(named(&with(2, b"\x13\x3C")), (Item::Country, Rule::Country, 2));
    assert_eq!(named(&with(8, b"\xFE\x42")), (Item::Names, Rule::WellCoded, 2));
    assert_eq!(named(&with(4, b"\x13\x3C")), (Item::Names, Rule::Signer, 6));
    assert_eq!(named(&with(8, b"\x13\x3C")), (Item::Names, Rule::Reference, 6));
    assert_eq!(named(&with(10, b"\x00\x00\x00")), (Item::Issued, Rule::Day, 3));
    assert_eq!(named(&with(13, b"\xFF\xFF\xFF")), (Item::Signed, Rule::Day, 3));
    assert_eq!(named(&with(16, b"\x00")), (Item::Definition, Rule::OneTo254, 1));
    assert_eq!(named(&with(17, b"\xFF")), (Item::Category, Rule::OneTo254, 1));
    assert_eq!(named(&with(19, b"\xFF")), (Item::Value, Rule::There, 62));
    assert_eq!(named(&with(24, b"\x0A")), (Item::Tag, Rule::NotUsedBefore, 1));
    assert_eq!(named(&with(25, b"\x80")), (Item::SignatureLength, Rule::BeginsLength, 1));
    assert_eq!(named(&with(25, b"\x81\x38")), (Item::SignatureLength, Rule::Shortest, 2));
    assert_eq!(named(&with(25, b"\x39")), (Item::SignatureLength, Rule::SignatureSize, 1));
    assert_eq!(named(&with(25, b"\x82")[..27]), (Item::SignatureLength, Rule::RestThere, 2));
    assert_eq!(named(&seal_a()[..81]), (Item::Signature, Rule::There, 55));
    assert_eq!(named(&[seal_a(), vec![1, 2, 3]].concat()), (Item::End, Rule::NothingAfter, 1));
    assert_eq!(named(&[seal_a(), vec![0; 4096]].concat()), (Item::Seal, Rule::NotTooLong, 1));
}

/// What version 4 has of its own, behind the country. The characters B, G and 0 are 60 E5.
#[test]
fn items_and_rules_of_version_four() {
    let front = |names: &[u8]| [b"\xDC\x03\xD9\xC5", names].concat();
    assert_eq!(named(&front(b"\xD9\xB7\x5E\x66\xFE\x38")), (Item::Issued, Rule::There, 0));
    assert_eq!(named(&front(b"\xD9\xB7\x00\x00")), (Item::SignerAndLength, Rule::WellCoded, 2));
    assert_eq!(named(&front(b"\x13\x3C\x5E\x66")), (Item::SignerAndLength, Rule::Signer, 4));
    assert_eq!(named(&front(b"\xD9\xB7\x60\xE5")), (Item::SignerAndLength, Rule::Hexadecimal, 4));
    assert_eq!(named(&front(b"\xD9\xB7\x5E\x65")), (Item::SignerAndLength, Rule::NotZero, 4));
    assert_eq!(named(&front(b"\xD9\xB7\x5E\x66\xFE")), (Item::Reference, Rule::There, 1));
    assert_eq!(named(&front(b"\xD9\xB7\x5E\x66\xFE\x21")), (Item::Reference, Rule::Reference, 2));
    let feature = b"\xD9\xB7\x5E\x66\xFE\x38\x31\x9E\xF5\x31\x9E\xF5\x01\x02\x07";
    assert_eq!(named(&front(feature)), (Item::Length, Rule::There, 0));
    assert_eq!(named(&front(&[feature, &b"\x82\x00\x80"[..]].concat())), (Item::Length, Rule::Shortest, 3));
}

/// The lines of a reason that shows these bytes.
fn lines_of(judged: &[u8]) -> String {
    let (item, rule, front, hopeless) = (Item::Signature, Rule::There, 81, None);
    Reason { number: 2, place: 26, item, rule, judged, front, hopeless }.to_string()
}

/// None, one, sixteen, seventeen and many bytes.
#[test]
fn the_lines_that_the_crew_reads() {
    let around = |bytes: &str| {
        let rule = "all its bytes are there\ngood up to 81, the input ends too early";
        format!("number 2\nitem signature\nplace 26\nbytes {bytes}\nrule {rule}")
    };
    let counted: Vec<u8> = (0..=255).collect();
    let sixteen = "00 01 02 03 04 05 06 07 08 09 0A 0B 0C 0D 0E 0F";
    assert_eq!(lines_of(&[]), around("none"));
    assert_eq!(lines_of(&[0xAB]), around("AB"));
    assert_eq!(lines_of(&counted[..2]), around("00 01"));
    assert_eq!(lines_of(&counted[..15]), around(&sixteen[..44]));
    assert_eq!(lines_of(&counted[..16]), around(sixteen));
    assert_eq!(lines_of(&counted[..17]), around(&format!("{sixteen} and 1 more")));
    assert_eq!(lines_of(&counted[..20]), around(&format!("{sixteen} and 4 more")));
    assert_eq!(lines_of(&counted), around(&format!("{sixteen} and 240 more")));
    assert_eq!(lines_of(&[0; 4096]), around(&format!("{} and 4080 more", ["00"; 16].join(" "))));
}

#[test]
fn lines_of_refused_seals() {
    let used = reason(&with(24, b"\x0A")).to_string();
    assert_eq!(
        used,
        "number 9\nitem tag\nplace 24\nbytes 0A\nrule a tag is used once only\ngood up to 24, no seal has 0A there"
    );
    let empty = reason(&[]).to_string();
    assert_eq!(
        empty,
        "number 2\nitem mark\nplace 0\nbytes none\nrule all its bytes are there\ngood up to 0, the input ends too early"
    );
    let cut = reason(&seal_a()[..81]).to_string();
    let shown = ["AA"; 16].join(" ");
    assert_eq!(
        cut,
        format!(
            "number 2\nitem signature\nplace 26\nbytes {shown} and 39 more\nrule all its bytes are there\n\
             good up to 81, the input ends too early"
        )
    );
}

/// All items and all rules have their codes in order, and come back from them.
#[test]
fn codes_of_items_and_rules() {
    assert!(Item::ALL.iter().map(|item| item.code()).eq(1..=17));
    assert!(Rule::ALL.iter().map(|rule| rule.code()).eq(1..=18));
    assert!(Item::ALL.iter().all(|&item| Item::of_code(item.code()) == Some(item)));
    assert!(Rule::ALL.iter().all(|&rule| Rule::of_code(rule.code()) == Some(rule)));
    for code in [0, 18, 19, 256, usize::MAX] {
        assert_eq!(Item::of_code(code), None);
        assert_eq!(Rule::of_code(code), Some(Rule::Shortest).filter(|_| code == 18));
    }
}
