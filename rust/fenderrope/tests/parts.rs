//! What the crate adds to the calls: a reading and its parts, and words for people.

use fenderrope::{
    judge, numbers, read, write, Date, Feature, Hash, Header, Refusal, ROW, SEAL_MOST, TABLE_MOST, TEXT_MOST,
};

/// A version 3 seal with these features, and 56 bytes of signature.
fn made(features: &[(usize, &[u8])]) -> Vec<u8> {
    made_in(3, features)
}

/// The same in a version. The rows' second numbers are no places of tags: the writer ignores them.
fn made_in(version: usize, features: &[(usize, &[u8])]) -> Vec<u8> {
    let header = Header { version, ..judge(&seal_a()).expect("Seal A is good").header };
    let (mut rows, mut values, mut out) = (Vec::new(), Vec::new(), [0; SEAL_MOST]);
    for (tag, value) in features {
        rows.extend([*tag, usize::MAX, values.len(), value.len()]);
        values.extend_from_slice(value);
    }
    let length = write(&header, b"UTAB00001", &rows, &values, &[0xAA; 56], &mut out).expect("a legal content");
    out[..length].to_vec()
}

/// Seal A of the tender.
fn seal_a() -> Vec<u8> {
    let mut seal = b"\xDC\x02\xD9\xC5\xD9\xB7\x5E\x65\x19\xA6\x31\x9E\xF5\x31\x9E\xF5\x01\x02".to_vec();
    seal.extend([0x0A, 4, 0xDE, 0x51, 0x58, 0x26, 0xFF, 56]);
    seal.extend([0xAA; 56]);
    seal
}

#[test]
fn parts_are_those_of_the_seal() {
    let (seal, mut table, mut text) = (seal_a(), [7; ROW + 2], [7; 11]);
    let reading = read(&seal, &mut table, &mut text).expect("Seal A is good");
    let feature = Feature { tag: 10, tag_place: 18, place: 20, whole: &seal[18..24], value: &seal[20..24] };
    assert_eq!(reading.features().collect::<Vec<_>>(), [feature]);
    assert_eq!(reading.names(), ("UTAB", "00001"));
    assert_eq!(reading.signed(), &seal[..24]);
    assert_eq!(reading.signature(), [0xAA; 56]);
    assert_eq!(reading.seal(), seal);
    assert_eq!((reading.header(), reading.verdict()), (judge(&seal).unwrap().header, judge(&seal).unwrap()));
}

#[test]
fn features_by_tag_and_in_the_seals_order() {
    let seal = made(&[(200, b"last"), (11, b""), (0, b"first"), (254, b"\xFF\xFF")]);
    let (mut table, mut text) = ([0; TABLE_MOST], [0; TEXT_MOST]);
    let reading = read(&seal, &mut table, &mut text).expect("a good seal");
    let tags: Vec<_> = reading.features().map(|feature| feature.tag).collect();
    assert_eq!((tags, reading.features().len()), (vec![200, 11, 0, 254], 4));
    assert_eq!(reading.features().next_back(), reading.feature(254));
    let value = |tag| reading.feature(tag).map(|feature: Feature| feature.value);
    assert_eq!((value(0), value(11), value(254)), (Some(&b"first"[..]), Some(&[][..]), Some(&[0xFF; 2][..])));
    assert_eq!((value(1), value(255), value(256), value(456), value(usize::MAX)), (None, None, None, None, None));
}

/// Whole features and values: each whole stands at its tag's place, begins with the tag and ends with the value; the
/// value is so many bytes behind; and one after another the wholes are the message.
fn wholes_are_the_message(seal: &[u8], behind: &[usize]) {
    let (mut table, mut text) = ([0; TABLE_MOST], [0; TEXT_MOST]);
    let reading = read(seal, &mut table, &mut text).expect("a good seal");
    let ends = reading.verdict().ends;
    let mut end = ends.header;
    for (feature, &behind) in reading.features().zip(behind) {
        assert_eq!((feature.tag_place, feature.place), (end, end + behind));
        assert_eq!((usize::from(feature.whole[0]), &feature.whole[behind..]), (feature.tag, feature.value));
        end += feature.whole.len();
        assert_eq!((feature.whole, feature.value), (&seal[feature.tag_place..end], &seal[feature.place..end]));
    }
    let wholes: Vec<_> = reading.features().map(|feature| feature.whole).collect();
    assert_eq!((wholes.len(), &wholes.concat()[..]), (behind.len(), &seal[ends.header..ends.message]));
    assert_eq!((end, seal[end]), (ends.message, 0xFF));
}

#[test]
fn whole_features_are_the_message() {
    let value = [0xFF; 300];
    let features = [0, 1, 127, 128, 255, 256, 300, 0].map(|length| &value[..length]);
    let features: Vec<_> = (7..).zip(features).collect();
    wholes_are_the_message(&made_in(4, &features), &[2, 2, 2, 3, 3, 4, 4, 2]);
    wholes_are_the_message(&made_in(3, &features[..5]), &[2; 5]);
    wholes_are_the_message(&made_in(4, &features[5..]), &[4, 4, 2]);
    wholes_are_the_message(&seal_a(), &[2]);
    for version in [3, 4] {
        wholes_are_the_message(&made_in(version, &[]), &[]);
        let all: Vec<(usize, &[u8])> = (0..255).map(|tag| (tag, &b"\xFF\x38"[..tag % 3])).collect();
        wholes_are_the_message(&made_in(version, &all), &[2; 255]);
    }
}

#[test]
fn a_seal_without_features_has_none() {
    let (seal, mut text) = (made(&[]), [0; 9]);
    let reading = read(&seal, &mut [], &mut text).expect("a good seal");
    assert_eq!((reading.features().count(), reading.feature(0)), (0, None));
}

#[test]
fn the_verdict_says_what_room_a_reading_needs() {
    for seal in [seal_a(), made(&[]), made(&[(1, b"a"), (2, b"b")])] {
        let verdict = judge(&seal).expect("a good seal");
        let (rows, names) = (verdict.table_room(), verdict.text_room());
        assert_eq!((rows, names), (ROW * verdict.count, 4 + verdict.header.length));
        let enough = |rows, names| match read(&seal, &mut vec![0; rows], &mut vec![0; names]) {
            Ok(reading) => reading.verdict() == verdict,
            Err(refusal) => panic!("{refusal}"),
        };
        assert!(enough(rows, names) && enough(rows + 1, names + 1));
        let no_room = Refusal { number: numbers::READ_ROOM, place: 0, front: seal.len() };
        assert_eq!(read(&seal, &mut vec![0; rows], &mut vec![0; names - 1]), Err(no_room));
        // One short, three numbers a feature, and none.
        for short in [rows.saturating_sub(1), (ROW - 1) * verdict.count, 0].into_iter().filter(|&short| short < rows) {
            let mut table = vec![7; short];
            assert_eq!(read(&seal, &mut table, &mut vec![0; names]), Err(no_room));
            assert_eq!(table, vec![7; short]);
        }
    }
}

#[test]
fn what_was_read_is_written_with_another_signature() {
    let (seal, mut table, mut text, mut out) = (seal_a(), [0; ROW], [0; 9], [7; 100]);
    let reading = read(&seal, &mut table, &mut text).expect("Seal A is good");
    assert_eq!(reading.write(&[0xBB; 64], &mut out), Ok(90));
    assert_eq!(out[..90], [&seal[..25], &[64], &[0xBB; 64]].concat());
    assert_eq!(out[90..], [7; 10]);
    let (short, mut none) = ([0; 55], [7; 81]);
    assert_eq!(reading.write(&short, &mut out), Err(Refusal { number: numbers::WRITE_SIGNATURE, place: 0, front: 0 }));
    assert_eq!(
        reading.write(reading.signature(), &mut none),
        Err(Refusal { number: numbers::WRITE_ROOM, place: 0, front: 0 })
    );
    assert_eq!(none, [7; 81]);
}

#[test]
fn a_refusal_is_an_error_in_words() {
    let refusal = judge(&seal_a()[..81]).unwrap_err();
    let told: Box<dyn std::error::Error> = refusal.into();
    assert_eq!(told.to_string(), "refused 2 at 26: the input ends before an item is whole");
    assert_eq!(format!("{:?}", Err::<(), _>(refusal)), format!("Err({told})"));
    assert_eq!(Refusal { number: 13, place: 4, front: 9 }.to_string(), "refused 13 at 4");
}

#[test]
fn dates_and_hashes_in_words() {
    assert_eq!((Date::FIRST.to_string().as_str(), Date::LAST.to_string().as_str()), ("0001-01-01", "9999-12-31"));
    assert_eq!((Date::FIRST.number(), Date::LAST.number()), (Ok(1_010_001), Ok(12_319_999)));
    let hashes = [(28, Hash::Sha224), (32, Hash::Sha256), (48, Hash::Sha384), (64, Hash::Sha512), (66, Hash::Sha512)];
    for (n, hash) in hashes {
        assert_eq!(fenderrope::hash(n), Ok(hash));
    }
    assert_eq!((Hash::Sha224.to_string().as_str(), Hash::Sha512.to_string().as_str()), ("SHA-224", "SHA-512"));
}
