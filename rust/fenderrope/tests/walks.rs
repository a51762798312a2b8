//! What the crate makes of walks and look-ups: features and values as parts of the lent seals, and refusals in words.

use fenderrope::{judge, numbers, plain, read, shown, walk, Feature, NotShown, Refusal, Shown, Which};
use fenderrope::{TABLE_MOST, TEXT_MOST};

const HEADER_THREE: &[u8] = b"\xDC\x02\xD9\xC5\xD9\xB7\x5E\x65\x19\xA6\x31\x9E\xF5\x31\x9E\xF5\x01\x02";
const HEADER_FOUR: &[u8] = b"\xDC\x03\xD9\xC5\xD9\xB7\x5E\x6A\x19\xA5\x19\xC9\x31\x9E\xF5\x31\x9E\xF5\x01\x02";

/// A seal of this header and message, and 56 bytes of signature.
fn seal(header: &[u8], message: &[u8]) -> Vec<u8> {
    [header, message, &[0xFF, 56], &[0xAA; 56]].concat()
}

/// Seal A of the tender.
fn seal_a() -> Vec<u8> {
    seal(HEADER_THREE, b"\x0A\x04\xDE\x51\x58\x26")
}

/// Version 4: lengths of one, two and three bytes, FF in the values, and an empty value last.
fn long_seal() -> Vec<u8> {
    let features = [&b"\x07\x02\xFF\x38"[..], b"\xFE\x81\x80", &[0xFF; 128], b"\x00\x82\x01\x00", &[0x0B; 256]];
    seal(HEADER_FOUR, &[&features.concat()[..], b"\x0B\x00"].concat())
}

/// The same bytes at the same place in memory: no copy.
fn same_memory(left: &[u8], right: &[u8]) -> bool {
    std::ptr::eq(left, right)
}

/// The walk gives the reading's features in order, each of them a part of the seal, and then nothing again and again.
fn walks_as_it_reads(seal: &[u8]) {
    let (mut table, mut text) = ([0; TABLE_MOST], [0; TEXT_MOST]);
    let reading = read(seal, &mut table, &mut text).expect("a good seal");
    let mut walk = walk(seal).expect("a good seal");
    for expected in reading.features() {
        let feature = walk.next().expect("another feature");
        let end = feature.place + feature.value.len();
        assert_eq!(feature, expected);
        assert!(same_memory(feature.whole, &seal[feature.tag_place..end]));
        assert!(same_memory(feature.value, &seal[feature.place..end]));
    }
    for _ in 0..3 {
        assert_eq!(walk.next(), None);
    }
}

#[test]
fn a_walk_gives_what_a_reading_gives() {
    for seal in [seal_a(), long_seal(), seal(HEADER_THREE, b""), seal(HEADER_FOUR, b"")] {
        walks_as_it_reads(&seal);
    }
    for header in [HEADER_THREE, HEADER_FOUR] {
        let all: Vec<u8> = (0..255).rev().flat_map(|tag| [tag, 1, 0xFF]).collect();
        walks_as_it_reads(&seal(header, &all));
    }
}

#[test]
fn features_of_a_walk() {
    let seal = seal_a();
    let feature = Feature { tag: 10, tag_place: 18, place: 20, whole: &seal[18..24], value: &seal[20..24] };
    assert_eq!(walk(&seal).expect("Seal A is good").collect::<Vec<_>>(), [feature]);
    let seal = long_seal();
    let found: Vec<_> = walk(&seal).expect("a good seal").map(|feature| (feature.tag, feature.value.len())).collect();
    assert_eq!(found, [(7, 2), (254, 128), (0, 256), (11, 0)]);
}

/// A clone goes on from where the walk stands, apart from it.
#[test]
fn a_walk_that_is_cloned() {
    let seal = long_seal();
    let mut first = walk(&seal).expect("a good seal");
    assert_eq!(first.next().map(|feature| feature.tag), Some(7));
    let second = first.clone();
    assert_eq!(first, second);
    assert_eq!(first.next().map(|feature| feature.tag), Some(254));
    assert_ne!(first, second);
    assert_eq!((first.count(), second.count()), (2, 3));
}

/// The features outlive the walk: they are the seal's.
#[test]
fn features_without_their_walk() {
    let seal = long_seal();
    let find = |tag| walk(&seal).ok()?.find(|feature| feature.tag == tag);
    assert_eq!(find(254).map(|feature| feature.value), Some(&[0xFF; 128][..]));
    assert_eq!((find(11).map(|feature| feature.value), find(12)), (Some(&[][..]), None));
}

/// A refused seal opens no walk, in every cut and with a byte more; number and place are the judge's, and there is no
/// front part.
#[test]
fn refused_seals_open_no_walk() {
    for good in [seal_a(), long_seal()] {
        let cuts = (0..good.len()).map(|length| good[..length].to_vec());
        for wrong in cuts.chain([[&good[..], &[0]].concat(), [&good[..], &[0; 4096]].concat()]) {
            let refusal = judge(&wrong).expect_err("a refused seal");
            assert_eq!(walk(&wrong).err(), Some(Refusal { front: 0, ..refusal }));
            assert_eq!(plain::walk_open(&wrong).at, 0);
            assert_eq!(plain::walk_next(&wrong, 0).number, numbers::WALK_END);
        }
    }
}

/// A step is made at any place of any bytes; on 51 every other number is 0.
#[test]
fn plain_steps() {
    let (seal, end) = (seal_a(), plain::Step { number: numbers::WALK_END, ..plain::Step::default() });
    let start = plain::walk_open(&seal);
    assert_eq!((start.number, start.place, start.at), (0, 0, 18));
    let step = plain::walk_next(&seal, start.at);
    assert_eq!((step.number, step.place, step.tag, step.tag_place, step.at), (0, 0, 10, 18, 24));
    assert_eq!((step.value.place, step.value.length), (20, 4));
    for place in [0, 24, 25, 81, 82, 83, usize::MAX] {
        assert_eq!(plain::walk_next(&seal, place), end);
    }
    // No feature of the seal begins there.
    let step = plain::walk_next(&seal, 16);
    assert_eq!((step.number, step.tag, step.value.place, step.value.length, step.at), (0, 1, 18, 2, 20));
    assert_eq!((plain::walk_next(&[], 0), plain::walk_next(&[], 1), plain::walk_next(&[2; 9], 9)), (end, end, end));
}

/// The value is shown out of the extension if it has the feature, else out of the main seal, and is no copy.
#[test]
fn values_out_of_the_extension_or_the_main_seal() {
    let (main, extension) = (long_seal(), seal(HEADER_THREE, b"\x0A\x01\x55\x0B\x02\x59\xBF"));
    for (tag, which, place, length) in [
        (11, Which::Extension, 23, 2),
        (10, Which::Extension, 20, 1),
        (7, Which::Main, 22, 2),
        (254, Which::Main, 27, 128),
        (0, Which::Main, 159, 256),
    ] {
        let shown = shown(&main, &extension, tag).expect("a feature of one of them");
        let seal = if which == Which::Main { &main } else { &extension };
        assert_eq!(shown, Shown { which, place, value: &seal[place..place + length] });
        assert!(same_memory(shown.value, &seal[place..place + length]));
    }
    // The other way about the other one is the extension, and its empty value covers that of the main seal.
    let empty = shown(&extension, &main, 11).expect("a feature of both");
    assert_eq!((empty.which, empty.place, empty.value), (Which::Extension, 417, &[][..]));
    assert!(same_memory(empty.value, &main[417..417]));
}

/// One slice may be lent twice, and so may parts of one buffer.
#[test]
fn one_slice_lent_twice() {
    let (seal, empty) = (seal_a(), seal(HEADER_FOUR, b"\x0A\x00"));
    let found = shown(&seal, &seal, 10).expect("a feature of it");
    assert_eq!((found.which, found.place), (Which::Extension, 20));
    assert!(same_memory(found.value, &seal[20..24]));
    assert_eq!(shown(&seal, &seal, 11), Err(NotShown::Neither));
    let buffer = [seal, empty].concat();
    let (main, extension) = buffer.split_at(82);
    assert!(shown(main, extension, 10).is_ok_and(|shown| same_memory(shown.value, &buffer[104..104])));
    assert!(shown(extension, main, 10).is_ok_and(|shown| same_memory(shown.value, &buffer[20..24])));
}

#[test]
fn tags_that_neither_seal_has() {
    let (main, extension) = (seal_a(), long_seal());
    for tag in [1, 12, 253, 255, 256, 266, 256 + 7, 510, 1 << 32, (1 << 32) + 10, usize::MAX] {
        let refused = shown(&main, &extension, tag).expect_err("in neither seal");
        assert_eq!((refused, refused.which()), (NotShown::Neither, None));
        assert_eq!(refused.refusal(), Refusal { number: numbers::NO_FEATURE, place: 0, front: 0 });
    }
}

/// A refused seal is told before all else, the main one first, though the other has the feature.
#[test]
fn refused_seals_show_nothing() {
    let (good, cut, longer) = (seal_a(), &seal_a()[..81], [&seal_a()[..], &[0]].concat());
    let (at_26, at_82) = (Refusal { number: 2, place: 26, front: 0 }, Refusal { number: 11, place: 82, front: 0 });
    for tag in [10, 11, 255, usize::MAX] {
        assert_eq!(shown(cut, &good, tag), Err(NotShown::Main(at_26)));
        assert_eq!(shown(&good, cut, tag), Err(NotShown::Extension(at_26)));
        assert_eq!(shown(cut, &longer, tag), Err(NotShown::Main(at_26)));
        assert_eq!(shown(&longer, cut, tag), Err(NotShown::Main(at_82)));
        assert_eq!(shown(cut, cut, tag), Err(NotShown::Main(at_26)));
    }
    let answer = plain::shown(&good, cut, 10);
    assert_eq!((answer.number, answer.place, answer.which), (2, 26, Which::Extension.code()));
    assert_eq!((answer.value.place, answer.value.length), (0, 0));
}

#[test]
fn what_is_not_shown_in_words() {
    let used = Refusal { number: 9, place: 24, front: 0 };
    for (refused, words, which) in [
        (NotShown::Main(used), "main seal refused 9 at 24: tag already used", Some(Which::Main)),
        (NotShown::Extension(used), "extension seal refused 9 at 24: tag already used", Some(Which::Extension)),
        (NotShown::Neither, "refused 50 at 0: feature in neither seal", None),
    ] {
        let told: Box<dyn std::error::Error> = refused.into();
        assert_eq!((told.to_string(), format!("{told:?}")), (words.to_string(), words.to_string()));
        assert_eq!(refused.which(), which);
        assert!(words.ends_with(&*refused.words()));
    }
    assert_eq!((Which::Main.to_string(), Which::Extension.to_string()), ("main".into(), "extension".into()));
    let codes = [0, 1, 2, 3, 257, usize::MAX].map(Which::of_code);
    assert_eq!(codes, [None, Some(Which::Main), Some(Which::Extension), None, None, None]);
}
