//! The face in three texts: include/fenderrope.h, the Rattle sources of the calls, and this crate's declarations of
//! them. They agree in every name, in the order and width of fields and parameters, and in what is lent for writing.
//! The sizes, the numbers of a row, the names of the answers, and items and rules with their words are compared too.
//! The layout in memory is asserted where the structs stand, in src/layout.rs and in the C test, by the same numbers.

mod doctored;
mod header;
mod layouts;
mod model;
mod source;
mod tokens;

use std::collections::BTreeSet;
use std::fs;
use std::path::{Path, PathBuf};

use model::Face;

/// A file of the repository.
fn in_repository(path: &str) -> PathBuf {
    Path::new(env!("CARGO_MANIFEST_DIR")).join("../..").join(path)
}

fn text_of(path: &Path) -> String {
    fs::read_to_string(path).unwrap_or_else(|error| panic!("{}: {error}", path.display()))
}

fn header_text() -> String {
    text_of(&in_repository("include/fenderrope.h"))
}

/// All Rattle sources of the face, one after another: the structs, then the calls.
fn rattle_text() -> String {
    let crates = ["face", "face_seals", "face_why", "face_walk", "capi_c"];
    crates.iter().map(|name| sources_of(&in_repository(&format!("crates/{name}/src")))).collect()
}

/// The Rattle sources of a folder, one after another.
fn sources_of(folder: &Path) -> String {
    let entries = fs::read_dir(folder).unwrap_or_else(|error| panic!("{}: {error}", folder.display()));
    let paths = entries.map(|entry| entry.expect("a folder that can be listed").path());
    let mut sources: Vec<_> = paths.filter(|path| path.extension().is_some_and(|end| end == "rt")).collect();
    sources.sort();
    sources.iter().map(|path| text_of(path) + "\n").collect()
}

fn rust_text() -> String {
    text_of(&in_repository("rust/fenderrope/src/layout.rs")) + &text_of(&in_repository("rust/fenderrope/src/face.rs"))
}

/// What two texts do not say alike; a text that is not understood is a difference too.
fn differences(left: Result<Face, String>, right: Result<Face, String>) -> Vec<String> {
    match (left, right) {
        (Ok(left), Ok(right)) => left.differences(&right),
        (left, right) => left.err().into_iter().chain(right.err()).collect(),
    }
}

#[test]
fn the_header_says_what_the_rattle_sources_say() {
    let header = header::face(&header_text()).expect("a header that is understood");
    assert_eq!((header.structs.len(), header.calls.len()), (14, 19));
    let none: Vec<String> = Vec::new();
    assert_eq!(differences(Ok(header), source::face(&rattle_text(), "Fr")), none);
}

#[test]
fn this_crate_declares_what_the_header_says() {
    let none: Vec<String> = Vec::new();
    assert_eq!(differences(source::face(&rust_text(), ""), header::face(&header_text())), none);
}

#[test]
fn the_sizes_are_those_of_the_header() {
    let ours = [
        ("FR_SEAL_MOST", fenderrope::SEAL_MOST),
        ("FR_TEXT_MOST", fenderrope::TEXT_MOST),
        ("FR_FEATURES_MOST", fenderrope::FEATURES_MOST),
        ("FR_TABLE_MOST", fenderrope::TABLE_MOST),
        ("FR_SIGNATURE_MOST", fenderrope::SIGNATURE_MOST),
        ("FR_DER_MOST", fenderrope::DER_MOST),
        ("FR_C40_MOST", fenderrope::C40_MOST),
        ("FR_CHARACTERS_MOST", fenderrope::CHARACTERS_MOST),
        ("FR_INTEGER_MOST", fenderrope::INTEGER_MOST),
        ("FR_WORDS_MOST", fenderrope::WORDS_MOST),
        ("FR_ITEM_NAME_MOST", fenderrope::ITEM_NAME_MOST),
        ("FR_RULE_WORDS_MOST", fenderrope::RULE_WORDS_MOST),
        ("FR_ROW", fenderrope::ROW),
        ("FR_ROW_TAG", fenderrope::ROW_TAG),
        ("FR_ROW_TAG_PLACE", fenderrope::ROW_TAG_PLACE),
        ("FR_ROW_VALUE_PLACE", fenderrope::ROW_VALUE_PLACE),
        ("FR_ROW_VALUE_LENGTH", fenderrope::ROW_VALUE_LENGTH),
    ];
    let ours = ours.map(|(name, size)| (name.to_string(), size.to_string()));
    let mut defined = header::defined(&header_text());
    assert_eq!(defined.remove("FR_VERSION"), Some(format!("{:?}", env!("CARGO_PKG_VERSION"))));
    assert_eq!(defined, ours.into());
}

#[test]
fn the_numbers_have_the_names_of_the_header() {
    let ours = source::numbers(&text_of(&in_repository("rust/fenderrope/src/numbers.rs")));
    let ours = ours.expect("a source that is understood");
    let listed = (0..=200).filter(|&number| !reference::words(number).is_empty());
    assert_eq!(ours.values().copied().collect::<BTreeSet<_>>(), listed.collect());
    assert_eq!(header::numbers(&header_text(), "fr_number", "FR_").expect("a header that is understood"), ours);
}

#[test]
fn items_and_rules_have_the_names_of_the_header() {
    let text = text_of(&in_repository("rust/fenderrope/src/items.rs"));
    for (ours, theirs, front, count) in [("Item", "fr_item", "FR_ITEM_", 17), ("Rule", "fr_rule", "FR_RULE_", 18)] {
        let ours = source::enumerated(&text, ours).expect("a source that is understood");
        assert_eq!(ours.values().copied().collect::<BTreeSet<_>>(), (1..=count).collect());
        assert_eq!(header::numbers(&header_text(), theirs, front).expect("a header that is understood"), ours);
    }
}

/// The header has a third name, for neither of the two seals, which is no seal here.
#[test]
fn the_two_seals_have_the_names_of_the_header() {
    let text = text_of(&in_repository("rust/fenderrope/src/shown.rs"));
    let ours = source::enumerated(&text, "Which").expect("a source that is understood");
    let mut theirs = header::numbers(&header_text(), "fr_which", "FR_").expect("a header that is understood");
    assert_eq!((theirs.remove("NEITHER"), ours.len()), (Some(0), 2));
    assert_eq!(theirs, ours);
    assert_eq!((ours["MAIN"], ours["EXTENSION"]), (reference::MAIN, reference::EXTENSION));
}

/// The words that the library gives are compared with the reference's; the header's comments say the same.
#[test]
fn items_and_rules_have_the_words_of_the_header() {
    type Words = fn(usize) -> &'static str;
    for (name, words) in [("fr_item", reference::item_name as Words), ("fr_rule", reference::rule_words)] {
        let listed = (0..=200).filter(|&code| !words(code).is_empty());
        let expected = listed.map(|code| (code, words(code).to_string()));
        assert_eq!(header::words(&header_text(), name), expected.collect());
    }
}

#[test]
fn a_seal_is_read_through_these_declarations() {
    let seal = seal_a();
    let (mut table, mut text) = ([7; 6], [7; 11]);
    let reading = fenderrope::plain::read(&seal, &mut table, &mut text);
    let date = fenderrope::Date { month: 3, day: 25, year: 1957 };
    assert_eq!((reading.number, reading.place, reading.count), (0, 0, 1));
    assert_eq!((reading.header.version, reading.header.country, reading.header.length), (3, *b"UTO", 5));
    assert_eq!((reading.header.issued_on, reading.header.signed_on), (date, date));
    assert_eq!((reading.header.definition, reading.header.category), (1, 2));
    assert_eq!((reading.ends.header, reading.ends.message, reading.ends.seal), (18, 24, 82));
    assert_eq!((reading.signature.place, reading.signature.length, reading.front), (26, 56, 82));
    assert_eq!((table, &text), ([10, 18, 20, 4, 7, 7], b"UTAB00001\x07\x07"));
}

/// Seal A with a signature length that is not the shortest: all numbers of the reason are others.
#[test]
fn a_reason_is_told_through_these_declarations() {
    let mut seal = seal_a();
    seal[25] = 0x81;
    seal[26] = 56;
    let reason = fenderrope::plain::why(&seal);
    assert_eq!((reason.number, reason.place, reason.item, reason.rule), (8, 25, 15, 18));
    assert_eq!((reason.judged.place, reason.judged.length), (25, 2));
    let (mut name, mut words) = ([7; 18], [7; 36]);
    let (item, rule) = (fenderrope::plain::item_name(15, &mut name), fenderrope::plain::rule_words(18, &mut words));
    assert_eq!((item.number, item.place, item.count, &name), (0, 0, 16, b"signature length\x07\x07"));
    assert_eq!((rule.number, rule.place, rule.count), (0, 0, 34));
    assert_eq!(&words, b"the length is in its shortest form\x07\x07");
}

/// A walk over Seal A, a look-up in it and one that is refused: all numbers of an answer are others, where they can be.
#[test]
fn walks_and_look_ups_through_these_declarations() {
    let seal = seal_a();
    let start = fenderrope::plain::walk_open(&seal[..81]);
    assert_eq!((start.number, start.place, start.at), (2, 26, 0));
    assert_eq!(fenderrope::plain::walk_open(&seal).at, 18);
    let step = fenderrope::plain::walk_next(&seal, 18);
    assert_eq!((step.number, step.place, step.tag, step.tag_place), (0, 0, 10, 18));
    assert_eq!((step.value.place, step.value.length, step.at), (20, 4, 24));
    let shown = fenderrope::plain::shown(&seal, &seal, 10);
    assert_eq!((shown.number, shown.place, shown.which), (0, 0, 2));
    assert_eq!((shown.value.place, shown.value.length), (20, 4));
    let refused = fenderrope::plain::shown(&seal[..81], &seal, 10);
    assert_eq!((refused.number, refused.place, refused.which), (2, 26, 1));
    assert_eq!((refused.value.place, refused.value.length), (0, 0));
}

/// Seal A of the tender.
fn seal_a() -> Vec<u8> {
    let mut seal = b"\xDC\x02\xD9\xC5\xD9\xB7\x5E\x65\x19\xA6\x31\x9E\xF5\x31\x9E\xF5\x01\x02".to_vec();
    seal.extend([0x0A, 4, 0xDE, 0x51, 0x58, 0x26, 0xFF, 56]);
    seal.extend([0xAA; 56]);
    seal
}
