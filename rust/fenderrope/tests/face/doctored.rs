//! The comparison notices: the real texts, each with one thing made wrong.

use crate::{differences, header, header_text, rattle_text, rust_text, source};

/// The text with one place changed; the place must stand there exactly once.
fn with(text: &str, old: &str, new: &str) -> String {
    assert_eq!(text.matches(old).count(), 1, "`{old}` stands once");
    text.replace(old, new)
}

/// The header with one place changed is unlike the sources, and what is said of it names `named`.
fn header_noticed(old: &str, new: &str, named: &str) {
    let wrong = header::face(&with(&header_text(), old, new));
    let found = differences(wrong, source::face(&rattle_text(), "Fr"));
    assert!(found.iter().any(|line| line.contains(named)), "`{new}` for `{old}`: {found:?}");
}

/// The same for the Rattle sources.
fn source_noticed(old: &str, new: &str, named: &str) {
    let wrong = source::face(&with(&rattle_text(), old, new), "Fr");
    let found = differences(header::face(&header_text()), wrong);
    assert!(found.iter().any(|line| line.contains(named)), "`{new}` for `{old}`: {found:?}");
}

/// The same for this crate's declarations.
fn rust_noticed(old: &str, new: &str, named: &str) {
    let wrong = source::face(&with(&rust_text(), old, new), "");
    let found = differences(header::face(&header_text()), wrong);
    assert!(found.iter().any(|line| line.contains(named)), "`{new}` for `{old}`: {found:?}");
}

#[test]
fn fields_in_the_header() {
    header_noticed("size_t month;\n    size_t day;", "size_t day;\n    size_t month;", "date: ");
    header_noticed(
        "fr_date issued_on;\n    fr_date signed_on;",
        "fr_date signed_on;\n    fr_date issued_on;",
        "header: ",
    );
    header_noticed("country[3]", "country[4]", "header: ");
    header_noticed("uint8_t country[3]", "uint16_t country[3]", "header: ");
    header_noticed("size_t year;", "uint32_t year;", "date: ");
    header_noticed("int64_t value;", "int32_t value;", "integer: ");
    header_noticed("size_t bits;", "size_t width;", "hashed: ");
    header_noticed("size_t bits;", "", "hashed: ");
    header_noticed("fr_ends ends;", "fr_date ends;", "reading: ");
    header_noticed("typedef struct fr_part", "typedef struct part", "missing");
}

#[test]
fn calls_in_the_header() {
    header_noticed("fr_hash(size_t n)", "fr_hashes(size_t n)", "fr_hash: ");
    header_noticed("fr_hashed fr_hash(size_t n);", "", "fr_hash: ");
    header_noticed(
        "fr_hashed fr_hash(size_t n);",
        "fr_hashed fr_hash(size_t n);\nfr_hashed fr_more(size_t n);",
        "fr_more: ",
    );
    header_noticed("fr_hash(size_t n)", "fr_hash(uint32_t n)", "fr_hash: ");
    header_noticed("fr_dated fr_date_from_number", "fr_numbered fr_date_from_number", "fr_date_from_number: ");
    header_noticed("fr_c40_read(const uint8_t *bytes", "fr_c40_read(uint8_t *bytes", "fr_c40_read: ");
    header_noticed("fr_judge(const uint8_t *seal, size_t seal_length)", "fr_judge(const uint8_t *seal)", "fr_judge: ");
    header_noticed(
        "fr_judge(const uint8_t *seal, size_t seal_length)",
        "fr_judge(size_t seal_length, const uint8_t *seal)",
        "fr_judge: ",
    );
    header_noticed(
        "const size_t *rows, size_t rows_length, const uint8_t *values,",
        "const uint8_t *values,",
        "fr_write: ",
    );
    header_noticed("fr_write(fr_header header,", "fr_write(const fr_header *header,", "fr_write: ");
}

#[test]
fn fields_in_the_sources() {
    source_noticed("pub month: usize,\n    pub day: usize,", "pub day: usize,\n    pub month: usize,", "date: ");
    source_noticed("pub country: [u8; 3],", "pub country: [u8; 4],", "header: ");
    source_noticed("pub value: i64,", "pub value: usize,", "integer: ");
    source_noticed("pub bits: usize,", "pub bits: u32,", "hashed: ");
    source_noticed(
        "#[repr(C)]\n#[derive(Clone, Copy)]\npub struct FrPart",
        "pub struct FrPart",
        "FrPart is not repr(C)",
    );
    source_noticed("pub struct FrEnds {", "pub struct FrBorders {", "borders: ");
}

#[test]
fn calls_in_the_sources() {
    source_noticed("fn fr_hash(n: usize)", "fn fr_hash(n: u32)", "fr_hash: ");
    source_noticed("fn fr_hash(n: usize) -> FrHashed", "fn fr_hash(n: usize) -> FrFilled", "fr_hash: ");
    source_noticed(
        "#[unsafe(no_mangle)]\npub extern \"C\" fn fr_hash",
        "pub extern \"C\" fn fr_hash",
        "fr_hash is not",
    );
    source_noticed("pub extern \"C\" fn fr_hash", "pub fn fr_hash", "fr_hash: ");
    source_noticed("fn fr_judge(seal: &[u8])", "fn fr_judge(seal: &mut [u8])", "fr_judge: ");
    source_noticed("fn fr_judge(seal: &[u8])", "fn fr_judge(seal: &[usize])", "fr_judge: ");
    source_noticed(
        "fr_c40_write(text: &[u8], out: &mut [u8])",
        "fr_c40_write(out: &mut [u8], text: &[u8])",
        "fr_c40_write: ",
    );
    source_noticed("    rows: &[usize],\n    values: &[u8],", "    values: &[u8],\n    rows: &[usize],", "fr_write: ");
}

#[test]
fn calls_that_give_words() {
    header_noticed("fr_words(size_t number, uint8_t *out", "fr_words(uint8_t number, uint8_t *out", "fr_words: ");
    header_noticed("fr_words(size_t number, uint8_t *out", "fr_words(size_t number, const uint8_t *out", "fr_words: ");
    source_noticed(
        "fn fr_words(number: usize, out: &mut [u8])",
        "fn fr_words(number: usize, out: &[u8])",
        "fr_words: ",
    );
    rust_noticed("fn fr_words(number: usize, out: *mut u8", "fn fr_words(number: u32, out: *mut u8", "fr_words: ");
}

#[test]
fn numbers_in_the_header() {
    let text = "int a;\nenum fr_number {\n    FR_DONE = 0, /* done */\n    FR_TAG_USED = 9 /* tag already used */\n};";
    let numbers =
        |text: &str| header::numbers(text, "fr_number", "FR_").map(|numbers| numbers.into_iter().collect::<Vec<_>>());
    let named = |done: &str, used| vec![(done.to_string(), 0), ("TAG_USED".to_string(), used)];
    assert_eq!(numbers(text), Ok(named("DONE", 9)));
    assert_eq!(numbers(&with(text, "FR_TAG_USED = 9", "FR_TAG_USED = 9,")), Ok(named("DONE", 9)));
    assert_eq!(numbers(&with(text, "= 9", "= 8")), Ok(named("DONE", 8)));
    assert_eq!(
        numbers(&with(text, "FR_DONE", "FR_READY")),
        Ok(vec![("READY".to_string(), 0), ("TAG_USED".to_string(), 9)])
    );
    for (old, new) in
        [("FR_TAG_USED", "FR_DONE"), ("FR_TAG_USED", "TAG_USED"), (" = 9", ""), ("= 9", "= 0x9"), ("};", "}")]
    {
        assert!(numbers(&with(text, old, new)).is_err(), "`{new}` for `{old}`");
    }
    assert_eq!(numbers("int a;"), Ok(vec![]));
    assert_eq!(numbers(&with(text, "fr_number", "fr_item")), Ok(vec![]));
    assert!(header::numbers(text, "fr_number", "FR_TAG_").is_err());
}

#[test]
fn words_in_the_header() {
    let words = |text: &str| header::words(text, "fr_item").into_iter().collect::<Vec<_>>();
    let text =
        "enum fr_number {\n    FR_CUT = 2 /* cut */\n};\nenum fr_item {\n    FR_ITEM_MARK = 2,  /* mark */\n    \
                FR_ITEM_NAMES = 5 /* signer\n                     and reference */\n};";
    let named = |mark: &str, names: &str| vec![(2, mark.to_string()), (5, names.to_string())];
    assert_eq!(words(text), named("mark", "signer and reference"));
    assert_eq!(words(&with(text, "/* mark", "/* a mark")), named("a mark", "signer and reference"));
    assert_eq!(words(&with(text, "/* mark */", "")), named("mark", "signer and reference")[1..]);
    assert_eq!(words("enum fr_number { FR_CUT = 2 /* cut */ };"), vec![]);
}

#[test]
fn numbers_in_the_enums_of_this_crate() {
    let text = "enum None { A = 1, }\npub enum Rule {\n    There = 2,\n    // last\n    OneTo254 = 7,\n}";
    let numbers = |text: &str| source::enumerated(text, "Rule").map(|numbers| numbers.into_iter().collect::<Vec<_>>());
    let named = |name: &str, there| vec![(name.to_string(), 7), ("THERE".to_string(), there)];
    assert_eq!(numbers(text), Ok(named("ONE_TO_254", 2)));
    assert_eq!(numbers(&with(text, "OneTo254", "NotUsedBefore")), Ok(named("NOT_USED_BEFORE", 2)));
    assert_eq!(numbers(&with(text, "= 2", "= 17")), Ok(named("ONE_TO_254", 17)));
    for (old, new) in [(" = 7", ""), ("There", "OneTo254"), ("enum Rule", "enum Rules"), ("7,\n}", "7,\n")] {
        assert!(numbers(&with(text, old, new)).is_err(), "`{new}` for `{old}`");
    }
}

#[test]
fn reasons_in_header_and_crate() {
    rust_noticed("fn fr_why(seal: *const u8", "fn fr_why(seal: *mut u8", "fr_why: ");
    rust_noticed("pub item: usize,", "pub rule_first: usize,", "reason: ");
    rust_noticed("pub judged: Part,", "pub judged: Ends,", "reason: ");
    rust_noticed("fn fr_item_name(item: usize", "fn fr_item_name(item: u8", "fr_item_name: ");
    rust_noticed(
        "fn fr_rule_words(rule: usize, out: *mut",
        "fn fr_rule_words(rule: usize, out: *const",
        "fr_rule_words: ",
    );
    header_noticed("fr_part judged;", "fr_ends judged;", "reason: ");
    header_noticed("fr_reason fr_why(", "fr_reading fr_why(", "fr_why: ");
    source_noticed("fn fr_why(seal: &[u8]) -> FrReason", "fn fr_why(seal: &[u8]) -> FrReading", "fr_why: ");
    source_noticed("pub rule: usize,", "pub rule: u8,", "reason: ");
}

#[test]
fn walks_in_header_and_crate() {
    header_noticed("fr_start fr_walk_open(", "fr_step fr_walk_open(", "fr_walk_open: ");
    header_noticed(
        "fr_walk_next(const uint8_t *seal, size_t seal_length, size_t at)",
        "fr_walk_next(const uint8_t *seal, size_t at, size_t seal_length)",
        "fr_walk_next: ",
    );
    header_noticed("fr_where fr_shown(const uint8_t *main_seal", "fr_where fr_shown(uint8_t *main_seal", "fr_shown: ");
    header_noticed("size_t which;", "uint8_t which;", "where: ");
    source_noticed("pub which: usize,", "pub which: u8,", "where: ");
    source_noticed("fn fr_walk_open(seal: &[u8])", "fn fr_walk_open(seal: &mut [u8])", "fr_walk_open: ");
    source_noticed(
        "fn fr_walk_next(seal: &[u8], at: usize)",
        "fn fr_walk_next(at: usize, seal: &[u8])",
        "fr_walk_next: ",
    );
    source_noticed("fn fr_shown(main_seal: &[u8], extension: &[u8]", "fn fr_shown(main_seal: &[u8]", "fr_shown: ");
    rust_noticed("fn fr_walk_open(seal: *const u8", "fn fr_walk_open(seal: *mut u8", "fr_walk_open: ");
    rust_noticed("seal_length: usize, at: usize) -> Step", "seal_length: usize, at: u32) -> Step", "fr_walk_next: ");
    rust_noticed("pub which: usize,", "pub which: u8,", "where: ");
}

#[test]
fn declarations_of_this_crate() {
    rust_noticed("fn fr_hash(n: usize)", "fn fr_hash(n: u32)", "fr_hash: ");
    rust_noticed(
        "fn fr_judge(seal: *const u8, seal_length: usize)",
        "fn fr_judge(seal_length: usize, seal: *const u8)",
        "fr_judge: ",
    );
    rust_noticed(
        "fn fr_date_to_number(date: Date) -> Numbered",
        "fn fr_date_to_number(date: Date) -> Filled",
        "fr_date_to_number: ",
    );
    rust_noticed("pub country: [u8; 3],", "pub country: [u8; 2],", "header: ");
}
