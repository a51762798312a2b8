//! The items in the order in which they are judged, each with its size, its rules in order, and the item that follows.

use super::rules::*;
use super::Walk;

/// An item of the layout.
pub(super) struct Item {
    pub code: usize,
    pub size: Size,
    pub rules: &'static [Rule],
    /// The item behind it, in a walk in which it is the last that was kept; nothing behind the end.
    pub next: fn(&Walk) -> Option<&'static Item>,
}

/// How long an item is.
pub(super) enum Size {
    /// So many bytes.
    Bytes(usize),
    /// So many characters of C40.
    Characters(usize),
    /// As many characters as the two digits before it say.
    CharactersTold,
    /// A DER length: its first byte says how many more it has.
    DerLength,
    /// As many bytes as the length before it says.
    BytesTold,
}

/// The whole of it. "1 first, then item by item from the left."
pub(super) static SEAL: Item = Item { code: 1, size: Size::Bytes(0), rules: &[NOT_TOO_LONG], next: |_| Some(&MARK) };

static MARK: Item = Item { code: 2, size: Size::Bytes(1), rules: &[THERE, IS_MARK], next: |_| Some(&VERSION) };

static VERSION: Item = Item { code: 3, size: Size::Bytes(1), rules: &[THERE, IS_VERSION], next: |_| Some(&COUNTRY) };

static COUNTRY: Item = Item {
    code: 4,
    size: Size::Characters(3),
    rules: &[THERE, WELL_CODED, IS_COUNTRY],
    next: |walk| Some(if is_three(walk) { &NAMES } else { &SIGNER_AND_LENGTH }),
};

/// Version 3: "nine characters, six bytes".
static NAMES: Item = Item {
    code: 5,
    size: Size::Characters(9),
    rules: &[THERE, WELL_CODED, IS_SIGNER, IS_REFERENCE_BEHIND_SIGNER],
    next: |_| Some(&ISSUED),
};

/// Version 4: "the first four bytes and then the reference".
static SIGNER_AND_LENGTH: Item = Item {
    code: 6,
    size: Size::Characters(6),
    rules: &[THERE, WELL_CODED, IS_SIGNER, IS_HEXADECIMAL, IS_NOT_ZERO],
    next: |_| Some(&REFERENCE),
};

static REFERENCE: Item =
    Item { code: 7, size: Size::CharactersTold, rules: &[THERE, WELL_CODED, IS_REFERENCE], next: |_| Some(&ISSUED) };

static ISSUED: Item = Item { code: 8, size: Size::Bytes(3), rules: &[THERE, IS_DAY], next: |_| Some(&SIGNED) };

static SIGNED: Item = Item { code: 9, size: Size::Bytes(3), rules: &[THERE, IS_DAY], next: |_| Some(&DEFINITION) };

static DEFINITION: Item =
    Item { code: 10, size: Size::Bytes(1), rules: &[THERE, IS_ONE_TO_254], next: |_| Some(&CATEGORY) };

static CATEGORY: Item = Item { code: 11, size: Size::Bytes(1), rules: &[THERE, IS_ONE_TO_254], next: |_| Some(&TAG) };

/// A feature's tag, or the byte FF, which ends the features.
pub(super) static TAG: Item = Item {
    code: 12,
    size: Size::Bytes(1),
    rules: &[THERE, IS_NOT_USED_BEFORE],
    next: |walk| match walk.last() {
        [0xFF] => Some(&SIGNATURE_LENGTH),
        _ if is_three(walk) => Some(&PLAIN_LENGTH),
        _ => Some(&DER_LENGTH),
    },
};

/// "A feature's length is one plain byte in version 3 and a DER length in version 4."
static PLAIN_LENGTH: Item = Item { code: 13, size: Size::Bytes(1), rules: &[THERE], next: |_| Some(&VALUE) };

static DER_LENGTH: Item = Item {
    code: 13,
    size: Size::DerLength,
    rules: &[FIRST_THERE, BEGINS_LENGTH, REST_THERE, IS_SHORTEST],
    next: |_| Some(&VALUE),
};

static VALUE: Item = Item { code: 14, size: Size::BytesTold, rules: &[THERE], next: |_| Some(&TAG) };

/// "The signature's length is a DER length in both."
static SIGNATURE_LENGTH: Item = Item {
    code: 15,
    size: Size::DerLength,
    rules: &[FIRST_THERE, BEGINS_LENGTH, REST_THERE, IS_SHORTEST, IS_SIGNATURE_SIZE],
    next: |_| Some(&SIGNATURE),
};

static SIGNATURE: Item = Item { code: 16, size: Size::BytesTold, rules: &[THERE], next: |_| Some(&END) };

/// "Nothing after it."
static END: Item = Item { code: 17, size: Size::Bytes(0), rules: &[NOTHING_AFTER], next: |_| None };

/// Whether the version that was kept is 3.
fn is_three(walk: &Walk) -> bool {
    walk.all(&VERSION).any(|version| version == [0x02])
}
