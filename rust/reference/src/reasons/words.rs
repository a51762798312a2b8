//! The names of the items and the words of the rules, by code, as include/fenderrope.h has them: document 02 leaves
//! them free.

use crate::{fill, Filled};

/// The items from code 1 on, in the order in which they are judged.
const ITEMS: [&str; 17] = [
    "seal",
    "mark",
    "version",
    "country",
    "signer and reference",
    "signer and length",
    "reference",
    "issue date",
    "signature date",
    "definition",
    "category",
    "tag",
    "length",
    "value",
    "signature length",
    "signature",
    "end",
];

/// The rules from code 1 on.
const RULES: [&str; 18] = [
    "a seal has at most 4,096 bytes",
    "all its bytes are there",
    "a seal begins with DC",
    "the version is 02 or 03",
    "every two bytes stand for characters, as many as the item has",
    "the date is a real day",
    "the number is 1 to 254",
    "the length begins with 00 to 7F or with 81 to 84",
    "a tag is used once only",
    "the signature is 56, 64, 96, 128 or 132 bytes long",
    "nothing follows the signature",
    "the country is a letter, then letters, then < to fill",
    "the signer is two letters, then two letters or digits",
    "the reference is letters and digits",
    "the reference's length is two of 0 to 9 and A to F",
    "the reference's length is not 00",
    "all bytes of the length are there",
    "the length is in its shortest form",
];

/// What a list has for a code; a code that is not in the list has none.
fn listed(list: &'static [&'static str], code: usize) -> &'static str {
    code.checked_sub(1).and_then(|index| list.get(index)).unwrap_or(&"")
}

/// The name of an item.
pub fn item_name(item: usize) -> &'static str {
    listed(&ITEMS, item)
}

/// The words of a rule.
pub fn rule_words(rule: usize) -> &'static str {
    listed(&RULES, rule)
}

/// The name in a lent buffer: all of it, or 42.
pub fn put_item_name(item: usize, out: &mut [u8]) -> Filled {
    fill(Ok(item_name(item).into()), 42, out)
}

/// The words in a lent buffer: all of them, or 42.
pub fn put_rule_words(rule: usize, out: &mut [u8]) -> Filled {
    fill(Ok(rule_words(rule).into()), 42, out)
}
