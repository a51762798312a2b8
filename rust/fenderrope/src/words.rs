//! What the numbers mean, and what items and rules are called, in words. They stand in the library and not here.

use core::fmt;
use core::ops::Deref;
use core::str;

use crate::face;
use crate::layout::Filled;
use crate::refusal::Refusal;
use crate::sizes::WORDS_MOST;

/// The words of a number, from the start of `out`; gives how many bytes were written. A number that is not in the list,
/// or is retired, has none.
///
/// # Errors
///
/// 63 `NO_ROOM` ([`crate::numbers`]): there is not room for all of them, and all of `out` stays. [`WORDS_MOST`] bytes
/// are room for the words of every number.
///
/// ```
/// let mut out = [0; fenderrope::WORDS_MOST];
/// let count = fenderrope::words(9, &mut out)?;
/// assert_eq!(&out[..count], b"tag already used");
/// assert_eq!(fenderrope::words(9, &mut out[..15]).unwrap_err().number, 63);
/// assert_eq!(fenderrope::words(13, &mut out), Ok(0));
/// # Ok::<(), fenderrope::Refusal>(())
/// ```
pub fn words(number: usize, out: &mut [u8]) -> Result<usize, Refusal> {
    Refusal::unless_filled(face::words(number, out))
}

/// The name of the item with this code, from the start of `out`; gives how many bytes were written. A code that is not
/// in the list has none.
///
/// # Errors
///
/// 42 `C40_TEXT_ROOM` ([`crate::numbers`]): there is not room for all of it, and all of `out` stays.
/// [`crate::ITEM_NAME_MOST`] bytes are room for the name of every item.
///
/// ```
/// let mut out = [0; fenderrope::ITEM_NAME_MOST];
/// let count = fenderrope::item_name(12, &mut out)?;
/// assert_eq!(&out[..count], b"tag");
/// assert_eq!(fenderrope::item_name(12, &mut out[..2]).unwrap_err().number, 42);
/// assert_eq!(fenderrope::item_name(18, &mut out), Ok(0));
/// # Ok::<(), fenderrope::Refusal>(())
/// ```
pub fn item_name(item: usize, out: &mut [u8]) -> Result<usize, Refusal> {
    Refusal::unless_filled(face::item_name(item, out))
}

/// The words of the rule with this code, from the start of `out`; gives how many bytes were written. A code that is not
/// in the list has none.
///
/// # Errors
///
/// 42 `C40_TEXT_ROOM` ([`crate::numbers`]): there is not room for all of them, and all of `out` stays.
/// [`crate::RULE_WORDS_MOST`] bytes are room for the words of every rule.
///
/// ```
/// let mut out = [0; fenderrope::RULE_WORDS_MOST];
/// let count = fenderrope::rule_words(9, &mut out)?;
/// assert_eq!(&out[..count], b"a tag is used once only");
/// assert_eq!(fenderrope::rule_words(9, &mut out[..22]).unwrap_err().number, 42);
/// assert_eq!(fenderrope::rule_words(19, &mut out), Ok(0));
/// # Ok::<(), fenderrope::Refusal>(())
/// ```
pub fn rule_words(rule: usize, out: &mut [u8]) -> Result<usize, Refusal> {
    Refusal::unless_filled(face::rule_words(rule, out))
}

/// The words of a number, an item or a rule, by value: a string slice that brings its own room.
///
/// ```
/// let words = fenderrope::Words::of(11);
/// assert_eq!(&*words, "bytes after the signature");
/// ```
#[derive(Clone, Copy)]
#[must_use]
pub struct Words {
    room: [u8; WORDS_MOST],
    count: usize,
}

impl Words {
    /// The words of this number; none where it is not in the list.
    pub fn of(number: usize) -> Words {
        Words::put(number, face::words)
    }

    /// The name of the item with this code; none where it is not in the list.
    pub fn of_item(item: usize) -> Words {
        Words::put(item, face::item_name)
    }

    /// The words of the rule with this code; none where it is not in the list.
    pub fn of_rule(rule: usize) -> Words {
        Words::put(rule, face::rule_words)
    }

    /// What a call puts into a room that is enough for all words.
    fn put(code: usize, call: impl FnOnce(usize, &mut [u8]) -> Filled) -> Words {
        let mut room = [0; WORDS_MOST];
        let count = call(code, &mut room).count;
        Words { room, count }
    }
}

impl Deref for Words {
    type Target = str;

    fn deref(&self) -> &str {
        str::from_utf8(&self.room[..self.count]).expect("the words are ASCII")
    }
}

impl fmt::Display for Words {
    fn fmt(&self, f: &mut fmt::Formatter<'_>) -> fmt::Result {
        fmt::Display::fmt(&**self, f)
    }
}

impl fmt::Debug for Words {
    fn fmt(&self, f: &mut fmt::Formatter<'_>) -> fmt::Result {
        fmt::Debug::fmt(&**self, f)
    }
}
