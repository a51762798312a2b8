//! Why a call was not done.

use core::error::Error;
use core::fmt;

use crate::layout::Filled;
use crate::words::Words;

/// Why a call was not done: a number from the list in docs/NUMBERS.md, and the place; and of a seal how far it was
/// hopeful. All lent memory is as it was.
///
/// It shows itself in words, in `Debug` too, so that a `main` that gives it back tells a person what was wrong.
///
/// ```
/// let refusal = fenderrope::judge(&[0xDC, 0x05]).unwrap_err();
/// assert_eq!((refusal.number, refusal.place, refusal.front), (4, 1, 1));
/// assert_eq!(refusal.to_string(), "refused 4 at 1: version byte is not 02 or 03");
/// assert_eq!(format!("{refusal:?}"), refusal.to_string());
/// ```
#[derive(Clone, Copy, PartialEq, Eq, Hash)]
#[must_use]
pub struct Refusal {
    /// 1 to 12 from a reading, 1 to 11 from the opening of a walk, 20 to 28 from a writing, 40 to 47 from C40, 50 from
    /// [`crate::shown`], 60 to 63 and 65 from signatures, INTEGERs and words; 6 and 22 from a date alone, 42 from the
    /// name of an item and the words of a rule. [`crate::numbers`] has their names. 51 is the end of a walk, and no
    /// refusal here.
    pub number: usize,
    /// Where: for a reading the first byte of the item that was not read, for 5 of its first wrongly coded pair if it
    /// has one. 0 where no other is given.
    pub place: usize,
    /// From [`crate::judge`] and [`crate::read`]: how many of the seal's first bytes some accepted seal begins with.
    /// The byte behind them, if there is one, is the first hopeless one, with which no accepted seal goes on; the limit
    /// of 4,096 bytes, used tags and the room for a signature count too. On 12 the seal is good, and it is the whole
    /// length. 0 from every other call.
    ///
    /// ```
    /// // Of this date, 25 March of year 0, only the third byte is bad: 00 to 4F and 51 to FF are of days.
    /// let seal = b"\xDC\x02\xD9\xC5\xD9\xB7\x5E\x65\x19\xA6\x31\x97\x50";
    /// let refusal = fenderrope::judge(seal).unwrap_err();
    /// assert_eq!((refusal.number, refusal.place, refusal.front), (6, 10, 12));
    /// ```
    pub front: usize,
}

impl Refusal {
    /// The done answer, or the refusal that its number and place tell, with no front part.
    pub(crate) fn unless<T>(number: usize, place: usize, done: T) -> Result<T, Refusal> {
        if number == 0 {
            Ok(done)
        } else {
            Err(Refusal { number, place, front: 0 })
        }
    }

    /// How many bytes were written, or the refusal.
    pub(crate) fn unless_filled(answer: Filled) -> Result<usize, Refusal> {
        Refusal::unless(answer.number, answer.place, answer.count)
    }

    /// The number in words.
    pub fn words(&self) -> Words {
        Words::of(self.number)
    }
}

/// `refused 9 at 24: tag already used`; the number and the place alone where the number has no words.
impl fmt::Display for Refusal {
    fn fmt(&self, f: &mut fmt::Formatter<'_>) -> fmt::Result {
        write!(f, "refused {} at {}", self.number, self.place)?;
        let words = self.words();
        if words.is_empty() {
            return Ok(());
        }
        write!(f, ": {words}")
    }
}

/// The same, as `main` shows an error by `Debug`.
impl fmt::Debug for Refusal {
    fn fmt(&self, f: &mut fmt::Formatter<'_>) -> fmt::Result {
        fmt::Display::fmt(self, f)
    }
}

impl Error for Refusal {}
