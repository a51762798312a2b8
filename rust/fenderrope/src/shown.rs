//! What is shown for a tag number where an extension tag hangs behind the first.

use core::error::Error;
use core::fmt;

use crate::face;
use crate::layout::{Part, Where};
use crate::numbers::NO_FEATURE;
use crate::refusal::Refusal;
use crate::words::Words;

/// The value of the feature with this tag, out of the extension seal if it has that feature, otherwise out of the main
/// seal: a part of the lent bytes, and no copy. Both seals are read first: where one is refused nothing is shown,
/// though the other has the feature.
///
/// # Errors
///
/// The main seal's refusal, then the extension's, each 1 to 11 as [`crate::judge`]; then 50 `NO_FEATURE` at 0
/// ([`crate::numbers`]), which a tag over 254 always gets. 12 is not given.
///
/// ```
/// use fenderrope::{shown, NotShown, Shown, Which};
///
/// // Seals that differ in their features alone.
/// let seal = |features: &[u8]| {
///     let header = b"\xDC\x02\xD9\xC5\xD9\xB7\x5E\x65\x19\xA6\x31\x9E\xF5\x31\x9E\xF5\x01\x02";
///     [&header[..], features, &[0xFF, 56], &[0xAA; 56]].concat()
/// };
/// let main = seal(&[0x0A, 1, 0x55, 0x0B, 2, 0x59, 0xBF]);
/// let extension = seal(&[0x0B, 2, 0x60, 0x28]);
///
/// let press = shown(&main, &extension, 11)?;
/// assert_eq!(press, Shown { which: Which::Extension, place: 20, value: &extension[20..22] });
/// let other = shown(&main, &extension, 10)?;
/// assert_eq!(other, Shown { which: Which::Main, place: 20, value: &main[20..21] });
///
/// assert_eq!(shown(&main, &extension, 12), Err(NotShown::Neither));
/// let refused = shown(&main, &extension[..77], 10).unwrap_err();
/// assert_eq!(refused.to_string(), "extension seal refused 2 at 24: the input ends before an item is whole");
/// # Ok::<(), NotShown>(())
/// ```
pub fn shown<'a>(main: &'a [u8], extension: &'a [u8], tag: usize) -> Result<Shown<'a>, NotShown> {
    Shown::of(face::shown(main, extension, tag), main, extension)
}

/// Which of the two seals. It shows itself as `main` or `extension`.
///
/// ```
/// use fenderrope::Which;
/// assert_eq!(Which::Extension.to_string(), "extension");
/// assert_eq!((Which::Main.code(), Which::of_code(1), Which::of_code(0)), (1, Some(Which::Main), None));
/// ```
#[derive(Debug, Clone, Copy, PartialEq, Eq, PartialOrd, Ord, Hash)]
pub enum Which {
    /// The seal of the first tag.
    Main = 1,
    /// The seal of the tag that hangs behind it.
    Extension = 2,
}

impl Which {
    /// The code in [`crate::plain`]'s answers.
    #[must_use]
    pub fn code(self) -> usize {
        self as usize
    }

    /// The seal with this code; none for 0, which is neither.
    #[must_use]
    pub fn of_code(code: usize) -> Option<Which> {
        [Which::Main, Which::Extension].into_iter().find(|which| which.code() == code)
    }
}

impl fmt::Display for Which {
    fn fmt(&self, f: &mut fmt::Formatter<'_>) -> fmt::Result {
        f.write_str(match self {
            Which::Main => "main",
            Which::Extension => "extension",
        })
    }
}

/// A value that [`shown`] found.
#[derive(Debug, Clone, Copy, PartialEq, Eq, Hash)]
#[must_use]
pub struct Shown<'a> {
    /// The seal that it is a part of.
    pub which: Which,
    /// Where it stands in that seal.
    pub place: usize,
    /// The value's bytes, maybe none.
    pub value: &'a [u8],
}

impl<'a> Shown<'a> {
    /// What a plain answer tells of. The library is proved to name a part of the seal that it says, and no seal with 50
    /// alone; were it not so, this would stop and make nothing up.
    fn of(answer: Where, main: &'a [u8], extension: &'a [u8]) -> Result<Shown<'a>, NotShown> {
        let Where { number, place, which, value: Part { place: first, length } } = answer;
        let refusal = Refusal { number, place, front: 0 };
        match (number, Which::of_code(which)) {
            (0, Some(which)) => {
                let seal = if which == Which::Main { main } else { extension };
                Ok(Shown { which, place: first, value: &seal[first..][..length] })
            }
            (NO_FEATURE, None) => Err(NotShown::Neither),
            (_, Some(Which::Main)) => Err(NotShown::Main(refusal)),
            (_, Some(Which::Extension)) => Err(NotShown::Extension(refusal)),
            (_, None) => unreachable!("{refusal} of neither seal"),
        }
    }
}

/// Why [`shown`] shows nothing. Like a [`Refusal`] it shows itself in words, in `Debug` too.
///
/// ```
/// let refused = fenderrope::shown(&[], &[], 11).unwrap_err();
/// assert_eq!(refused.to_string(), "main seal refused 2 at 0: the input ends before an item is whole");
/// assert_eq!(fenderrope::NotShown::Neither.to_string(), "refused 50 at 0: feature in neither seal");
/// ```
#[derive(Clone, Copy, PartialEq, Eq, Hash)]
#[must_use]
pub enum NotShown {
    /// The main seal is refused, at the place where [`crate::judge`] refuses it. The extension may be refused too.
    Main(Refusal),
    /// The main seal is accepted, and the extension seal is refused.
    Extension(Refusal),
    /// Both seals are accepted, and neither has the feature: 50 at 0.
    Neither,
}

impl NotShown {
    /// Number and place alone.
    pub fn refusal(&self) -> Refusal {
        match *self {
            NotShown::Main(refusal) | NotShown::Extension(refusal) => refusal,
            NotShown::Neither => Refusal { number: NO_FEATURE, place: 0, front: 0 },
        }
    }

    /// The seal that is refused, if one is.
    #[must_use]
    pub fn which(&self) -> Option<Which> {
        match self {
            NotShown::Main(_) => Some(Which::Main),
            NotShown::Extension(_) => Some(Which::Extension),
            NotShown::Neither => None,
        }
    }

    /// The number in words.
    pub fn words(&self) -> Words {
        self.refusal().words()
    }
}

/// `main seal refused 9 at 24: tag already used`.
impl fmt::Display for NotShown {
    fn fmt(&self, f: &mut fmt::Formatter<'_>) -> fmt::Result {
        if let Some(which) = self.which() {
            write!(f, "{which} seal ")?;
        }
        fmt::Display::fmt(&self.refusal(), f)
    }
}

/// The same, as `main` shows an error by `Debug`.
impl fmt::Debug for NotShown {
    fn fmt(&self, f: &mut fmt::Formatter<'_>) -> fmt::Result {
        fmt::Display::fmt(self, f)
    }
}

impl Error for NotShown {}
