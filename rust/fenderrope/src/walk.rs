//! Features asked for one after another.

use core::iter::FusedIterator;

use crate::face;
use crate::layout::{Start, Step};
use crate::reading::Feature;
use crate::refusal::Refusal;

/// Opens a walk over the features of a seal, with nothing lent but the seal: no table, no text. It gives exactly the
/// features of a reading, in the same order ([`crate::Reading::features`]), each as a part of the seal and no copy.
///
/// # Errors
///
/// 1 to 11, as [`crate::judge`] but for the front part ([`crate::numbers`]): a refused seal opens no walk. 12 is not
/// given.
///
/// ```
/// let mut seal = b"\xDC\x02\xD9\xC5\xD9\xB7\x5E\x65\x19\xA6\x31\x9E\xF5\x31\x9E\xF5\x01\x02".to_vec();
/// seal.extend([0x0A, 4, 0xDE, 0x51, 0x58, 0x26, 0x07, 0, 0xFF, 56]);
/// seal.extend([0xAA; 56]);
///
/// for feature in fenderrope::walk(&seal)? {
///     println!("feature {} value {:02X?}", feature.tag, feature.value);
/// }
/// let values: Vec<_> = fenderrope::walk(&seal)?.map(|feature| (feature.tag, feature.value)).collect();
/// assert_eq!(values, [(10, &[0xDE, 0x51, 0x58, 0x26][..]), (7, &[])]);
///
/// seal.push(0);
/// assert_eq!(fenderrope::walk(&seal).unwrap_err().number, 11);
/// # Ok::<(), fenderrope::Refusal>(())
/// ```
pub fn walk(seal: &[u8]) -> Result<Walk<'_>, Refusal> {
    let Start { number, place, at } = face::walk_open(seal);
    Refusal::unless(number, place, Walk { seal, at })
}

/// A walk over the features of a seal that [`walk`] has opened. It holds the lent seal and a place, and nothing else;
/// a clone goes on from the same place. Once it has ended it gives `None` again and again.
///
/// ```
/// # let seal = b"\xDC\x02\xD9\xC5\xD9\xB7\x5E\x65\x19\xA6\x31\x9E\xF5\x31\x9E\xF5\x01\x02\x0B\x00\xFF\x38".to_vec();
/// # let seal = [seal, vec![0xAA; 56]].concat();
/// let mut walk = fenderrope::walk(&seal)?;
/// let again = walk.clone();
/// assert_eq!(walk.find(|feature| feature.tag == 11).map(|feature| feature.tag_place), Some(18));
/// assert_eq!((walk.next(), walk.next()), (None, None));
/// assert_eq!(again.count(), 1);
/// # Ok::<(), fenderrope::Refusal>(())
/// ```
#[derive(Debug, Clone, PartialEq, Eq, Hash)]
#[must_use]
pub struct Walk<'a> {
    seal: &'a [u8],
    /// Where the next step is made; 0 where the walk has ended.
    at: usize,
}

impl<'a> Iterator for Walk<'a> {
    type Item = Feature<'a>;

    /// The next feature. The library is proved to name parts of the seal alone; were it not so, this would stop and
    /// make nothing up.
    fn next(&mut self) -> Option<Feature<'a>> {
        let Step { number, tag, tag_place, value, at, .. } = face::walk_next(self.seal, self.at);
        self.at = at;
        (number == 0).then(|| Feature::of(self.seal, tag, tag_place, value))
    }
}

/// A walk that has ended stays at place 0, where no feature begins.
impl FusedIterator for Walk<'_> {}
