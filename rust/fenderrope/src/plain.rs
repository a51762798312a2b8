//! The calls as the library answers them: a number, a place and the rest, in one struct by value.
//!
//! `number` is 0 when the call is done. On any other number every field but number and place is 0 and no lent memory
//! has changed; where a seal is refused [`judge`] and [`read`] say how far it is hopeful, [`why`] fills its other
//! fields, and [`shown`] says which seal it is. The functions of the crate's root say the same as `Result`s; these are
//! for programs that pass the numbers on.
//!
//! ```
//! let answer = fenderrope::plain::judge(&[]);
//! assert_eq!((answer.number, answer.place, answer.front), (2, 0, 0));
//! ```

pub use crate::face::{
    c40_read, c40_write, date_from_number, date_to_number, hash, integer_read, integer_write, item_name, judge, read,
    rule_words, shown, signature_to_der, signature_to_raw, walk_next, walk_open, why, words, write,
};
pub use crate::layout::{Dated, Filled, Hashed, Integer, Numbered, Reading, Reason, Start, Step, Where};
