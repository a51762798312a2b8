//! The numbers that a call answers, by the names that include/fenderrope.h gives them. What each means is told by
//! [`crate::Words::of`].
//!
//! ```
//! use fenderrope::{judge, numbers, Refusal};
//! assert!(matches!(judge(&[0xDC]), Err(Refusal { number: numbers::CUT, place: 1, front: 1 })));
//! ```

// The words stand once, in the library.
#![allow(missing_docs)]

pub const DONE: usize = 0;
pub const TOO_LONG: usize = 1;
pub const CUT: usize = 2;
pub const FIRST_BYTE: usize = 3;
pub const VERSION_BYTE: usize = 4;
pub const NAMES: usize = 5;
pub const NO_DATE: usize = 6;
pub const LAST_BYTES: usize = 7;
pub const DER_LENGTH: usize = 8;
pub const TAG_USED: usize = 9;
pub const SIGNATURE_LENGTH: usize = 10;
pub const BYTES_AFTER: usize = 11;
pub const READ_ROOM: usize = 12;

pub const WRITE_VERSION: usize = 20;
pub const WRITE_NAMES: usize = 21;
pub const WRITE_DATE: usize = 22;
pub const WRITE_LAST_BYTES: usize = 23;
pub const WRITE_ROWS: usize = 24;
pub const WRITE_VALUE: usize = 25;
pub const WRITE_SIGNATURE: usize = 26;
pub const WRITE_TOO_LONG: usize = 27;
pub const WRITE_ROOM: usize = 28;

pub const C40_ODD: usize = 40;
pub const C40_PAIR: usize = 41;
pub const C40_TEXT_ROOM: usize = 42;
pub const C40_CHARACTER: usize = 43;
pub const C40_BYTES_ROOM: usize = 44;
pub const C40_TOO_LONG: usize = 45;
pub const C40_SHIFT: usize = 46;
pub const C40_FE: usize = 47;

pub const NO_FEATURE: usize = 50;
pub const WALK_END: usize = 51;

pub const NO_SIZE: usize = 60;
pub const RAW_LENGTH: usize = 61;
pub const NOT_DER: usize = 62;
pub const NO_ROOM: usize = 63;
// 64 is retired: no input gives it, and it is not given out again.
pub const NOT_INTEGER: usize = 65;
