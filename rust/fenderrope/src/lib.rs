//! Visible digital seals (ICAO Doc 9303-13) on visa stickers and lock tags, versions 3 and 4: read and written by a
//! library that is proved, called from safe Rust.
//!
//! Every call takes every input. What is lent is slices; nothing is allocated, and `std` is not needed. A call that is
//! not done gives a [`Refusal`] with the number and the place, of a seal also with its first hopeless byte, and no lent
//! byte has changed. Signatures are carried and converted, not verified.
//!
//! [`judge`] gives a verdict on a seal, [`read`] all that is in it, [`walk`] its features one after another without a
//! table, [`shown`] a value where an extension tag hangs behind the first, and [`why`] the reason of a refusal.
//!
//! Seal A of the tender, read, listed as the listing program lists it, and written back:
//!
//! ```
//! use fenderrope::{judge, read, shown, walk, why, Refusal, SEAL_MOST, TABLE_MOST, TEXT_MOST};
//! use std::fmt::Write;
//!
//! let mut seal = b"\xDC\x02\xD9\xC5\xD9\xB7\x5E\x65\x19\xA6\x31\x9E\xF5\x31\x9E\xF5\x01\x02".to_vec();
//! seal.extend([0x0A, 4, 0xDE, 0x51, 0x58, 0x26, 0xFF, 56]);
//! seal.extend([0xAA; 56]);
//!
//! let (mut table, mut text) = ([0; TABLE_MOST], [0; TEXT_MOST]);
//! let reading = read(&seal, &mut table, &mut text)?;
//! let (header, signature) = (reading.header(), reading.verdict().signature);
//!
//! let mut list = String::new();
//! writeln!(list, "version {}", header.version)?;
//! writeln!(list, "country {}", String::from_utf8_lossy(&header.country))?;
//! let (signer, reference) = reading.names();
//! writeln!(list, "signer {signer}\nreference {reference}")?;
//! writeln!(list, "issued {}\nsigned {}", header.issued_on, header.signed_on)?;
//! writeln!(list, "definition {}\ncategory {}", header.definition, header.category)?;
//! for feature in reading.features() {
//!     writeln!(list, "feature {} at {} length {}", feature.tag, feature.place, feature.value.len())?;
//! }
//! writeln!(list, "signature at {} length {}", signature.place, signature.length)?;
//! assert_eq!(
//!     list.lines().collect::<Vec<_>>(),
//!     [
//!         "version 3",
//!         "country UTO",
//!         "signer UTAB",
//!         "reference 00001",
//!         "issued 1957-03-25",
//!         "signed 1957-03-25",
//!         "definition 1",
//!         "category 2",
//!         "feature 10 at 20 length 4",
//!         "signature at 26 length 56",
//!     ]
//! );
//!
//! // What a camera overlay frames: the whole feature, tag, length and value.
//! let frames: Vec<_> = reading.features().map(|feature| (feature.tag_place, feature.whole.len())).collect();
//! assert_eq!(frames, [(18, 6)]);
//!
//! // At the hook the features are asked for one after another, without a table.
//! assert!(walk(&seal)?.eq(reading.features()));
//! // And here the same tag hangs behind itself.
//! assert_eq!(shown(&seal, &seal, 10)?.value, [0xDE, 0x51, 0x58, 0x26]);
//!
//! let mut again = [0; SEAL_MOST];
//! let length = reading.write(reading.signature(), &mut again)?;
//! assert_eq!(again[..length], seal);
//!
//! // One byte more is refused.
//! seal.push(0);
//! let refusal = judge(&seal).unwrap_err();
//! assert_eq!(refusal, Refusal { number: 11, place: 82, front: 82 });
//! assert_eq!(refusal.to_string(), "refused 11 at 82: bytes after the signature");
//!
//! // And the crew is told why: which item breaks which rule, by which bytes, and which byte is the first hopeless one.
//! let reason = why(&seal).ok_or("accepted")?;
//! assert_eq!(reason.judged, &seal[82..]);
//! assert_eq!(
//!     reason.to_string().lines().collect::<Vec<_>>(),
//!     [
//!         "number 11",
//!         "item end",
//!         "place 82",
//!         "bytes 00",
//!         "rule nothing follows the signature",
//!         "good up to 82, no seal has 00 there",
//!     ]
//! );
//!
//! // The place of a date is its first byte; of year 0 only the third is bad.
//! seal[10..13].copy_from_slice(&[0x31, 0x97, 0x50]);
//! assert_eq!(judge(&seal).unwrap_err(), Refusal { number: 6, place: 10, front: 12 });
//! # Ok::<(), Box<dyn std::error::Error>>(())
//! ```
//!
//! The library is `libfenderrope.a`: the build looks for it in the folder that `FENDERROPE_LIB_DIR` names, else in the
//! repository's `target/lib`, where `make lib` puts it.

#![no_std]
// `forbid` could not be lifted for the one module that makes the calls, so it is `deny`, with `allow` on `face` alone.
#![deny(unsafe_code)]
#![warn(missing_docs)]
#![warn(clippy::missing_errors_doc, clippy::missing_panics_doc, clippy::must_use_candidate)]

mod codecs;
mod dates;
#[allow(unsafe_code)]
mod face;
mod items;
mod layout;
pub mod numbers;
pub mod plain;
mod reading;
mod reason;
mod refusal;
mod seals;
mod shown;
mod signatures;
mod sizes;
mod verdict;
mod walk;
mod words;

pub use codecs::{c40_read, c40_write, integer_read, integer_write};
pub use items::{Item, Rule};
pub use layout::{Date, Ends, Header, Part};
pub use reading::{Feature, Reading};
pub use reason::Reason;
pub use refusal::Refusal;
pub use seals::{judge, read, why, write};
pub use shown::{shown, NotShown, Shown, Which};
pub use signatures::{hash, signature_to_der, signature_to_raw, Hash};
pub use sizes::*;
pub use verdict::Verdict;
pub use walk::{walk, Walk};
pub use words::{item_name, rule_words, words, Words};
