//! The words of the numbers (document 01, "The numbers a call answers"; document 02, Tickets 1, 2 and 10), without
//! places and without what stands in brackets.

use crate::{fill, Filled};

/// The numbers that have words.
const WORDS: [(usize, &str); 37] = [
    (0, "done"),
    (1, "seal longer than 4,096"),
    (2, "the input ends before an item is whole"),
    (3, "first byte is not DC"),
    (4, "version byte is not 02 or 03"),
    (5, "country, signer, L or reference wrongly coded or with a wrong character"),
    (6, "no such date"),
    (7, "definition reference or category is 0 or 255"),
    (8, "DER length malformed or not shortest"),
    (9, "tag already used"),
    (10, "signature length is not 56, 64, 96, 128 or 132"),
    (11, "bytes after the signature"),
    (12, "seal good, but the lent table has under 4 numbers a feature, or the text room is under 4 + L"),
    (20, "writer: version not 3 or 4"),
    (21, "writer: country, signer or reference"),
    (22, "writer: date"),
    (23, "writer: definition reference or category"),
    (24, "writer: table not in fours, tag over 254 or used twice, or a value outside the values buffer"),
    (25, "writer: value over 255 bytes in version 3"),
    (26, "writer: signature length"),
    (27, "writer: seal would pass 4,096"),
    (28, "writer: no room for the whole seal"),
    (40, "C40 bytes odd in number"),
    (41, "C40 pair value of 0 or over 64,000 that does not begin with FE"),
    (42, "no room for the text"),
    (43, "character that is not in the chart"),
    (44, "no room for the C40 bytes"),
    (45, "text or bytes over the size"),
    (46, "C40 shift value where none may stand"),
    (47, "C40 FE misplaced or followed by a code outside the chart"),
    (50, "feature in neither seal"),
    (51, "no further feature"),
    (60, "n is not one of the five"),
    (61, "raw length is not 2n"),
    (62, "not strict DER, with bytes left over, negative, or too big for n"),
    (63, "no room"),
    (65, "not one whole DER INTEGER of 1 to 8 bytes"),
];

/// The words of a number; a number that is not in the list has none.
pub fn words(number: usize) -> &'static str {
    WORDS.iter().find(|(listed, _)| *listed == number).map_or("", |(_, words)| words)
}

/// The words in a lent buffer: all of them, or 63.
pub fn put_words(number: usize, out: &mut [u8]) -> Filled {
    fill(Ok(words(number).into()), 63, out)
}
