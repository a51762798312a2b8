//! Sizes that hold for every legal seal, and the numbers of a row: the same as in include/fenderrope.h.

/// Bytes of a seal.
pub const SEAL_MOST: usize = 4096;

/// Characters of signer and reference: 4 + 255.
pub const TEXT_MOST: usize = 259;

/// Features of a seal.
pub const FEATURES_MOST: usize = 255;

/// Numbers of a table: a row a feature.
pub const TABLE_MOST: usize = ROW * FEATURES_MOST;

/// Numbers of a row of a table. Which of them stands where is told by [`ROW_TAG`], [`ROW_TAG_PLACE`],
/// [`ROW_VALUE_PLACE`] and [`ROW_VALUE_LENGTH`].
pub const ROW: usize = 4;

/// Of a row: the tag.
pub const ROW_TAG: usize = 0;

/// Of a row: the place of the tag in the seal, where the feature begins. [`crate::write`] ignores it.
pub const ROW_TAG_PLACE: usize = 1;

/// Of a row: the place of the value in the seal, for [`crate::write`] in the values.
pub const ROW_VALUE_PLACE: usize = 2;

/// Of a row: the length of the value.
pub const ROW_VALUE_LENGTH: usize = 3;

/// Bytes of a raw signature.
pub const SIGNATURE_MOST: usize = 132;

/// Bytes of a signature in DER.
pub const DER_MOST: usize = 141;

/// Bytes of C40.
pub const C40_MOST: usize = 4096;

/// Characters of text in C40.
pub const CHARACTERS_MOST: usize = 6144;

/// Bytes of a DER INTEGER.
pub const INTEGER_MOST: usize = 10;

/// Bytes of a number's words.
pub const WORDS_MOST: usize = 92;

/// Bytes of an item's name.
pub const ITEM_NAME_MOST: usize = 20;

/// Bytes of a rule's words.
pub const RULE_WORDS_MOST: usize = 61;
