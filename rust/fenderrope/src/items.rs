//! The items of a seal and the rules that they keep, by the names that include/fenderrope.h gives them.

// The words stand once, in the library.
#![allow(missing_docs)]

use core::fmt;

use crate::words::Words;

/// An item of a seal, in the order in which they are judged. Version 3 has one item for signer and reference, `Names`;
/// version 4 has two, `SignerAndLength` and `Reference`.
///
/// It shows itself by its name.
///
/// ```
/// use fenderrope::Item;
/// assert_eq!(Item::SignatureLength.to_string(), "signature length");
/// assert_eq!((Item::Tag.code(), Item::of_code(12), Item::of_code(18)), (12, Some(Item::Tag), None));
/// ```
#[derive(Debug, Clone, Copy, PartialEq, Eq, PartialOrd, Ord, Hash)]
pub enum Item {
    Seal = 1,
    Mark = 2,
    Version = 3,
    Country = 4,
    Names = 5,
    SignerAndLength = 6,
    Reference = 7,
    Issued = 8,
    Signed = 9,
    Definition = 10,
    Category = 11,
    Tag = 12,
    Length = 13,
    Value = 14,
    SignatureLength = 15,
    Signature = 16,
    End = 17,
}

impl Item {
    /// All items, by their codes.
    pub const ALL: [Item; 17] = [
        Item::Seal,
        Item::Mark,
        Item::Version,
        Item::Country,
        Item::Names,
        Item::SignerAndLength,
        Item::Reference,
        Item::Issued,
        Item::Signed,
        Item::Definition,
        Item::Category,
        Item::Tag,
        Item::Length,
        Item::Value,
        Item::SignatureLength,
        Item::Signature,
        Item::End,
    ];

    /// The item's code in [`crate::plain`]'s answers.
    #[must_use]
    pub fn code(self) -> usize {
        self as usize
    }

    /// The item with this code, if there is one.
    #[must_use]
    pub fn of_code(code: usize) -> Option<Item> {
        Item::ALL.into_iter().find(|item| item.code() == code)
    }

    /// The item's name.
    pub fn name(self) -> Words {
        Words::of_item(self.code())
    }
}

impl fmt::Display for Item {
    fn fmt(&self, f: &mut fmt::Formatter<'_>) -> fmt::Result {
        fmt::Display::fmt(&self.name(), f)
    }
}

/// A rule that an item keeps. Up to 11 its code is the number that is answered where it is broken; for 12 to 16 that is
/// 5, for 17 it is 2, and for 18 it is 8.
///
/// It shows itself in words.
///
/// ```
/// use fenderrope::Rule;
/// assert_eq!(Rule::NotUsedBefore.to_string(), "a tag is used once only");
/// assert_eq!((Rule::Shortest.code(), Rule::of_code(18), Rule::of_code(0)), (18, Some(Rule::Shortest), None));
/// ```
#[derive(Debug, Clone, Copy, PartialEq, Eq, PartialOrd, Ord, Hash)]
pub enum Rule {
    NotTooLong = 1,
    There = 2,
    Mark = 3,
    Version = 4,
    WellCoded = 5,
    Day = 6,
    OneTo254 = 7,
    BeginsLength = 8,
    NotUsedBefore = 9,
    SignatureSize = 10,
    NothingAfter = 11,
    Country = 12,
    Signer = 13,
    Reference = 14,
    Hexadecimal = 15,
    NotZero = 16,
    RestThere = 17,
    Shortest = 18,
}

impl Rule {
    /// All rules, by their codes.
    pub const ALL: [Rule; 18] = [
        Rule::NotTooLong,
        Rule::There,
        Rule::Mark,
        Rule::Version,
        Rule::WellCoded,
        Rule::Day,
        Rule::OneTo254,
        Rule::BeginsLength,
        Rule::NotUsedBefore,
        Rule::SignatureSize,
        Rule::NothingAfter,
        Rule::Country,
        Rule::Signer,
        Rule::Reference,
        Rule::Hexadecimal,
        Rule::NotZero,
        Rule::RestThere,
        Rule::Shortest,
    ];

    /// The rule's code in [`crate::plain`]'s answers.
    #[must_use]
    pub fn code(self) -> usize {
        self as usize
    }

    /// The rule with this code, if there is one.
    #[must_use]
    pub fn of_code(code: usize) -> Option<Rule> {
        Rule::ALL.into_iter().find(|rule| rule.code() == code)
    }

    /// The rule in words.
    pub fn words(self) -> Words {
        Words::of_rule(self.code())
    }
}

impl fmt::Display for Rule {
    fn fmt(&self, f: &mut fmt::Formatter<'_>) -> fmt::Result {
        fmt::Display::fmt(&self.words(), f)
    }
}
