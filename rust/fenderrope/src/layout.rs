//! The structs that pass between Rust and the proved library, laid out as include/fenderrope.h says.
//!
//! [`Date`], [`Header`], [`Ends`] and [`Part`] serve everywhere in this crate; the others are the answers of
//! [`crate::plain`].

use core::mem::{align_of, offset_of, size_of};

/// A date. A call refuses one that is no day of the Gregorian calendar, years 1 to 9999.
#[derive(Debug, Clone, Copy, PartialEq, Eq, Hash, Default)]
#[repr(C)]
pub struct Date {
    /// 1 to 12.
    pub month: usize,
    /// 1 to the month's last.
    pub day: usize,
    /// 1 to 9999.
    pub year: usize,
}

/// The header of a seal, as [`crate::read`] gives it and [`crate::write`] takes it.
#[derive(Debug, Clone, Copy, PartialEq, Eq, Hash, Default)]
#[repr(C)]
pub struct Header {
    /// 3 or 4.
    pub version: usize,
    /// Letters, filled on the right with `<`.
    pub country: [u8; 3],
    /// How many characters the certificate reference has; 5 in version 3.
    pub length: usize,
    /// The issue date.
    pub issued_on: Date,
    /// The signature date.
    pub signed_on: Date,
    /// The feature definition reference, 1 to 254.
    pub definition: usize,
    /// The document category, 1 to 254.
    pub category: usize,
}

/// The ends of the three zones, each one past the zone's last byte.
#[derive(Debug, Clone, Copy, PartialEq, Eq, Hash, Default)]
#[repr(C)]
pub struct Ends {
    /// The first byte of the message.
    pub header: usize,
    /// The signed bytes are the seal's first `message` bytes.
    pub message: usize,
    /// The seal's length.
    pub seal: usize,
}

/// A part of the seal: the place of its first byte, and how many bytes it has.
#[derive(Debug, Clone, Copy, PartialEq, Eq, Hash, Default)]
#[repr(C)]
pub struct Part {
    /// Its first byte.
    pub place: usize,
    /// How many bytes.
    pub length: usize,
}

/// What a reading answers.
#[derive(Debug, Clone, Copy, PartialEq, Eq, Hash, Default)]
#[must_use]
#[repr(C)]
pub struct Reading {
    /// 0 when done, else the refusal.
    pub number: usize,
    /// Where, on a refusal.
    pub place: usize,
    /// The header.
    pub header: Header,
    /// The ends of the zones.
    pub ends: Ends,
    /// The raw signature: r, then s.
    pub signature: Part,
    /// How many features there are.
    pub count: usize,
    /// How many bytes from the first on some accepted seal begins with, and none with one byte more of the input. Given
    /// on every number.
    pub front: usize,
}

/// What a seal answers that is asked why it is refused. Every field is 0 where it is not.
#[derive(Debug, Clone, Copy, PartialEq, Eq, Hash, Default)]
#[must_use]
#[repr(C)]
pub struct Reason {
    /// The refusal.
    pub number: usize,
    /// Where.
    pub place: usize,
    /// The code of the item that breaks a rule, as [`crate::Item::of_code`] takes it.
    pub item: usize,
    /// The code of the first rule that it breaks, as [`crate::Rule::of_code`] takes it.
    pub rule: usize,
    /// The bytes judged.
    pub judged: Part,
}

/// What a walk answers that is opened.
#[derive(Debug, Clone, Copy, PartialEq, Eq, Hash, Default)]
#[must_use]
#[repr(C)]
pub struct Start {
    /// 0 where the seal is accepted, else the refusal.
    pub number: usize,
    /// Where, on a refusal.
    pub place: usize,
    /// Where the first step is made.
    pub at: usize,
}

/// What a step of a walk answers. On 51 every other field is 0.
#[derive(Debug, Clone, Copy, PartialEq, Eq, Hash, Default)]
#[must_use]
#[repr(C)]
pub struct Step {
    /// 0 where a feature stands, 51 where none does.
    pub number: usize,
    /// 0.
    pub place: usize,
    /// The tag.
    pub tag: usize,
    /// Where the tag stands: the place of the step.
    pub tag_place: usize,
    /// The value.
    pub value: Part,
    /// Where the next step is made; 0 on 51, and there the answer is 51 again.
    pub at: usize,
}

/// What a tag number answers that is looked up in a main and an extension seal.
#[derive(Debug, Clone, Copy, PartialEq, Eq, Hash, Default)]
#[must_use]
#[repr(C)]
pub struct Where {
    /// 0 when done, else the refusal.
    pub number: usize,
    /// Where, on a refusal of a seal.
    pub place: usize,
    /// The code of the seal that the value is a part of, or that is refused, as [`crate::Which::of_code`] takes it; 0
    /// on 50.
    pub which: usize,
    /// The value.
    pub value: Part,
}

/// What a call answers that fills a buffer.
#[derive(Debug, Clone, Copy, PartialEq, Eq, Hash, Default)]
#[must_use]
#[repr(C)]
pub struct Filled {
    /// 0 when done, else the refusal.
    pub number: usize,
    /// Where, on a refusal.
    pub place: usize,
    /// How many bytes were written.
    pub count: usize,
}

/// What a number answers that is asked for its date.
#[derive(Debug, Clone, Copy, PartialEq, Eq, Hash, Default)]
#[must_use]
#[repr(C)]
pub struct Dated {
    /// 0 when done, else the refusal.
    pub number: usize,
    /// Where, on a refusal.
    pub place: usize,
    /// The date.
    pub date: Date,
}

/// What a date answers that is asked for its number.
#[derive(Debug, Clone, Copy, PartialEq, Eq, Hash, Default)]
#[must_use]
#[repr(C)]
pub struct Numbered {
    /// 0 when done, else the refusal.
    pub number: usize,
    /// Where, on a refusal.
    pub place: usize,
    /// MMDDYYYY.
    pub value: usize,
}

/// What a DER INTEGER answers that is read.
#[derive(Debug, Clone, Copy, PartialEq, Eq, Hash, Default)]
#[must_use]
#[repr(C)]
pub struct Integer {
    /// 0 when done, else the refusal.
    pub number: usize,
    /// Where, on a refusal.
    pub place: usize,
    /// The value.
    pub value: i64,
}

/// The hash that goes with a size.
#[derive(Debug, Clone, Copy, PartialEq, Eq, Hash, Default)]
#[must_use]
#[repr(C)]
pub struct Hashed {
    /// 0 when done, else the refusal.
    pub number: usize,
    /// Where, on a refusal.
    pub place: usize,
    /// 224, 256, 384 or 512: SHA-224, SHA-256, SHA-384 or SHA-512.
    pub bits: usize,
}

/// Stops the build where a struct's size, alignment or offsets are not the numbers that the C test asserts of the
/// header.
macro_rules! laid_out {
    ($name:ident: size $size:literal, align $align:literal, $($field:ident at $offset:literal),+) => {
        const _: () = {
            assert!(size_of::<$name>() == $size);
            assert!(align_of::<$name>() == $align);
            $(assert!(offset_of!($name, $field) == $offset);)+
        };
    };
}

laid_out!(Date: size 24, align 8, month at 0, day at 8, year at 16);
laid_out!(Header: size 88, align 8, version at 0, country at 8, length at 16, issued_on at 24, signed_on at 48,
    definition at 72, category at 80);
laid_out!(Ends: size 24, align 8, header at 0, message at 8, seal at 16);
laid_out!(Part: size 16, align 8, place at 0, length at 8);
laid_out!(Reading: size 160, align 8, number at 0, place at 8, header at 16, ends at 104, signature at 128,
    count at 144, front at 152);
laid_out!(Reason: size 48, align 8, number at 0, place at 8, item at 16, rule at 24, judged at 32);
laid_out!(Start: size 24, align 8, number at 0, place at 8, at at 16);
laid_out!(Step: size 56, align 8, number at 0, place at 8, tag at 16, tag_place at 24, value at 32, at at 48);
laid_out!(Where: size 40, align 8, number at 0, place at 8, which at 16, value at 24);
laid_out!(Filled: size 24, align 8, number at 0, place at 8, count at 16);
laid_out!(Dated: size 40, align 8, number at 0, place at 8, date at 16);
laid_out!(Numbered: size 24, align 8, number at 0, place at 8, value at 16);
laid_out!(Integer: size 24, align 8, number at 0, place at 8, value at 16);
laid_out!(Hashed: size 24, align 8, number at 0, place at 8, bits at 16);
