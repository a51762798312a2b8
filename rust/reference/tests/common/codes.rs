//! The codes of items and rules, as include/fenderrope.h has them.

pub mod items {
    pub const SEAL: usize = 1;
    pub const MARK: usize = 2;
    pub const VERSION: usize = 3;
    pub const COUNTRY: usize = 4;
    pub const NAMES: usize = 5;
    pub const SIGNER_AND_LENGTH: usize = 6;
    pub const REFERENCE: usize = 7;
    pub const ISSUED: usize = 8;
    pub const SIGNED: usize = 9;
    pub const DEFINITION: usize = 10;
    pub const CATEGORY: usize = 11;
    pub const TAG: usize = 12;
    pub const LENGTH: usize = 13;
    pub const VALUE: usize = 14;
    pub const SIGNATURE_LENGTH: usize = 15;
    pub const SIGNATURE: usize = 16;
    pub const END: usize = 17;
}

pub mod rules {
    pub const NOT_TOO_LONG: usize = 1;
    pub const THERE: usize = 2;
    pub const MARK: usize = 3;
    pub const VERSION: usize = 4;
    pub const WELL_CODED: usize = 5;
    pub const DAY: usize = 6;
    pub const ONE_TO_254: usize = 7;
    pub const BEGINS_LENGTH: usize = 8;
    pub const NOT_USED_BEFORE: usize = 9;
    pub const SIGNATURE_SIZE: usize = 10;
    pub const NOTHING_AFTER: usize = 11;
    pub const COUNTRY: usize = 12;
    pub const SIGNER: usize = 13;
    pub const REFERENCE: usize = 14;
    pub const HEXADECIMAL: usize = 15;
    pub const NOT_ZERO: usize = 16;
    pub const REST_THERE: usize = 17;
    pub const SHORTEST: usize = 18;

    /// The number that is answered where a rule is broken: "up to 11 its code", then 5, 2 and 8.
    pub fn number(rule: usize) -> usize {
        match rule {
            COUNTRY..=NOT_ZERO => 5,
            REST_THERE => 2,
            SHORTEST => 8,
            _ => rule,
        }
    }

    /// The rules of an item in a version, in the order in which they are judged; none where the version has no such
    /// item. Version 0 is before the version is known.
    pub fn of(version: usize, item: usize) -> &'static [usize] {
        use super::items;
        match (version, item) {
            (0, items::SEAL) => &[NOT_TOO_LONG],
            (0, items::MARK) => &[THERE, MARK],
            (0, items::VERSION) => &[THERE, VERSION],
            (3 | 4, items::COUNTRY) => &[THERE, WELL_CODED, COUNTRY],
            (3, items::NAMES) => &[THERE, WELL_CODED, SIGNER, REFERENCE],
            (4, items::SIGNER_AND_LENGTH) => &[THERE, WELL_CODED, SIGNER, HEXADECIMAL, NOT_ZERO],
            (4, items::REFERENCE) => &[THERE, WELL_CODED, REFERENCE],
            (3 | 4, items::ISSUED | items::SIGNED) => &[THERE, DAY],
            (3 | 4, items::DEFINITION | items::CATEGORY) => &[THERE, ONE_TO_254],
            (3 | 4, items::TAG) => &[THERE, NOT_USED_BEFORE],
            (3, items::LENGTH) => &[THERE],
            (4, items::LENGTH) => &[THERE, BEGINS_LENGTH, REST_THERE, SHORTEST],
            (3 | 4, items::VALUE | items::SIGNATURE) => &[THERE],
            (3 | 4, items::SIGNATURE_LENGTH) => &[THERE, BEGINS_LENGTH, REST_THERE, SHORTEST, SIGNATURE_SIZE],
            (3 | 4, items::END) => &[NOTHING_AFTER],
            _ => &[],
        }
    }
}
