//! The reasons of refusal, by their numbers in 01's table.

pub const TABLE_TOO_SMALL: u8 = 1;
pub const TEXT_TOO_LONG: u8 = 2;
pub const TEXT_ENDS: u8 = 3;
pub const NOT_OF_THE_KIND: u8 = 4;
pub const OUT_OF_RANGE: u8 = 5;
pub const USED_BEFORE: u8 = 6;
pub const VALUE_TOO_WIDE: u8 = 7;
pub const TOKEN_AFTER_THE_LAST: u8 = 8;
pub const BAD_SOLUTION: u8 = 9;
pub const CLAIM_NOT_REACHED: u8 = 10;
pub const SPENT_ROW: u8 = 11;
pub const RESULT_TOO_WIDE: u8 = 12;
pub const NOT_SUITABLE: u8 = 13;
pub const CANNOT_BE_ROUNDED: u8 = 14;
pub const NO_DOMINATION: u8 = 15;
pub const NO_PROPER_SPLIT: u8 = 16;
pub const CLAIM_NOT_PROVED: u8 = 17;
pub const NO_SOLUTION_LISTED: u8 = 18;

/// A refusal at a byte place of the text. Its line is worked out once, at the end.
#[derive(Clone, Copy, Debug, PartialEq, Eq)]
pub struct Refusal {
    pub reason: u8,
    pub place: usize,
}

impl Refusal {
    pub fn new(reason: u8, place: usize) -> Refusal {
        Refusal { reason, place }
    }
}
