//! Refusals, by the numbers of include/suhkelva.h.

#![forbid(unsafe_code)]

use std::error::Error;
use std::fmt;

/// Why a call was refused, and where.
#[derive(Clone, Copy, Debug, PartialEq, Eq)]
pub struct Refusal {
    pub number: u32,
    pub place: u64,
}

pub const WRONG_LENGTH: u32 = 1;
pub const WRONG_CHECK: u32 = 2;
pub const WRONG_HEAD: u32 = 3;
pub const PAST_END: u32 = 4;
pub const WRONG_RECORD: u32 = 5;
pub const WRONG_NAME: u32 = 6;
pub const WRONG_SPARE: u32 = 7;
pub const COLUMN_TOO_LARGE: u32 = 8;
pub const CHALLENGE_REFUSED: u32 = 9;
pub const PART_TOO_LARGE: u32 = 10;
pub const OFFSET_TOO_LARGE: u32 = 11;
pub const LIST_TOO_LONG: u32 = 12;
pub const PRODUCT_TOO_LONG: u32 = 13;
pub const SCRATCH_TOO_SHORT: u32 = 14;
pub const OUTPUT_TOO_SHORT: u32 = 15;
pub const POOL_TOO_SHORT: u32 = 16;
pub const SLICE_TOO_SHORT: u32 = 17;

impl fmt::Display for Refusal {
    fn fmt(&self, f: &mut fmt::Formatter) -> fmt::Result {
        let why = match self.number {
            WRONG_LENGTH => "bytes that are not whole blocks, none, or too many",
            WRONG_CHECK => "the check of a block differs",
            WRONG_HEAD => "a head word is wrong",
            PAST_END => "a needed word is past the end",
            WRONG_RECORD => "a record word is wrong",
            WRONG_NAME => "a constraint's or interaction's word is wrong",
            WRONG_SPARE => "a spare word is not zero, or is the 127th",
            COLUMN_TOO_LARGE => "a column above 65,535",
            CHALLENGE_REFUSED => "the variable is a challenge",
            PART_TOO_LARGE => "a part above 255",
            OFFSET_TOO_LARGE => "an offset above 15",
            LIST_TOO_LONG => "a working list above 256",
            PRODUCT_TOO_LONG => "a product of more than 14 variables",
            SCRATCH_TOO_SHORT => "scratch is shorter than needed",
            OUTPUT_TOO_SHORT => "the output is shorter than needed",
            POOL_TOO_SHORT => "no room in the pool for a record's monomials",
            SLICE_TOO_SHORT => "an output of an expansion is shorter than needed",
            _ => "a number that the header does not name",
        };
        write!(f, "refused by {}, place {}: {why}", self.number, self.place)
    }
}

impl Error for Refusal {}
