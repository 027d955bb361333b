//! Packed variables: "bits 0 to 3 type, 4 to 11 part, 12 to 15 offset, 16 to 31 column. Types: 0 preprocessed, 1 main,
//! 3 public, 8 first, 9 last, 10 transition."

use crate::reply::{refuse, Answer};
use crate::sheet::{
    word_fits, Record, CHALLENGE, IS_FIRST_ROW, IS_TRANSITION, MAIN, PREPROCESSED, PUBLIC, VARIABLE,
};

/// "a number with its own type, never a plain word"
#[derive(Clone, Copy, Debug, PartialEq, Eq, PartialOrd, Ord, Hash)]
pub struct PackedVar(pub u32);

/// The packed number of a variable or row mark, or why there is none: 8 to 11, the lower first.
pub fn packed(leaf: &Record) -> Result<PackedVar, u32> {
    let [kind, entry, part, offset, column] = *leaf;
    if kind != VARIABLE {
        return Ok(PackedVar(kind - IS_FIRST_ROW + 8));
    }
    if column > 65_535 {
        return Err(8);
    }
    if entry == CHALLENGE {
        return Err(9);
    }
    if part > 255 {
        return Err(10);
    }
    if offset > 15 {
        return Err(11);
    }
    Ok(PackedVar(entry | part << 4 | offset << 12 | column << 16))
}

/// Packing, called alone: "5 when the kind isn't 1 to 4 or a word is wrong (place: that word, 0 to 4), then 8 to 11, place 0".
pub fn pack(record: &Record) -> Answer<PackedVar> {
    if !(VARIABLE..=IS_TRANSITION).contains(&record[0]) {
        return refuse(5, 0);
    }
    if let Some(wrong) = (1..5).find(|&k| !word_fits(0, record, k)) {
        return refuse(5, wrong);
    }
    packed(record).or_else(|number| refuse(number, 0))
}

/// "Unpacking is added: it gives the five words, or 5, place 0, for a number that no packing hands out."
pub fn unpack(number: u32) -> Answer<Record> {
    let (kind, part, offset, column) = (
        number & 15,
        number >> 4 & 255,
        number >> 12 & 15,
        number >> 16,
    );
    match (kind, part, offset, column) {
        (PREPROCESSED, 0, _, _) => Ok([VARIABLE, PREPROCESSED, 0, offset, column]),
        (MAIN, _, _, _) => Ok([VARIABLE, MAIN, part, offset, column]),
        (PUBLIC, 0, 0, _) => Ok([VARIABLE, PUBLIC, 0, 0, column]),
        (8..=10, 0, 0, 0) => Ok([kind - 8 + IS_FIRST_ROW, 0, 0, 0, 0]),
        _ => refuse(5, 0),
    }
}
