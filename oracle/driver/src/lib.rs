//! Compares implementations of document 01 with the Rust that it refers to, and with each other.

pub mod arithmetic;
#[cfg(feature = "rattle")]
pub mod bench;
pub mod compare;
pub mod edges;
pub mod examples;
pub mod implementation;
pub mod lists;
pub mod measured;
pub mod needs;
pub mod parts;
#[cfg(feature = "rattle")]
pub mod rattle;
pub mod records;
pub mod rng;
pub mod runs;
pub mod rust;
pub mod sample;
pub mod sheet_calls;
pub mod sheets;
pub mod shrink;
pub mod single;
#[cfg(feature = "rattle")]
pub mod stack;
pub mod table;
pub mod variables;
