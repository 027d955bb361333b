//! Document 01 in plain Rust: every call as a function from its input and the lengths lent to its reply and the content of
//! every slice lent for writing. It is written from the paper alone, to be read beside it, and is compared by running with
//! the Rust that the paper refers to and with the rewrite.
//!
//! The modules stand in the paper's order: what a call hands back, the sheet and its blocks, the graph, packing, expanding,
//! grouping; `calls` puts them together.

pub mod block;
pub mod calls;
pub mod expand;
pub mod field;
pub mod graph;
pub mod group;
pub mod packing;
pub mod reply;
pub mod sheet;
pub mod sheetlist;

pub use reply::{Answer, Outcome, Refusal, Reply};
pub use sheet::{Interaction, Record, Sheet};
