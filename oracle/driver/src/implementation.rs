//! What can be put to the test: every call of document 01, as a function from its input and the lengths lent.

use plain::calls::{self, Family};
use plain::{Outcome, Record};

/// A call that an implementation does not have keeps its default, which panics: nothing is counted that was not called.
#[allow(unused_variables)]
pub trait Implementation: Sync {
    fn name(&self) -> &str;

    fn lacks(&self, call: &str) -> ! {
        panic!("{} has no {call}", self.name())
    }

    fn block_check(&self, bytes: &[u8], number: u32) -> Outcome {
        self.lacks("block check")
    }

    fn reader(&self, bytes: &[u8], out: usize) -> Outcome {
        self.lacks("block reader")
    }

    fn writer(&self, words: &[u32], out: usize) -> Outcome<u8> {
        self.lacks("block writer")
    }

    fn check(&self, words: &[u32]) -> Outcome {
        self.lacks("sheet check")
    }

    fn builder(&self, words: &[u32], scratch: usize, out: usize) -> Outcome {
        self.lacks("builder")
    }

    fn max_rotation(&self, words: &[u32]) -> Outcome {
        self.lacks("max_rotation")
    }

    fn num_constraints(&self, words: &[u32]) -> Outcome {
        self.lacks("num_constraints")
    }

    fn conversion(&self, words: &[u32], out: usize) -> Outcome {
        self.lacks("conversion")
    }

    fn pack(&self, record: &Record) -> Outcome {
        self.lacks("packing")
    }

    fn unpack(&self, number: u32) -> Outcome {
        self.lacks("unpacking")
    }

    fn expand_constraints(
        &self,
        words: &[u32],
        work: usize,
        pool: usize,
        lent: [usize; 3],
    ) -> Outcome {
        self.lacks("constraint call")
    }

    fn expand_interactions(
        &self,
        words: &[u32],
        work: usize,
        pool: usize,
        lent: [usize; 6],
    ) -> Outcome {
        self.lacks("interaction call")
    }

    /// The expansion of a family, which is lent three slices for constraints and six for interactions.
    fn expand(
        &self,
        family: Family,
        words: &[u32],
        work: usize,
        pool: usize,
        lent: &[usize],
    ) -> Outcome {
        match family {
            Family::Constraints => {
                let lent = lent.try_into().expect("three slices");
                self.expand_constraints(words, work, pool, lent)
            }
            Family::Interactions => {
                let lent = lent.try_into().expect("six slices");
                self.expand_interactions(words, work, pool, lent)
            }
        }
    }
}

/// The plain Rust written from document 01.
pub struct Plain;

impl Implementation for Plain {
    fn name(&self) -> &str {
        "plain"
    }

    fn block_check(&self, bytes: &[u8], number: u32) -> Outcome {
        calls::block_check(bytes, number)
    }

    fn reader(&self, bytes: &[u8], out: usize) -> Outcome {
        calls::reader(bytes, out)
    }

    fn writer(&self, words: &[u32], out: usize) -> Outcome<u8> {
        calls::writer(words, out)
    }

    fn check(&self, words: &[u32]) -> Outcome {
        calls::check(words)
    }

    fn builder(&self, words: &[u32], scratch: usize, out: usize) -> Outcome {
        calls::builder(words, scratch, out)
    }

    fn max_rotation(&self, words: &[u32]) -> Outcome {
        calls::max_rotation(words)
    }

    fn num_constraints(&self, words: &[u32]) -> Outcome {
        calls::num_constraints(words)
    }

    fn conversion(&self, words: &[u32], out: usize) -> Outcome {
        calls::conversion(words, out)
    }

    fn pack(&self, record: &Record) -> Outcome {
        calls::pack(record)
    }

    fn unpack(&self, number: u32) -> Outcome {
        calls::unpack(number)
    }

    fn expand_constraints(
        &self,
        words: &[u32],
        work: usize,
        pool: usize,
        lent: [usize; 3],
    ) -> Outcome {
        calls::expand_constraints(words, work, pool, lent)
    }

    fn expand_interactions(
        &self,
        words: &[u32],
        work: usize,
        pool: usize,
        lent: [usize; 6],
    ) -> Outcome {
        calls::expand_interactions(words, work, pool, lent)
    }
}
