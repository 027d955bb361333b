//! The public calls. "Order. Reader: 1, 15, 2. Every sheet call first checks it (3 to 7) .. Then 14, work before pool; then
//! 15; then the walk (8 to 13, 16); then 17."

use crate::block::{self, BLOCK_BYTES, BLOCK_WORDS};
use crate::expand::{Walk, LIMITS};
use crate::graph;
use crate::group::{
    constraint_roots, constraint_term, count_roots, field_roots, groups, interaction_term, layout,
    Root,
};
use crate::packing;
use crate::reply::{needs, outcome, refuse, says, writes, Accepted, Outcome};
use crate::sheet::{Record, Sheet};

/// "Work is 4,096 words."
pub const WORK: usize = 4_096;

/// The block check, called alone: "says yes or no", here 1 or 0; "a slice not of 512 bytes gives 1, place 0".
pub fn block_check(bytes: &[u8], number: u32) -> Outcome {
    let answer = || {
        if bytes.len() != BLOCK_BYTES {
            return refuse(1, 0);
        }
        Ok(says(vec![block::block_good(bytes, number) as u32]))
    };
    outcome(&[], &[], answer())
}

/// The block reader, from bytes to words.
pub fn reader(bytes: &[u8], out: usize) -> Outcome {
    let answer = || {
        block::check_length(bytes.len())?;
        needs(15, bytes.len() / BLOCK_BYTES * BLOCK_WORDS, out)?;
        Ok(writes(block::read_blocks(bytes)?))
    };
    outcome(&[], &[out], answer())
}

/// The block writer, from a sheet to bytes; its slice and 15's place are counted in bytes.
pub fn writer(words: &[u32], out: usize) -> Outcome<u8> {
    let answer = || {
        let sheet = Sheet::decode(words)?;
        needs(15, block::bytes_for(sheet.length()), out)?;
        Ok(writes(block::write_blocks(&sheet.encode())))
    };
    outcome(&[], &[out], answer())
}

/// The sheet check, called alone: E, C, I, L and the index of the first interaction.
pub fn check(words: &[u32]) -> Outcome {
    let answer = || {
        let sheet = Sheet::decode(words)?;
        let numbers = [
            sheet.records.len(),
            sheet.constraints.len(),
            sheet.interactions.len(),
            sheet.length(),
            sheet.interactions_start(),
        ];
        Ok(says(numbers.map(|n| n as u32).to_vec()))
    };
    outcome(&[], &[], answer())
}

/// The builder: "Scratch E words; output L words."
pub fn builder(words: &[u32], scratch: usize, out: usize) -> Outcome {
    let answer = || {
        let sheet = Sheet::decode(words)?;
        needs(14, sheet.records.len(), scratch)?;
        needs(15, sheet.length(), out)?;
        Ok(writes(graph::build(&sheet).encode()))
    };
    outcome(&[scratch], &[out], answer())
}

/// "Both hand back the number with 0."
pub fn max_rotation(words: &[u32]) -> Outcome {
    let answer = Sheet::decode(words).map(|sheet| says(vec![sheet.max_rotation()]));
    outcome(&[], &[], answer)
}

/// "`num_constraints` is C of the sheet given, for a graph the length of the sorted list."
pub fn num_constraints(words: &[u32]) -> Outcome {
    let answer = Sheet::decode(words).map(|sheet| says(vec![sheet.constraints.len() as u32]));
    outcome(&[], &[], answer)
}

/// "The conversion copies the L words as an expression sheet."
pub fn conversion(words: &[u32], out: usize) -> Outcome {
    let answer = || {
        let sheet = Sheet::decode(words)?;
        needs(15, sheet.length(), out)?;
        Ok(writes(sheet.encode()))
    };
    outcome(&[], &[out], answer())
}

/// Packing, called alone.
pub fn pack(record: &Record) -> Outcome {
    outcome(&[], &[], packing::pack(record).map(|var| says(vec![var.0])))
}

/// Unpacking.
pub fn unpack(number: u32) -> Outcome {
    let answer = packing::unpack(number).map(|record| says(record.to_vec()));
    outcome(&[], &[], answer)
}

/// The constraint call: outputs are headers, variables, terms.
pub fn expand_constraints(words: &[u32], work: usize, pool: usize, lent: [usize; 3]) -> Outcome {
    expand(Family::Constraints, words, work, pool, &lent, |_| vec![])
}

/// The interaction call: outputs are headers, variables, terms of the numerators, then of the denominators. "the interaction
/// call adds `num_interactions` and `max_fields_len`"
pub fn expand_interactions(words: &[u32], work: usize, pool: usize, lent: [usize; 6]) -> Outcome {
    expand(Family::Interactions, words, work, pool, &lent, |sheet| {
        let numbers = [sheet.interactions.len(), sheet.max_fields_len()];
        numbers.map(|n| n as u32).to_vec()
    })
}

/// What is expanded.
#[derive(Clone, Copy, Debug, PartialEq, Eq)]
pub enum Family {
    Constraints,
    Interactions,
}

impl Family {
    /// The roots in the order of the walk, a part for each three output slices. The interaction call "walks the counts of all
    /// interactions, then all fields".
    pub fn roots(self, sheet: &Sheet) -> Vec<Vec<Root>> {
        match self {
            Family::Constraints => vec![constraint_roots(sheet)],
            Family::Interactions => vec![count_roots(sheet), field_roots(sheet)],
        }
    }

    /// The finished lists of roots that are expanded, in the order of the output slices.
    pub fn lists(self, walk: &Walk, roots: &[Vec<Root>]) -> Vec<Vec<u32>> {
        let lists = |part: &Vec<Root>| match self {
            Family::Constraints => layout(&groups(walk, part), constraint_term),
            Family::Interactions => layout(&groups(walk, part), interaction_term),
        };
        roots.iter().flat_map(lists).collect()
    }
}

/// Both calls: the sheet's refusals, 14, the walk, 17.
fn expand(
    family: Family,
    words: &[u32],
    work: usize,
    pool: usize,
    lent: &[usize],
    numbers: fn(&Sheet) -> Vec<u32>,
) -> Outcome {
    let answer = || {
        let sheet = Sheet::decode(words)?;
        needs(14, WORK, work)?;
        needs(14, 2 * sheet.records.len(), pool)?;
        let roots = family.roots(&sheet);
        let mut walk = Walk::new(&sheet.records, pool, LIMITS);
        walk.expand_all(&roots)?;
        let outputs = family.lists(&walk, &roots);
        if let Some(short) = (0..lent.len()).find(|&k| outputs[k].len() > lent[k]) {
            return refuse(17, short + 1);
        }
        let numbers = numbers(&sheet);
        Ok(Accepted { outputs, numbers })
    };
    outcome(&[work, pool], lent, answer())
}
