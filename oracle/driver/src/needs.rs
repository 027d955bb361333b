//! What an expansion needs of what it is lent, by the plain Rust.

use plain::calls::Family;
use plain::expand::{Walk, LIMITS};
use plain::reply::Answer;
use plain::Sheet;

pub const FAMILIES: [Family; 2] = [Family::Constraints, Family::Interactions];

pub struct Needs {
    /// The records in the order in which they are expanded, each with the words of the pool in use after it.
    pub stored: Vec<(u32, usize)>,
    /// The words of the pool in all, or up to where it is refused.
    pub pool: usize,
    /// The words of each output, or the refusal by 8 to 13.
    pub outputs: Answer<Vec<usize>>,
}

pub fn needs(family: Family, sheet: &Sheet) -> Needs {
    let roots = family.roots(sheet);
    let mut walk = Walk::new(&sheet.records, usize::MAX, LIMITS);
    let outputs = walk.expand_all(&roots).map(|()| {
        let lists = family.lists(&walk, &roots);
        lists.iter().map(Vec::len).collect()
    });
    Needs {
        outputs,
        pool: walk.used,
        stored: walk.stored,
    }
}

/// How many outputs an expansion has.
pub fn outputs(family: Family) -> usize {
    match family {
        Family::Constraints => 3,
        Family::Interactions => 6,
    }
}
