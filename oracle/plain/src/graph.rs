//! "Building the graph."

use std::collections::HashMap;

use crate::field;
use crate::sheet::{Interaction, Record, Sheet, ADD, CONSTANT, MUL, NEG, SUB};

const ZERO: Record = constant(0);
const ONE: Record = constant(1);

const fn constant(value: u32) -> Record {
    [CONSTANT, value, 0, 0, 0]
}

struct Builder<'a> {
    records: &'a [Record],
    nodes: Vec<Record>,
    numbers: HashMap<Record, u32>,
    /// The node of each record that was added.
    added: Vec<Option<u32>>,
}

impl Builder<'_> {
    /// The node of a record; "Children come left first."
    fn add(&mut self, record: u32) -> u32 {
        if let Some(node) = self.added[record as usize] {
            return node;
        }
        let words = self.records[record as usize];
        let [kind, a, b, degree, _] = words;
        let node = match kind {
            ADD | SUB | MUL => {
                let left = self.add(a);
                let right = self.add(b);
                self.binary(kind, left, right, degree)
            }
            NEG => {
                let child = self.add(a);
                self.negation(child, degree)
            }
            _ => self.intern(words),
        };
        self.added[record as usize] = Some(node);
        node
    }

    /// "Rules, first that applies", on the built children; "The rewritten node keeps the degree word of the source record."
    fn binary(&mut self, kind: u32, left: u32, right: u32, degree: u32) -> u32 {
        match (kind, self.nodes[left as usize], self.nodes[right as usize]) {
            (ADD, [CONSTANT, x, ..], [CONSTANT, y, ..]) => self.intern(constant(field::add(x, y))),
            (SUB, [CONSTANT, x, ..], [CONSTANT, y, ..]) => self.intern(constant(field::sub(x, y))),
            (MUL, [CONSTANT, x, ..], [CONSTANT, y, ..]) => self.intern(constant(field::mul(x, y))),

            (ADD, ZERO, _) => right,
            (ADD, _, ZERO) => left,
            (ADD, _, [NEG, y, ..]) => self.intern([SUB, left, y, degree, 0]),

            (SUB, _, ZERO) => left,
            (SUB, _, [NEG, y, ..]) => self.intern([ADD, left, y, degree, 0]),

            (MUL, ZERO, _) | (MUL, _, ONE) => left,
            (MUL, _, ZERO) | (MUL, ONE, _) => right,

            _ => self.intern([kind, left, right, degree, 0]),
        }
    }

    /// "Neg: a constant folds."
    fn negation(&mut self, child: u32, degree: u32) -> u32 {
        match self.nodes[child as usize] {
            [CONSTANT, x, ..] => self.intern(constant(field::neg(x))),
            _ => self.intern([NEG, child, 0, degree, 0]),
        }
    }

    /// "A node equal in all five words to an earlier one is that one; else it is appended."
    fn intern(&mut self, node: Record) -> u32 {
        let next = self.nodes.len() as u32;
        let number = *self.numbers.entry(node).or_insert(next);
        if number == next {
            self.nodes.push(node);
        }
        number
    }
}

/// The graph of a sheet. "Constraints go in first; then each interaction's fields, then its count." "Nodes left unused stay.
/// The node numbers of the constraints are then sorted and repeats dropped."
pub fn build(sheet: &Sheet) -> Sheet {
    let mut builder = Builder {
        records: &sheet.records,
        nodes: vec![],
        numbers: HashMap::new(),
        added: vec![None; sheet.records.len()],
    };
    let mut constraints: Vec<u32> = sheet.constraints.iter().map(|&c| builder.add(c)).collect();
    constraints.sort();
    constraints.dedup();
    let mut interactions = vec![];
    for x in &sheet.interactions {
        let message = x.message.iter().map(|&field| builder.add(field)).collect();
        let count = builder.add(x.count);
        interactions.push(Interaction {
            bus: x.bus,
            weight: x.weight,
            count,
            message,
        });
    }
    Sheet {
        records: builder.nodes,
        constraints,
        interactions,
    }
}
