//! Records made one after another.

use plain::sheet::{ADD, MAIN, MUL, NEG, SUB, VARIABLE};
use plain::Record;

/// v and w: main, part 0, offset 0, columns 0 and 1.
pub const V: Record = [VARIABLE, MAIN, 0, 0, 0];
pub const W: Record = [VARIABLE, MAIN, 0, 0, 1];

#[derive(Clone, Default)]
pub struct Records(pub Vec<Record>);

impl Records {
    /// v and so many records less one, each the negative of the one before.
    pub fn negatives(count: u32) -> Self {
        let rest = (1..count).map(|k| [NEG, k - 1, 0, 1, 0]);
        Records([V].into_iter().chain(rest).collect())
    }

    /// The number of the record that was pushed last.
    pub fn last(&self) -> u32 {
        self.0.len() as u32 - 1
    }

    pub fn push(&mut self, record: Record) -> u32 {
        self.0.push(record);
        self.last()
    }

    /// Two records joined by a kind, with degree word 0.
    pub fn join(&mut self, kind: u32, left: u32, right: u32) -> u32 {
        self.push([kind, left, right, 0, 0])
    }

    /// So many variables from a column on, joined by one kind.
    pub fn joined(&mut self, kind: u32, count: u32, column: u32) -> u32 {
        let mut made = self.push([VARIABLE, MAIN, 0, 0, column]);
        for k in 1..count {
            let next = self.push([VARIABLE, MAIN, 0, 0, column + k]);
            made = self.join(kind, made, next);
        }
        made
    }

    /// A list of so many distinct monomials, in columns from one on and below 500 more: none, or a product of two sums and some
    /// variables more.
    pub fn list(&mut self, monomials: u32, column: u32) -> u32 {
        if monomials == 0 {
            let v = self.joined(ADD, 1, column);
            return self.join(SUB, v, v);
        }
        let width = monomials.isqrt();
        let height = monomials / width;
        let left = self.joined(ADD, width, column);
        let right = self.joined(ADD, height, column + 100);
        let mut made = self.join(MUL, left, right);
        for k in width * height..monomials {
            let further = self.push([VARIABLE, MAIN, 0, 0, column + 200 + k]);
            made = self.join(ADD, made, further);
        }
        made
    }
}
