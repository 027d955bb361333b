//! The walk of an expansion: the list of monomials of each record that some roots reach.

use std::collections::BTreeMap;

use crate::field;
use crate::group::Root;
use crate::packing::{packed, PackedVar};
use crate::reply::{refuse, Answer};
use crate::sheet::{children, Record, ADD, CONSTANT, MUL, NEG, SUB};

/// A product of variables, sorted by number, and its coefficient.
#[derive(Clone, Debug, PartialEq, Eq)]
pub struct Monomial {
    pub vars: Vec<PackedVar>,
    pub coefficient: u32,
}

/// "12: a working list above 256. 13: a product of more than 14 variables." The Rust has no such limits, and the comparison
/// with it may raise them.
#[derive(Clone, Copy, Debug)]
pub struct Limits {
    pub list: usize,
    pub product: usize,
}

pub const LIMITS: Limits = Limits {
    list: 256,
    product: 14,
};

/// A walk so far: the lists of the records that are expanded, the words of the pool that they take, and the records in the order
/// in which they were stored, each with the words in use after it.
pub struct Walk<'a> {
    records: &'a [Record],
    limits: Limits,
    pool: usize,
    pub used: usize,
    pub stored: Vec<(u32, usize)>,
    lists: Vec<Option<Vec<Monomial>>>,
}

impl<'a> Walk<'a> {
    /// "The pool holds 2 words per record .., then each list."
    pub fn new(records: &'a [Record], pool: usize, limits: Limits) -> Self {
        Walk {
            records,
            limits,
            pool,
            used: 2 * records.len(),
            stored: vec![],
            lists: vec![None; records.len()],
        }
    }

    /// "A record is expanded once, when first reached, left child, right child, then itself."
    pub fn expand(&mut self, record: u32) -> Answer<()> {
        let number = record as usize;
        if self.lists[number].is_some() {
            return Ok(());
        }
        let records = self.records;
        for &child in children(&records[number]) {
            self.expand(child)?;
        }
        let list = self.list(number)?;
        self.store(number, list)
    }

    /// All roots, from the first to the last.
    pub fn expand_all(&mut self, roots: &[Vec<Root>]) -> Answer<()> {
        let mut roots = roots.iter().flatten();
        roots.try_for_each(|root| self.expand(root.record))
    }

    /// The list of a record that is expanded.
    pub fn list_of(&self, record: u32) -> &[Monomial] {
        let list = &self.lists[record as usize];
        list.as_ref().expect("a record that was reached")
    }

    pub fn reached(&self, record: u32) -> bool {
        self.lists[record as usize].is_some()
    }

    /// The list of a record whose children are expanded; 8 to 13, "At one record the lower number wins."
    fn list(&self, number: usize) -> Answer<Vec<Monomial>> {
        let record = &self.records[number];
        let [kind, a, b, ..] = *record;
        match kind {
            ADD | SUB | MUL => {
                let (left, right) = (self.list_of(a), self.list_of(b));
                self.check_working(number, kind, left, right)?;
                Ok(combine(match kind {
                    ADD => [left, right].concat(),
                    SUB => [left, &negated(right)].concat(),
                    _ => products(left, right),
                }))
            }
            NEG => Ok(negated(self.list_of(a))),
            CONSTANT => Ok(vec![Monomial {
                vars: vec![],
                coefficient: a,
            }]),
            _ => match packed(record) {
                Ok(var) => Ok(vec![Monomial {
                    vars: vec![var],
                    coefficient: 1,
                }]),
                Err(fault) => refuse(fault, number),
            },
        }
    }

    /// "12 and 13 look at the working list before combining." A sum is no longer than its parts, which have passed.
    fn check_working(
        &self,
        number: usize,
        kind: u32,
        left: &[Monomial],
        right: &[Monomial],
    ) -> Answer<()> {
        let length = match kind {
            MUL => left.len() * right.len(),
            _ => left.len() + right.len(),
        };
        if length > self.limits.list {
            return refuse(12, number);
        }
        let longest = |list: &[Monomial]| list.iter().map(|m| m.vars.len()).max();
        if let (MUL, Some(l), Some(r)) = (kind, longest(left), longest(right)) {
            if l + r > self.limits.product {
                return refuse(13, number);
            }
        }
        Ok(())
    }

    /// "each list: 2 words a monomial and one a variable"; "16: the pool can't take a record's list. Place: that record."
    fn store(&mut self, number: usize, list: Vec<Monomial>) -> Answer<()> {
        self.used += list.iter().map(|m| 2 + m.vars.len()).sum::<usize>();
        if self.used > self.pool {
            return refuse(16, number);
        }
        self.lists[number] = Some(list);
        self.stored.push((number as u32, self.used));
        Ok(())
    }
}

fn negated(list: &[Monomial]) -> Vec<Monomial> {
    let negate = |m: &Monomial| Monomial {
        vars: m.vars.clone(),
        coefficient: field::neg(m.coefficient),
    };
    list.iter().map(negate).collect()
}

/// "Mul: every left monomial times every right one, variables sorted by number."
fn products(left: &[Monomial], right: &[Monomial]) -> Vec<Monomial> {
    let mut list = vec![];
    for l in left {
        for r in right {
            let mut vars = [&l.vars[..], &r.vars[..]].concat();
            vars.sort();
            list.push(Monomial {
                vars,
                coefficient: field::mul(l.coefficient, r.coefficient),
            });
        }
    }
    list
}

/// "equal variable lists are summed and zero sums dropped"
fn combine(working: Vec<Monomial>) -> Vec<Monomial> {
    let mut sums: BTreeMap<Vec<PackedVar>, u32> = BTreeMap::new();
    for m in working {
        let sum = sums.entry(m.vars).or_insert(0);
        *sum = field::add(*sum, m.coefficient);
    }
    sums.retain(|_, sum| *sum != 0);
    let monomial = |(vars, coefficient)| Monomial { vars, coefficient };
    sums.into_iter().map(monomial).collect()
}
