//! Grouping the monomials of roots by their variables, and the three lists of words that come of it.

use std::collections::BTreeMap;

use crate::expand::Walk;
use crate::packing::PackedVar;
use crate::sheet::Sheet;

/// A record to expand, and what its terms carry: a constraint's place (field 0); an interaction and a field.
#[derive(Clone, Copy, Debug)]
pub struct Root {
    pub record: u32,
    pub index: u32,
    pub field: u32,
}

/// "its answers number them by place in that list"
pub fn constraint_roots(sheet: &Sheet) -> Vec<Root> {
    numbered(&sheet.constraints, |index, &record| {
        vec![Root {
            record,
            index,
            field: 0,
        }]
    })
}

/// "field (0 in numerators)"
pub fn count_roots(sheet: &Sheet) -> Vec<Root> {
    numbered(&sheet.interactions, |index, x| {
        vec![Root {
            record: x.count,
            index,
            field: 0,
        }]
    })
}

pub fn field_roots(sheet: &Sheet) -> Vec<Root> {
    numbered(&sheet.interactions, |index, x| {
        numbered(&x.message, |field, &record| {
            vec![Root {
                record,
                index,
                field,
            }]
        })
    })
}

/// The roots of the elements of a list, counted from 0.
fn numbered<T>(list: &[T], roots: impl Fn(u32, &T) -> Vec<Root>) -> Vec<Root> {
    let each = list.iter().enumerate();
    each.flat_map(|(k, x)| roots(k as u32, x)).collect()
}

/// A root's monomial without its variables.
#[derive(Clone, Copy, Debug, PartialEq, Eq)]
pub struct Term {
    pub index: u32,
    pub field: u32,
    pub coefficient: u32,
}

/// One variable list and its terms.
#[derive(Clone, Debug, PartialEq, Eq)]
pub struct Group {
    pub vars: Vec<PackedVar>,
    pub terms: Vec<Term>,
}

/// Headers ascend by length, then number by number; terms ascend as the roots do. "Zero coefficients are dropped before
/// grouping."
pub fn groups(walk: &Walk, roots: &[Root]) -> Vec<Group> {
    let mut groups: BTreeMap<(usize, Vec<PackedVar>), Vec<Term>> = BTreeMap::new();
    for root in roots {
        for m in walk.list_of(root.record) {
            if m.coefficient != 0 {
                let terms = groups.entry((m.vars.len(), m.vars.clone())).or_default();
                terms.push(Term {
                    index: root.index,
                    field: root.field,
                    coefficient: m.coefficient,
                });
            }
        }
    }
    let group = |((_, vars), terms)| Group { vars, terms };
    groups.into_iter().map(group).collect()
}

/// Headers, variables and terms of one family, as words.
pub type Lists = [Vec<u32>; 3];

/// "Headers are four words: variable offset, term offset, number of variables, number of terms; in all lists each offset is
/// the total of the matching number over the headers before it."
pub fn layout<const W: usize>(groups: &[Group], term_words: fn(&Term) -> [u32; W]) -> Lists {
    let (mut headers, mut variables, mut terms) = (vec![], vec![], vec![]);
    let (mut variable_offset, mut term_offset) = (0, 0);
    for group in groups {
        let (vars, count) = (group.vars.len() as u32, group.terms.len() as u32);
        headers.extend([variable_offset, term_offset, vars, count]);
        variables.extend(group.vars.iter().map(|v| v.0));
        terms.extend(group.terms.iter().flat_map(term_words));
        variable_offset += vars;
        term_offset += count;
    }
    [headers, variables, terms]
}

/// "Constraint terms: constraint index, coefficient."
pub fn constraint_term(term: &Term) -> [u32; 2] {
    [term.index, term.coefficient]
}

/// "Interaction terms: coefficient, interaction, field."
pub fn interaction_term(term: &Term) -> [u32; 3] {
    [term.coefficient, term.index, term.field]
}
