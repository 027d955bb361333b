//! The Rust as an oracle: a sheet goes in as its structures, and what it answers comes back as a sheet or as lists of words.

use std::cell::Cell;
use std::collections::HashMap;
use std::panic::{self, AssertUnwindSafe};
use std::sync::Arc;

use openvm_cuda_backend::monomial::{
    ExpandedInteractionMonomials, ExpandedMonomials, InteractionMonomialTerm, MonomialHeader,
    PackedVar,
};
use openvm_stark_backend::air_builders::symbolic::symbolic_expression::SymbolicExpression;
use openvm_stark_backend::air_builders::symbolic::symbolic_variable::{Entry, SymbolicVariable};
use openvm_stark_backend::air_builders::symbolic::{
    SymbolicConstraints, SymbolicConstraintsDag, SymbolicExpressionDag, SymbolicExpressionNode,
};
use openvm_stark_backend::interaction::Interaction as RustInteraction;
use p3_field::BabyBear;
use plain::group::Lists;
use plain::sheet::{
    ADD, CHALLENGE, CONSTANT, IS_FIRST_ROW, IS_LAST_ROW, IS_TRANSITION, MAIN, MUL, NEG,
    PREPROCESSED, PUBLIC, SUB, VARIABLE,
};
use plain::{Interaction, Record, Sheet};

type Expression = SymbolicExpression<BabyBear>;
type Node = SymbolicExpressionNode<BabyBear>;

/// A checked variable record as the Rust's variable.
fn variable(record: &Record) -> SymbolicVariable<BabyBear> {
    let [_, entry, part, offset, column] = record.map(|w| w as usize);
    let entry = match entry as u32 {
        PREPROCESSED => Entry::Preprocessed { offset },
        MAIN => Entry::Main {
            part_index: part,
            offset,
        },
        CHALLENGE => Entry::Challenge,
        PUBLIC => Entry::Public,
        _ => unreachable!("the sheet is checked"),
    };
    SymbolicVariable::new(entry, column)
}

fn node(record: &Record) -> Node {
    let [_, a, b, c, _] = record.map(|w| w as usize);
    let (left_idx, right_idx, degree_multiple) = (a, b, c);
    match record[0] {
        VARIABLE => Node::Variable(variable(record)),
        IS_FIRST_ROW => Node::IsFirstRow,
        IS_LAST_ROW => Node::IsLastRow,
        IS_TRANSITION => Node::IsTransition,
        CONSTANT => Node::Constant(BabyBear::new(record[1])),
        ADD => Node::Add {
            left_idx,
            right_idx,
            degree_multiple,
        },
        SUB => Node::Sub {
            left_idx,
            right_idx,
            degree_multiple,
        },
        NEG => Node::Neg {
            idx: a,
            degree_multiple,
        },
        MUL => Node::Mul {
            left_idx,
            right_idx,
            degree_multiple,
        },
        _ => unreachable!("the sheet is checked"),
    }
}

fn variable_record(variable: &SymbolicVariable<BabyBear>) -> Record {
    let (entry, part, offset) = match variable.entry {
        Entry::Preprocessed { offset } => (PREPROCESSED, 0, offset),
        Entry::Main { part_index, offset } => (MAIN, part_index, offset),
        Entry::Challenge => (CHALLENGE, 0, 0),
        Entry::Public => (PUBLIC, 0, 0),
    };
    let word = |n: usize| n as u32;
    [
        VARIABLE,
        entry,
        word(part),
        word(offset),
        word(variable.index),
    ]
}

fn node_record(node: &Node) -> Record {
    let record = |kind, words: [&usize; 3]| {
        let [a, b, c] = words.map(|n| *n as u32);
        [kind, a, b, c, 0]
    };
    match node {
        Node::Variable(variable) => variable_record(variable),
        Node::IsFirstRow => [IS_FIRST_ROW, 0, 0, 0, 0],
        Node::IsLastRow => [IS_LAST_ROW, 0, 0, 0, 0],
        Node::IsTransition => [IS_TRANSITION, 0, 0, 0, 0],
        Node::Constant(c) => [CONSTANT, c.value(), 0, 0, 0],
        Node::Add {
            left_idx,
            right_idx,
            degree_multiple,
        } => record(ADD, [left_idx, right_idx, degree_multiple]),
        Node::Sub {
            left_idx,
            right_idx,
            degree_multiple,
        } => record(SUB, [left_idx, right_idx, degree_multiple]),
        Node::Neg {
            idx,
            degree_multiple,
        } => record(NEG, [idx, &0, degree_multiple]),
        Node::Mul {
            left_idx,
            right_idx,
            degree_multiple,
        } => record(MUL, [left_idx, right_idx, degree_multiple]),
    }
}

/// Each record as an expression; "a record named twice is one Arc".
fn expressions(records: &[Record]) -> Vec<Arc<Expression>> {
    let mut made: Vec<Arc<Expression>> = vec![];
    for record in records {
        let child = |k: usize| made[record[k] as usize].clone();
        let degree_multiple = record[3] as usize;
        let expression = match record[0] {
            VARIABLE => Expression::Variable(variable(record)),
            IS_FIRST_ROW => Expression::IsFirstRow,
            IS_LAST_ROW => Expression::IsLastRow,
            IS_TRANSITION => Expression::IsTransition,
            CONSTANT => Expression::Constant(BabyBear::new(record[1])),
            ADD => Expression::Add {
                x: child(1),
                y: child(2),
                degree_multiple,
            },
            SUB => Expression::Sub {
                x: child(1),
                y: child(2),
                degree_multiple,
            },
            NEG => Expression::Neg {
                x: child(1),
                degree_multiple,
            },
            MUL => Expression::Mul {
                x: child(1),
                y: child(2),
                degree_multiple,
            },
            _ => unreachable!("the sheet is checked"),
        };
        made.push(Arc::new(expression));
    }
    made
}

/// Interactions with each record number as something else.
fn interactions<T>(sheet: &Sheet, named: impl Fn(u32) -> T) -> Vec<RustInteraction<T>> {
    let interaction = |x: &Interaction| RustInteraction {
        message: x.message.iter().map(|&field| named(field)).collect(),
        count: named(x.count),
        bus_index: x.bus as u16,
        count_weight: x.weight,
    };
    sheet.interactions.iter().map(interaction).collect()
}

pub fn symbolic_constraints(sheet: &Sheet) -> SymbolicConstraints<BabyBear> {
    let made = expressions(&sheet.records);
    let named = |record: u32| made[record as usize].as_ref().clone();
    SymbolicConstraints {
        constraints: sheet.constraints.iter().map(|&c| named(c)).collect(),
        interactions: interactions(sheet, named),
    }
}

/// The records as nodes, whatever sheet they are from.
pub fn expression_dag(sheet: &Sheet) -> SymbolicExpressionDag<BabyBear> {
    SymbolicExpressionDag {
        nodes: sheet.records.iter().map(node).collect(),
        constraint_idx: sheet.constraints.iter().map(|&c| c as usize).collect(),
    }
}

/// The Rust's graph as a sheet.
pub fn sheet_of(dag: &SymbolicConstraintsDag<BabyBear>) -> Sheet {
    let interaction = |x: &RustInteraction<usize>| Interaction {
        bus: u32::from(x.bus_index),
        weight: x.count_weight,
        count: x.count as u32,
        message: x.message.iter().map(|&field| field as u32).collect(),
    };
    let constraints = dag.constraints.constraint_idx.iter().map(|&c| c as u32);
    Sheet {
        records: dag.constraints.nodes.iter().map(node_record).collect(),
        constraints: constraints.collect(),
        interactions: dag.interactions.iter().map(interaction).collect(),
    }
}

/// `build_symbolic_constraints_dag`, reached through `From`.
pub fn build(sheet: &Sheet) -> SymbolicConstraintsDag<BabyBear> {
    SymbolicConstraintsDag::from(symbolic_constraints(sheet))
}

/// Whether what the Rust's conversion gives for a graph is the expressions of a sheet: each name the expression of its
/// record, and each shared expression one record.
pub fn converted_is(converted: &SymbolicConstraints<BabyBear>, sheet: &Sheet) -> bool {
    let mut seen = HashMap::new();
    let mut is =
        |expression: &Expression, record: u32| is_record(expression, record, sheet, &mut seen);
    if converted.constraints.len() != sheet.constraints.len()
        || converted.interactions.len() != sheet.interactions.len()
    {
        return false;
    }
    let mut constraints = converted.constraints.iter().zip(&sheet.constraints);
    if !constraints.all(|(expression, &record)| is(expression, record)) {
        return false;
    }
    let mut both = converted.interactions.iter().zip(&sheet.interactions);
    both.all(|(x, y)| {
        u32::from(x.bus_index) == y.bus
            && x.count_weight == y.weight
            && x.message.len() == y.message.len()
            && is(&x.count, y.count)
            && x.message.iter().zip(&y.message).all(|(x, &y)| is(x, y))
    })
}

fn is_record(
    expression: &Expression,
    number: u32,
    sheet: &Sheet,
    seen: &mut HashMap<*const Expression, u32>,
) -> bool {
    if let Some(&known) = seen.get(&(expression as *const _)) {
        return known == number;
    }
    let record = sheet.records[number as usize];
    let mut pair = |kind, x: &Expression, y: &Expression, degree: usize| {
        record == [kind, record[1], record[2], degree as u32, 0]
            && is_record(x, record[1], sheet, seen)
            && is_record(y, record[2], sheet, seen)
    };
    let right = match expression {
        Expression::Variable(variable) => record == variable_record(variable),
        Expression::IsFirstRow => record == [IS_FIRST_ROW, 0, 0, 0, 0],
        Expression::IsLastRow => record == [IS_LAST_ROW, 0, 0, 0, 0],
        Expression::IsTransition => record == [IS_TRANSITION, 0, 0, 0, 0],
        Expression::Constant(c) => record == [CONSTANT, c.value(), 0, 0, 0],
        Expression::Add {
            x,
            y,
            degree_multiple,
        } => pair(ADD, x, y, *degree_multiple),
        Expression::Sub {
            x,
            y,
            degree_multiple,
        } => pair(SUB, x, y, *degree_multiple),
        Expression::Mul {
            x,
            y,
            degree_multiple,
        } => pair(MUL, x, y, *degree_multiple),
        Expression::Neg { x, degree_multiple } => {
            record == [NEG, record[1], 0, *degree_multiple as u32, 0]
                && is_record(x, record[1], sheet, seen)
        }
    };
    seen.insert(expression, number);
    right
}

/// What the Rust answers, or the message of its panic.
pub type Caught<T> = Result<T, String>;

thread_local! {
    static CATCHING: Cell<bool> = const { Cell::new(false) };
}

/// Panics that are caught print nothing.
pub fn keep_caught_panics_quiet() {
    let usual = panic::take_hook();
    panic::set_hook(Box::new(move |info| {
        if !CATCHING.get() {
            usual(info);
        }
    }));
}

pub fn caught<T>(run: impl FnOnce() -> T) -> Caught<T> {
    CATCHING.set(true);
    let result = panic::catch_unwind(AssertUnwindSafe(run));
    CATCHING.set(false);
    result.map_err(|payload| match payload.downcast::<String>() {
        Ok(message) => *message,
        Err(payload) => match payload.downcast::<&str>() {
            Ok(message) => message.to_string(),
            Err(_) => "a panic without a message".to_string(),
        },
    })
}

/// The packed number of a checked variable or row mark.
pub fn pack(leaf: &Record) -> Caught<u32> {
    caught(|| match leaf[0] {
        VARIABLE => PackedVar::from_symbolic_var(&variable(leaf)).0,
        IS_FIRST_ROW => PackedVar::is_first().0,
        IS_LAST_ROW => PackedVar::is_last().0,
        IS_TRANSITION => PackedVar::is_transition().0,
        _ => unreachable!("a leaf"),
    })
}

/// Headers, variables and terms of `from_dag`, as they stand.
pub fn expand_constraints(sheet: &Sheet) -> Caught<Lists> {
    let dag = expression_dag(sheet);
    let expanded = caught(|| ExpandedMonomials::from_dag(&dag))?;
    let headers = expanded.headers.iter().flat_map(|h| {
        let (vars, terms) = (u32::from(h.num_vars), u32::from(h.num_terms));
        [h.var_offset, h.term_offset, vars, terms]
    });
    let terms = expanded.lambda_terms.iter();
    Ok([
        headers.collect(),
        expanded.variables.iter().map(|v| v.0).collect(),
        terms
            .flat_map(|t| [t.constraint_idx, t.coefficient.value()])
            .collect(),
    ])
}

/// The six lists of `from_symbolic_constraints`, its headers put in the order of constraint headers and their offsets counted
/// anew, for its own order follows a hash map; and the two numbers.
pub fn expand_interactions(sheet: &Sheet) -> Caught<(Vec<Vec<u32>>, Vec<u32>)> {
    let symbolic = symbolic_constraints(sheet);
    let expanded = caught(|| ExpandedInteractionMonomials::from_symbolic_constraints(&symbolic))?;
    let numerators = in_order(
        &expanded.numer_headers,
        &expanded.numer_variables,
        &expanded.numer_terms,
    );
    let denominators = in_order(
        &expanded.denom_headers,
        &expanded.denom_variables,
        &expanded.denom_terms,
    );
    let numbers = vec![expanded.num_interactions, expanded.max_fields_len as u32];
    Ok(([numerators, denominators].concat(), numbers))
}

fn in_order(
    headers: &[MonomialHeader],
    variables: &[PackedVar],
    terms: &[InteractionMonomialTerm<BabyBear>],
) -> Lists {
    let part = |h: &MonomialHeader| {
        let variables = &variables[h.var_offset as usize..][..usize::from(h.num_vars)];
        let terms = &terms[h.term_offset as usize..][..usize::from(h.num_terms)];
        (variables.len(), variables, terms)
    };
    let mut parts: Vec<_> = headers.iter().map(part).collect();
    parts.sort_by_key(|&(length, variables, _)| (length, variables));

    let mut lists: Lists = Default::default();
    let (mut variable_offset, mut term_offset) = (0, 0);
    for (_, variables, terms) in parts {
        let (vars, count) = (variables.len() as u32, terms.len() as u32);
        lists[0].extend([variable_offset, term_offset, vars, count]);
        lists[1].extend(variables.iter().map(|v| v.0));
        for t in terms {
            let (interaction, field) = (u32::from(t.interaction_idx), u32::from(t.field_idx));
            lists[2].extend([t.coefficient.value(), interaction, field]);
        }
        variable_offset += vars;
        term_offset += count;
    }
    lists
}
