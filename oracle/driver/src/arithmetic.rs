//! Sums, differences, products and negatives of values: as constants that the builder folds, and as coefficients of both expansions.
//! What is due is the remainder, by a division of 128 bits; the graphs and the lists are also compared with the Rust's and plain's.

use std::collections::HashMap;

use plain::calls::{Family, WORK};
use plain::field::P;
use plain::sheet::{ADD, CONSTANT, MUL, NEG, SUB};
use plain::{Interaction, Outcome, Sheet};

use crate::compare::{compare_graph, decoded, Case, LEFT_OUT};
use crate::implementation::{Implementation, Plain};
use crate::lists::compare_lists;
use crate::needs::needs;
use crate::records::Records;
use crate::rng::Rng;
use crate::sheet_calls::case;

/// A record's kind and its children's values; a negation has only the first.
#[derive(Clone, Copy, Debug)]
pub struct Operation {
    row: &'static str,
    kind: u32,
    a: u32,
    b: u32,
}

/// Each kind, with values at bounds and with random values.
const ROWS: [(u32, [&str; 2]); 4] = [
    (ADD, ["a + b, values at bounds", "a + b, random values"]),
    (SUB, ["a - b, values at bounds", "a - b, random values"]),
    (MUL, ["a * b, values at bounds", "a * b, random values"]),
    (NEG, ["-a, values at bounds", "-a, random values"]),
];
const UNIT: &str = "a * b that is 1 or p - 1";
const WHOLE: &str = "their graphs and lists, as the Rust's and plain's";

/// The values at bounds: around 0, p, half of p, 2^15 and 2^30; 2^16, and 2^27, of which p - 1 is a multiple.
const BOUNDS: [u32; 16] = [
    0,
    1,
    2,
    3,
    (1 << 15) - 1,
    1 << 15,
    1 << 16,
    1 << 27,
    P / 2,
    P / 2 + 1,
    (1 << 30) - 1,
    1 << 30,
    (1 << 30) + 1,
    P - 3,
    P - 2,
    P - 1,
];

/// So many random operations of each kind in a sheet.
const EACH: usize = 8;

/// The most fields of a message.
const MESSAGE: usize = 63;

/// All kinds, in the order of the table.
pub fn kinds() -> Vec<&'static str> {
    let rows = ROWS.iter().flat_map(|(_, rows)| *rows);
    rows.chain([UNIT, WHOLE]).collect()
}

/// The values at bounds with each other.
pub fn at_bounds() -> Vec<Operation> {
    let mut made = vec![];
    for (kind, [row, _]) in ROWS {
        for a in BOUNDS {
            let others = if kind == NEG { &BOUNDS[..1] } else { &BOUNDS };
            made.extend(others.iter().map(|&b| Operation { row, kind, a, b }));
        }
    }
    made
}

/// Random values, and pairs whose product is 1 or p - 1.
pub fn random_operations(rng: &mut Rng) -> Vec<Operation> {
    let mut made = vec![];
    for _ in 0..EACH {
        for (kind, [_, row]) in ROWS {
            let [a, b] = [0; 2].map(|_| rng.below(P as usize) as u32);
            made.push(Operation { row, kind, a, b });
        }
        let a = rng.between(1, P as usize - 1) as u32;
        for unit in [1, P - 1] {
            let b = remainder(i128::from(inverse(a)) * i128::from(unit));
            let (row, kind) = (UNIT, MUL);
            made.push(Operation { row, kind, a, b });
        }
    }
    made
}

fn remainder(n: i128) -> u32 {
    n.rem_euclid(i128::from(P)) as u32
}

/// The value whose product with a is 1: a to the power p - 2.
fn inverse(a: u32) -> u32 {
    let (mut power, mut square, mut rest) = (1, i128::from(a), P - 2);
    while rest > 0 {
        if rest % 2 == 1 {
            power = i128::from(remainder(power * square));
        }
        square = i128::from(remainder(square * square));
        rest /= 2;
    }
    power as u32
}

impl Operation {
    fn due(&self) -> u32 {
        let [a, b] = [self.a, self.b].map(i128::from);
        remainder(match self.kind {
            ADD => a + b,
            SUB => a - b,
            MUL => a * b,
            _ => -a,
        })
    }
}

/// Each operation of constants, named by a constraint and by a field.
fn sheet_of(operations: &[Operation]) -> Sheet {
    let mut records = Records::default();
    let constant = |records: &mut Records, value| records.push([CONSTANT, value, 0, 0, 0]);
    let mut record = |x: &Operation| {
        let left = constant(&mut records, x.a);
        let right = match x.kind {
            NEG => 0,
            _ => constant(&mut records, x.b),
        };
        records.join(x.kind, left, right)
    };
    let constraints: Vec<u32> = operations.iter().map(&mut record).collect();
    let interaction = |message: &[u32]| Interaction {
        count: message[0],
        message: message.to_vec(),
        ..Interaction::default()
    };
    Sheet {
        interactions: constraints.chunks(MESSAGE).map(interaction).collect(),
        records: records.0,
        constraints,
    }
}

/// Each operation: the constant in the graph, the coefficient of the constraint and that of the field.
pub fn compare_operations(under_test: &dyn Implementation, operations: &[Operation]) -> Vec<Case> {
    let sheet = sheet_of(operations);
    let words = sheet.encode();
    let built = under_test.builder(&words, sheet.records.len(), sheet.length());
    let expand = |family| {
        let needs = needs(family, &sheet);
        let lent = needs.outputs.expect("constants alone are not refused");
        under_test.expand(family, &words, WORK, needs.pool, &lent)
    };
    let constraints = coefficients(&expand(Family::Constraints), 2, |&[index, value]| {
        (vec![index], value)
    });
    let fields = coefficients(
        &expand(Family::Interactions),
        5,
        |&[value, interaction, field]| (vec![interaction, field], value),
    );
    let folded = folded(&built);
    let mut cases = vec![];
    for (k, operation) in operations.iter().enumerate() {
        let [index, interaction, field] = [k, k / MESSAGE, k % MESSAGE].map(|n| n as u32);
        let listed = |found: &Option<HashMap<_, _>>, label: Vec<u32>| {
            let found = found.as_ref();
            found.map(|found| found.get(&label).copied().unwrap_or(0))
        };
        let ours = [
            folded
                .as_ref()
                .and_then(|found| found.get(k).copied().flatten()),
            listed(&constraints, vec![index]),
            listed(&fields, vec![interaction, field]),
        ];
        let due = operation.due();
        let found = |ours: Option<u32>| Case {
            kind: operation.row,
            difference: (ours != Some(due)).then(|| {
                let (name, Operation { a, b, .. }) = (under_test.name(), operation);
                format!("{name} {ours:?} of {a} and {b}, not {due}")
            }),
            size: 1,
        };
        cases.extend(ours.map(found));
    }
    let of_plain = Plain.builder(&words, sheet.records.len(), sheet.length());
    let graph = compare_graph(under_test, &sheet, 0);
    let lists = compare_lists(under_test, &sheet, 0);
    let all = [case(WHOLE, &built, &of_plain)].into_iter();
    let mut all = all.chain(graph).chain(lists);
    cases.push(Case {
        kind: WHOLE,
        difference: all.find_map(|case| match LEFT_OUT.contains(&case.kind) {
            true => Some(case.kind.to_string()),
            false => case.difference,
        }),
        size: sheet.records.len(),
    });
    cases
}

/// What the fields of an accepted graph name, one by one: a constant's value, or nothing.
fn folded(built: &Outcome) -> Option<Vec<Option<u32>>> {
    let graph = decoded(built).ok()?;
    let value = |&record: &u32| match graph.records[record as usize] {
        [CONSTANT, value, ..] => Some(value),
        _ => None,
    };
    let fields = graph.interactions.iter().flat_map(|x| &x.message);
    Some(fields.map(value).collect())
}

/// The coefficients of an accepted expansion by what stands beside them; its terms, of W words, are output `k`. A term that is zero
/// may not be listed.
fn coefficients<const W: usize>(
    outcome: &Outcome,
    k: usize,
    labelled: fn(&[u32; W]) -> (Vec<u32>, u32),
) -> Option<HashMap<Vec<u32>, u32>> {
    if outcome.refusal().is_some() {
        return None;
    }
    let (terms, _) = outcome.written(k).as_chunks::<W>();
    let found: HashMap<_, _> = terms.iter().map(labelled).collect();
    found.values().all(|&value| value != 0).then_some(found)
}
