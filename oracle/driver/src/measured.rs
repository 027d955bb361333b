//! The sheets on which time is measured: of a given size, with expansions that are accepted.

use std::fmt::Write;

use plain::calls::{Family, WORK};
use plain::sheet::{
    ADD, CONSTANT, IS_FIRST_ROW, IS_LAST_ROW, IS_TRANSITION, MAIN, MUL, PREPROCESSED, SUB, VARIABLE,
};
use plain::{Interaction, Sheet};

use crate::needs::needs;
use crate::records::Records;
use crate::rng::Rng;
use crate::sheets::{bounded, Sized, SIZED};

pub const SIZES: [usize; 3] = [50, 500, 4_096];

/// Sheets of each shape and size.
pub const SHEETS: u64 = 5;

/// Shapes of at most a given number of records.
pub const EXPANDED: [Sized; 4] = [
    ("realistic", |rng, count| {
        let (constraints, interactions) = ((3 * count / 10).min(1_024), count / 10);
        realistic(rng, count, constraints, interactions)
    }),
    ("polynomials", |rng, count| {
        let sheet = bounded(rng, count);
        with_interactions(rng, sheet.clone(), &sheet.constraints)
    }),
    ("shared subexpressions", shared),
    ("many headers", many_headers),
];

/// One interaction for each ten records, at most 1,024, with one to ten of some records as its fields and one as its count.
fn with_interactions(rng: &mut Rng, mut sheet: Sheet, some: &[u32]) -> Sheet {
    let interaction = |_| Interaction {
        count: rng.pick(some),
        message: (0..rng.between(1, 10)).map(|_| rng.pick(some)).collect(),
        ..Interaction::default()
    };
    let count = (sheet.records.len() / 10).clamp(1, 1_024);
    sheet.interactions = (0..count).map(interaction).collect();
    sheet
}

/// What is written for the rows of a machine: flags that are 0 or 1, sums, differences and short products of values in this row and
/// the next, most of them under a flag or a row mark. So many records, as many of the constraints as they have room for, and so many
/// interactions.
pub fn realistic(
    rng: &mut Rng,
    count: usize,
    most_constraints: usize,
    interactions: usize,
) -> Sheet {
    let mut records = Records::default();
    let (mut here, mut next) = (vec![], vec![]);
    for column in 0..(count as u32 / 20).max(4) {
        here.push(records.push([VARIABLE, MAIN, 0, 0, column]));
        next.push(records.push([VARIABLE, MAIN, 0, 1, column]));
    }
    let marks = [IS_FIRST_ROW, IS_LAST_ROW, IS_TRANSITION];
    let marks = marks.map(|mark| records.push([mark, 0, 0, 0, 0]));
    let [one, byte] = [1, 256].map(|value| records.push([CONSTANT, value, 0, 0, 0]));
    let flags = [0, 1, 2, 3].map(|k| records.push([VARIABLE, PREPROCESSED, 0, 0, k]));

    let mut constraints = vec![];
    let mut fields = here.clone();
    while records.0.len() + 4 <= count && constraints.len() < most_constraints {
        let [a, b, c] = [(); 3].map(|()| rng.pick(&here));
        let later = rng.pick(&next);
        constraints.push(match rng.below(5) {
            0 => {
                let less = records.join(SUB, a, one);
                records.join(MUL, a, less)
            }
            1 => {
                let sum = records.join(ADD, a, b);
                fields.push(sum);
                let step = records.join(SUB, later, sum);
                records.join(MUL, marks[2], step)
            }
            2 => {
                let product = records.join(MUL, a, b);
                let rest = records.join(SUB, product, c);
                records.join(MUL, rng.pick(&flags), rest)
            }
            3 => {
                let difference = records.join(SUB, a, later);
                records.join(MUL, rng.pick(&marks), difference)
            }
            _ => {
                let high = records.join(MUL, byte, b);
                let both = records.join(ADD, a, high);
                fields.push(both);
                let difference = records.join(SUB, both, c);
                records.join(MUL, rng.pick(&flags), difference)
            }
        });
    }
    while records.0.len() < count {
        fields.push(records.join(ADD, rng.pick(&here), rng.pick(&next)));
    }
    let interaction = |_| Interaction {
        count: rng.pick(&flags),
        message: (0..rng.between(3, 10)).map(|_| rng.pick(&fields)).collect(),
        ..Interaction::default()
    };
    Sheet {
        interactions: (0..interactions).map(interaction).collect(),
        constraints,
        records: records.0,
    }
}

/// Sums of four variables, and the product of two of them less a third again and again.
fn shared(rng: &mut Rng, count: usize) -> Sheet {
    let mut records = Records::default();
    let sums = (0..(count as u32 / 20).max(2)).map(|k| records.joined(ADD, 4, 4 * k));
    let sums: Vec<u32> = sums.collect();
    let mut constraints = vec![];
    while records.0.len() + 2 <= count && constraints.len() < 1_024 {
        let [a, b, c] = [(); 3].map(|()| rng.pick(&sums));
        let product = records.join(MUL, a, b);
        constraints.push(records.join(SUB, product, c));
    }
    let roots = [&sums[..], &constraints].concat();
    let sheet = Sheet {
        constraints,
        interactions: vec![],
        records: records.0,
    };
    with_interactions(rng, sheet, &roots)
}

/// Products of sums of four variables, as many as there is room for.
fn many_headers(rng: &mut Rng, count: usize) -> Sheet {
    let fits = |&sums: &usize| 14 * sums + sums * sums <= count && sums <= 32;
    let sums = (1..).take_while(fits).last().expect("room for one product");
    let sheet = products_of_sums(4, sums as u32, false);
    with_interactions(rng, sheet.clone(), &sheet.constraints)
}

/// The constraints of a sheet as fields of interactions, 63 in each.
pub fn as_fields(sheet: &Sheet) -> Sheet {
    let interaction = |fields: &[u32]| Interaction {
        message: fields.to_vec(),
        ..Interaction::default()
    };
    Sheet {
        interactions: sheet.constraints.chunks(63).map(interaction).collect(),
        constraints: vec![],
        records: sheet.records.clone(),
    }
}

/// So many sums of so many variables times as many others, each product a constraint: its headers are the square of the width, and
/// no constraint has a header of another. The products stand in the order of their headers, or from the last to the first.
pub fn products_of_sums(width: u32, sums: u32, backward: bool) -> Sheet {
    let mut records = Records::default();
    let all = (0..2 * sums).map(|k| records.joined(ADD, width, width * k));
    let all: Vec<u32> = all.collect();
    let (left, right) = all.split_at(sums as usize);
    let mut constraints = vec![];
    for &l in left {
        for &r in right {
            constraints.push(records.join(MUL, l, r));
        }
    }
    if backward {
        constraints.reverse();
    }
    Sheet {
        constraints,
        interactions: vec![],
        records: records.0,
    }
}

/// The product of two sums of 16 variables, and that times monomials of six further variables, up to so many records in all: each has
/// 256 headers, and none a header of another. They stand as their numbers of variables ascend, or from the last to the first.
pub fn multiples(count: usize, backward: bool) -> Sheet {
    let mut records = Records::default();
    let [left, right] = [0, 16].map(|column| records.joined(ADD, 16, column));
    let factors = [0, 1, 2, 3, 4, 5].map(|k| records.push([VARIABLE, MAIN, 0, 1, k]));
    // Each with its last factor: a further one is not before it, so that no two are the same.
    let mut made = vec![(records.join(MUL, left, right), 0)];
    for next in 0.. {
        let (multiple, last) = made[next];
        for (k, &factor) in factors.iter().enumerate().skip(last) {
            if records.0.len() < count {
                made.push((records.join(MUL, multiple, factor), k));
            }
        }
        if records.0.len() >= count {
            break;
        }
    }
    let mut constraints: Vec<u32> = made.into_iter().map(|(multiple, _)| multiple).collect();
    if backward {
        constraints.reverse();
    }
    Sheet {
        constraints,
        interactions: vec![],
        records: records.0,
    }
}

/// The sheets on which the builder and the expansions are timed, a line each: the call, the shape, the size, the lengths to lend
/// (scratch, then outputs) and the words.
pub fn lines() -> String {
    let mut text = String::new();
    let build = |sheet: &Sheet| vec![sheet.records.len(), sheet.length()];
    add_lines(&mut text, "build", &SIZED, build);
    let expand = |family| {
        move |sheet: &Sheet| {
            let needs = needs(family, sheet);
            let outputs = needs.outputs.expect("a sheet that is accepted");
            [vec![WORK, needs.pool], outputs].concat()
        }
    };
    let constraints = expand(Family::Constraints);
    add_lines(&mut text, "expand_constraints", &EXPANDED, constraints);
    let interactions = expand(Family::Interactions);
    add_lines(&mut text, "expand_interactions", &EXPANDED, interactions);
    text
}

fn add_lines(text: &mut String, call: &str, shapes: &[Sized], lent: impl Fn(&Sheet) -> Vec<usize>) {
    for (name, make) in shapes {
        for size in SIZES {
            for seed in 1..=SHEETS {
                let sheet = make(&mut Rng::new(seed), size);
                let (lent, words) = (spaced(&lent(&sheet)), spaced(&sheet.encode()));
                writeln!(text, "{call}\t{name}\t{size}\t{lent}\t{words}").expect("a string");
            }
        }
    }
}

fn spaced<T: ToString>(numbers: &[T]) -> String {
    let numbers: Vec<String> = numbers.iter().map(T::to_string).collect();
    numbers.join(" ")
}
