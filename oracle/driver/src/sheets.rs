//! Random sheets inside the limits, in shapes that each strain something else.

use plain::field::P;
use plain::sheet::{
    children, ADD, CHALLENGE, CONSTANT, IS_FIRST_ROW, IS_LAST_ROW, IS_TRANSITION, MAIN, MUL, NEG,
    PREPROCESSED, PUBLIC, SUB, VARIABLE,
};
use plain::{Interaction, Record, Sheet};

use crate::rng::Rng;

type Shape = (&'static str, usize, fn(&mut Rng) -> Sheet);

/// The shapes and how often each is drawn.
pub const SHAPES: [Shape; 11] = [
    ("tiny", 24, tiny),
    ("folding", 18, folding),
    ("shared subexpressions", 10, shared),
    ("polynomials", 16, polynomials),
    ("near the limits of 12 and 13", 10, near_limits),
    ("all kinds", 8, all_kinds),
    ("repeated records and constraints", 5, repeated),
    ("many interactions", 4, many_interactions),
    ("short chains", 3, short_chain),
    ("chains of up to 4,096 records", 1, long_chain),
    ("full sheets", 1, full),
];

/// A sheet of a random shape, and the shape's name.
pub fn random_sheet(rng: &mut Rng) -> (&'static str, Sheet) {
    let weights = SHAPES.map(|(_, weight, _)| weight);
    let (name, _, make) = SHAPES[rng.weighted(&weights)];
    (name, make(rng))
}

/// How the records of a sheet are drawn.
#[derive(Clone, Copy)]
struct Style {
    /// Weights of the kinds 1 to 9.
    kinds: [usize; 9],
    /// Percent of constants from 0, 1, p − 1 and their neighbours.
    special: usize,
    /// Percent of variables with words that packing may refuse.
    wild: usize,
    columns: usize,
    /// Children are among so many records before.
    reach: usize,
    /// Percent of records that repeat an earlier one.
    copies: usize,
    /// Keep the monomial lists inside 12 and 13, by a rough count.
    bounded: bool,
    degrees: Degrees,
}

#[derive(Clone, Copy)]
enum Degrees {
    Zero,
    Small,
    Any,
}

const STYLE: Style = Style {
    kinds: [8, 1, 1, 1, 4, 5, 5, 4, 4],
    special: 60,
    wild: 0,
    columns: 6,
    reach: usize::MAX,
    copies: 5,
    bounded: false,
    degrees: Degrees::Small,
};

fn degree(rng: &mut Rng, degrees: Degrees) -> u32 {
    match degrees {
        Degrees::Zero => 0,
        Degrees::Small => rng.below(3) as u32,
        Degrees::Any => rng.word(),
    }
}

fn some_degrees(rng: &mut Rng) -> Degrees {
    rng.pick(&[Degrees::Zero, Degrees::Small, Degrees::Small, Degrees::Any])
}

fn value(rng: &mut Rng, special: usize) -> u32 {
    if rng.percent(special) {
        return rng.pick(&[0, 0, 0, 1, 1, 1, P - 1, P - 1, 2, P - 2, P / 2 + 1]);
    }
    rng.word() % P
}

fn variable(rng: &mut Rng, style: &Style) -> Record {
    if rng.percent(style.wild) {
        return wild_variable(rng);
    }
    let entry = rng.pick(&[MAIN, MAIN, MAIN, MAIN, PREPROCESSED, PUBLIC]);
    let part = if entry == MAIN {
        rng.pick(&[0, 0, 0, 1, 255])
    } else {
        0
    };
    let offset = if entry == PUBLIC {
        0
    } else {
        rng.pick(&[0, 0, 0, 1, 1, 15])
    };
    let column = rng.below(style.columns) as u32;
    [
        VARIABLE,
        entry,
        part,
        offset,
        rng.pick(&[column, column, column, column, 65_535 - column]),
    ]
}

/// A variable that the sheet check takes and packing may not.
pub fn wild_variable(rng: &mut Rng) -> Record {
    let around = [
        0,
        1,
        14,
        15,
        16,
        17,
        254,
        255,
        256,
        257,
        271,
        272,
        511,
        512,
        65_536,
        u32::MAX,
    ];
    let entry = rng.pick(&[
        MAIN,
        MAIN,
        MAIN,
        PREPROCESSED,
        PREPROCESSED,
        CHALLENGE,
        PUBLIC,
    ]);
    let part = if entry == MAIN { rng.pick(&around) } else { 0 };
    let offset = if entry <= MAIN { rng.pick(&around) } else { 0 };
    let tame = rng.below(4) as u32;
    let column = rng.pick(&[tame, tame, tame, 65_535, 65_536, 65_537, 131_072, u32::MAX]);
    let small = |rng: &mut Rng, word| if rng.percent(50) { word % 16 } else { word };
    [
        VARIABLE,
        entry,
        small(rng, part),
        small(rng, offset),
        column,
    ]
}

/// Records drawn one after another, with a rough count of each one's list: monomials and variables in the longest.
struct Drawn {
    records: Vec<Record>,
    sizes: Vec<(usize, usize)>,
}

impl Drawn {
    fn push(&mut self, record: Record) -> u32 {
        self.sizes.push(self.size(&record));
        self.records.push(record);
        self.records.len() as u32 - 1
    }

    fn size(&self, record: &Record) -> (usize, usize) {
        let of = |k: usize| self.sizes[record[k] as usize];
        match record[0] {
            ADD | SUB => (of(1).0.saturating_add(of(2).0), of(1).1.max(of(2).1)),
            MUL => (
                of(1).0.saturating_mul(of(2).0),
                of(1).1.saturating_add(of(2).1),
            ),
            NEG => of(1),
            CONSTANT => (1, 0),
            _ => (1, 1),
        }
    }

    fn draw(&mut self, rng: &mut Rng, style: &Style) {
        let own = self.records.len();
        if own > 0 && rng.percent(style.copies) {
            let mut copy = self.records[rng.below(own)];
            if copy[0] >= ADD && rng.percent(20) {
                copy[3] = degree(rng, style.degrees);
            }
            self.push(copy);
            return;
        }
        let mut kind = rng.weighted(&style.kinds) as u32 + 1;
        if own == 0 && kind >= ADD {
            kind = rng.pick(&[VARIABLE, CONSTANT]);
        }
        let record = self.record(rng, style, kind);
        let (monomials, variables) = self.size(&record);
        if style.bounded && (monomials > 256 || variables > 14) {
            let leaf = self.record(rng, style, VARIABLE);
            self.push(leaf);
            return;
        }
        self.push(record);
    }

    fn record(&self, rng: &mut Rng, style: &Style, kind: u32) -> Record {
        let own = self.records.len();
        let child = |rng: &mut Rng| (own - 1 - rng.below(own.min(style.reach))) as u32;
        match kind {
            VARIABLE => variable(rng, style),
            CONSTANT => [CONSTANT, value(rng, style.special), 0, 0, 0],
            NEG => [NEG, child(rng), 0, degree(rng, style.degrees), 0],
            ADD | SUB | MUL => {
                let left = child(rng);
                let right = if rng.percent(10) { left } else { child(rng) };
                [kind, left, right, degree(rng, style.degrees), 0]
            }
            mark => [mark, 0, 0, 0, 0],
        }
    }
}

fn records(rng: &mut Rng, count: usize, style: &Style) -> Vec<Record> {
    let mut drawn = Drawn {
        records: vec![],
        sizes: vec![],
    };
    for _ in 0..count {
        drawn.draw(rng, style);
    }
    drawn.records
}

/// A record's number, the later ones more often.
fn name(rng: &mut Rng, records: usize) -> u32 {
    if rng.percent(50) {
        return (records - rng.any_size(records)) as u32;
    }
    rng.below(records) as u32
}

fn interaction(rng: &mut Rng, records: usize, most: usize) -> Interaction {
    Interaction {
        bus: rng.pick(&[0, 1, 7, 65_535]),
        weight: rng.pick(&[0, 1, u32::MAX]),
        count: name(rng, records),
        message: (0..rng.below(most + 1))
            .map(|_| name(rng, records))
            .collect(),
    }
}

/// So many constraints and interactions over some records; none where there is no record to name.
fn sheet(
    rng: &mut Rng,
    records: Vec<Record>,
    constraints: usize,
    interactions: usize,
    message: usize,
) -> Sheet {
    let named = records.len();
    let (constraints, interactions) = if named == 0 {
        (0, 0)
    } else {
        (constraints, interactions)
    };
    Sheet {
        constraints: (0..constraints).map(|_| name(rng, named)).collect(),
        interactions: (0..interactions)
            .map(|_| interaction(rng, named, message))
            .collect(),
        records,
    }
}

fn tiny(rng: &mut Rng) -> Sheet {
    let style = Style {
        wild: rng.pick(&[0, 0, 10, 50]),
        columns: 2,
        degrees: some_degrees(rng),
        ..STYLE
    };
    let count = rng.below(9);
    let records = records(rng, count, &style);
    let (constraints, interactions) = (rng.below(4), rng.below(3));
    sheet(rng, records, constraints, interactions, 3)
}

fn folding_style(rng: &mut Rng) -> Style {
    Style {
        kinds: [3, 0, 0, 1, 6, 6, 6, 6, 5],
        special: 95,
        columns: 3,
        reach: rng.pick(&[4, 12, usize::MAX]),
        degrees: some_degrees(rng),
        ..STYLE
    }
}

fn folding(rng: &mut Rng) -> Sheet {
    let style = folding_style(rng);
    let count = rng.any_size(400);
    let records = records(rng, count, &style);
    let (constraints, interactions) = (rng.any_size(20), rng.below(5));
    sheet(rng, records, constraints, interactions, 6)
}

fn shared_style(rng: &mut Rng) -> Style {
    Style {
        kinds: [4, 1, 1, 1, 3, 8, 8, 4, 2],
        columns: 3,
        reach: rng.between(2, 8),
        copies: 20,
        degrees: some_degrees(rng),
        ..STYLE
    }
}

fn shared(rng: &mut Rng) -> Sheet {
    let style = shared_style(rng);
    let count = rng.any_size(300);
    let records = records(rng, count, &style);
    let (constraints, interactions) = (rng.any_size(10), rng.below(4));
    sheet(rng, records, constraints, interactions, 5)
}

fn polynomial_style(rng: &mut Rng) -> Style {
    Style {
        kinds: [10, 1, 1, 1, 3, 8, 8, 2, 7],
        special: 40,
        columns: rng.between(2, 20),
        reach: rng.pick(&[8, 20, 60]),
        bounded: true,
        ..STYLE
    }
}

fn polynomials(rng: &mut Rng) -> Sheet {
    let style = polynomial_style(rng);
    let count = rng.any_size(200);
    let records = records(rng, count, &style);
    let (constraints, interactions) = (rng.any_size(30), rng.any_size(12) - 1);
    sheet(rng, records, constraints, interactions, 8)
}

/// A sum of so many distinct variables, or a product of so many.
fn joined(rng: &mut Rng, drawn: &mut Drawn, kind: u32, count: usize, first_column: usize) -> u32 {
    let leaf =
        |drawn: &mut Drawn, k: usize| drawn.push([VARIABLE, MAIN, 0, 0, (first_column + k) as u32]);
    let mut made = leaf(drawn, 0);
    for k in 1..count {
        let next = leaf(drawn, k);
        let (left, right) = if rng.percent(50) {
            (made, next)
        } else {
            (next, made)
        };
        made = drawn.push([kind, left, right, 0, 0]);
    }
    made
}

/// Sums of sums with about 256 monomials, products of sums with about 256, products of about 14 variables.
fn near_limits(rng: &mut Rng) -> Sheet {
    let mut drawn = Drawn {
        records: vec![],
        sizes: vec![],
    };
    let last = match rng.below(3) {
        0 => {
            let width = rng.between(11, 18);
            let height = (256 / width + rng.below(2)).max(1);
            let left = joined(rng, &mut drawn, ADD, width, 0);
            let overlap = rng.pick(&[0, 5, 100]);
            let right = joined(rng, &mut drawn, ADD, height, overlap);
            drawn.push([MUL, left, right, 0, 0])
        }
        1 => {
            let total = rng.between(13, 16);
            let first = rng.between(1, total - 1);
            let left = joined(rng, &mut drawn, MUL, first, 0);
            let mut right = joined(rng, &mut drawn, MUL, total - first, 3);
            if rng.percent(40) {
                right = drawn.push([SUB, right, left, 0, 0]);
            }
            drawn.push([MUL, left, right, 0, 0])
        }
        _ => {
            let total = rng.between(254, 258);
            let first = rng.between(1, total - 1);
            let left = joined(rng, &mut drawn, ADD, first, 0);
            let overlap = rng.pick(&[0, 100, 300]);
            let right = joined(rng, &mut drawn, ADD, total - first, overlap);
            let kind = rng.pick(&[ADD, SUB]);
            drawn.push([kind, left, right, 0, 0])
        }
    };
    for _ in 0..rng.below(4) {
        drawn.draw(rng, &STYLE);
    }
    let drawn_records = drawn.records.len();
    let mut made = sheet(rng, drawn.records, 0, 0, 0);
    for _ in 0..rng.below(3) {
        made.constraints.push(name(rng, drawn_records));
    }
    if rng.percent(70) {
        made.constraints.push(last);
    }
    if rng.percent(50) {
        let mut x = interaction(rng, drawn_records, 2);
        if rng.percent(50) {
            x.count = last;
        } else {
            x.message.push(last);
        }
        made.interactions.push(x);
    }
    made
}

fn all_kinds_style(rng: &mut Rng) -> Style {
    Style {
        kinds: [1; 9],
        wild: rng.pick(&[0, 1, 5, 30]),
        columns: 30,
        degrees: some_degrees(rng),
        ..STYLE
    }
}

fn all_kinds(rng: &mut Rng) -> Sheet {
    let style = all_kinds_style(rng);
    let count = rng.any_size(1_000);
    let records = records(rng, count, &style);
    let (constraints, interactions) = (rng.any_size(40), rng.below(8));
    sheet(rng, records, constraints, interactions, 10)
}

fn repeated_style(rng: &mut Rng) -> Style {
    Style {
        copies: 60,
        columns: 2,
        bounded: true,
        degrees: some_degrees(rng),
        ..STYLE
    }
}

fn repeated(rng: &mut Rng) -> Sheet {
    let style = repeated_style(rng);
    let count = rng.any_size(200);
    let records = records(rng, count, &style);
    let (constraints, interactions) = (rng.any_size(1_024), rng.below(6));
    sheet(rng, records, constraints, interactions, 63)
}

fn many_interactions(rng: &mut Rng) -> Sheet {
    let style = Style {
        bounded: true,
        kinds: [10, 1, 1, 1, 4, 3, 3, 2, 2],
        reach: usize::MAX,
        ..STYLE
    };
    let count = rng.any_size(300);
    let records = records(rng, count, &style);
    let message = rng.pick(&[0, 3, 63]);
    let interactions = rng.any_size(1_024).min(6_000 / (message + 1));
    let constraints = rng.below(5);
    sheet(rng, records, constraints, interactions, message)
}

/// Each record names the one before it, and at times a leaf; its lists stay short.
fn chain(rng: &mut Rng, count: usize) -> Sheet {
    let style = STYLE;
    let mut drawn: Vec<Record> = vec![];
    for k in 0..4 {
        drawn.push([VARIABLE, MAIN, 0, k % 2, k]);
    }
    for v in [0, 1, P - 1, 2] {
        drawn.push([CONSTANT, v, 0, 0, 0]);
    }
    drawn.extend([
        [IS_FIRST_ROW, 0, 0, 0, 0],
        [IS_LAST_ROW, 0, 0, 0, 0],
        [IS_TRANSITION, 0, 0, 0, 0],
    ]);
    while drawn.len() < count {
        let before = drawn.len() as u32 - 1;
        let word = degree(rng, style.degrees);
        let (kind, other) = match rng.below(8) {
            0..=2 => (ADD, rng.below(11) as u32),
            3..=5 => (SUB, rng.below(11) as u32),
            6 => (MUL, rng.pick(&[5, 5, 6, 7, 7])),
            _ => (NEG, 0),
        };
        drawn.push(match kind {
            NEG => [NEG, before, 0, word, 0],
            _ if rng.percent(50) => [kind, before, other, word, 0],
            _ => [kind, other, before, word, 0],
        });
    }
    let (constraints, interactions) = (rng.below(4), rng.below(2));
    let mut made = sheet(rng, drawn, constraints, interactions, 1);
    let last = made.records.len() as u32 - 1;
    made.constraints.push(last);
    made
}

fn short_chain(rng: &mut Rng) -> Sheet {
    let count = rng.any_size(300);
    chain(rng, count)
}

fn long_chain(rng: &mut Rng) -> Sheet {
    let some = rng.between(2_000, 4_096);
    let count = rng.pick(&[some, 4_096]);
    chain(rng, count)
}

/// As many records, and at times constraints and interactions, as a sheet may have.
fn full(rng: &mut Rng) -> Sheet {
    let style = Style {
        bounded: rng.percent(70),
        columns: rng.pick(&[200, 30_000]),
        copies: rng.pick(&[0, 5]),
        special: rng.pick(&[5, 60]),
        reach: rng.pick(&[50, 500, usize::MAX]),
        degrees: some_degrees(rng),
        kinds: [12, 1, 1, 1, 4, 6, 6, 3, 4],
        ..STYLE
    };
    let records = records(rng, 4_096, &style);
    let (constraints, interactions) = (rng.pick(&[10, 1_024]), rng.pick(&[0, 10, 1_024]));
    sheet(rng, records, constraints, interactions, 4)
}

pub type Sized = (&'static str, fn(&mut Rng, usize) -> Sheet);

/// Shapes of a given number of records, in which as many as can be are reached: for measuring.
pub const SIZED: [Sized; 6] = [
    ("no two equal", |_, count| reached(distinct(count))),
    ("folding", |rng, count| styled(rng, count, folding_style)),
    ("shared subexpressions", |rng, count| {
        styled(rng, count, shared_style)
    }),
    ("all kinds", |rng, count| {
        styled(rng, count, all_kinds_style)
    }),
    ("repeated records", |rng, count| {
        styled(rng, count, repeated_style)
    }),
    ("chain", chain),
];

/// Polynomials inside 12 and 13.
pub fn bounded(rng: &mut Rng, count: usize) -> Sheet {
    styled(rng, count, polynomial_style)
}

fn styled(rng: &mut Rng, count: usize, style: fn(&mut Rng) -> Style) -> Sheet {
    let style = style(rng);
    reached(records(rng, count, &style))
}

/// Variables in columns of their own, and sums of two records before.
fn distinct(count: usize) -> Vec<Record> {
    let record = |k: u32| match k % 2 {
        0 => [VARIABLE, MAIN, 0, 0, k],
        _ => [ADD, k - 1, k.saturating_sub(2), 1, 0],
    };
    (0..count as u32).map(record).collect()
}

/// A sheet whose constraints are the records that no other names, the last ones if there are more than 1,024.
fn reached(records: Vec<Record>) -> Sheet {
    let mut named = vec![false; records.len()];
    for record in &records {
        children(record)
            .iter()
            .for_each(|&c| named[c as usize] = true);
    }
    let constraints = (0..records.len() as u32).rev();
    let constraints = constraints.filter(|&k| !named[k as usize]);
    Sheet {
        constraints: constraints.take(1_024).collect(),
        interactions: vec![],
        records,
    }
}
