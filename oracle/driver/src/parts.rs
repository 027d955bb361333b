//! Every comparison over its edges and over random sheets, each a part of one table. Sheet k of a run is that of the seed k larger.

use std::fmt::Debug;

use plain::Sheet;

use crate::arithmetic::{self, at_bounds, compare_operations, random_operations};
use crate::compare::{
    compare_graph, compare_packing, compare_sheet, front, Case, COMPARED, GRAPHS, KNOWN, LEFT_OUT,
};
use crate::edges::lists::{compare_list_edge, compare_list_lengths, list_edges, short_sheet};
use crate::edges::{
    self, compare_edge, compare_lent, compare_round_trip, edge_sheets, edges, lengths,
};
use crate::examples::examples;
use crate::implementation::Implementation;
use crate::lists::{self, compare_lists};
use crate::rng::Rng;
use crate::runs::{over_seeds, Run};
use crate::sheet_calls::{self, compare_input, random_inputs};
use crate::sheets::wild_variable;
use crate::single::{
    self, compare_block, compare_number, compare_record, edge_numbers, edge_records, random_blocks,
    random_number, random_record,
};
use crate::table::{Part, Table};

/// How many sheets, and the first one's seed.
pub type Seeds = (u64, u64);

/// So many differences are shown.
const SHOWN: u64 = 10;

/// So many random sheets have their expansions lent every length around what is needed.
const SHORT_SHEETS: u64 = 3_000;

/// So many random records and numbers for each seed.
const RECORDS: usize = 10;

/// Random sheets through an implementation and the Rust, every call that the Rust has.
pub fn against_rust(under_test: &dyn Implementation, seeds: Seeds) -> Run<'_> {
    Run::over_sheets(
        under_test,
        compare_sheet,
        &[],
        seeds,
        |run, seed, mut rng| {
            for _ in 0..4 {
                let leaf = wild_variable(&mut rng);
                let cases = compare_packing(run.under_test, &leaf);
                add(&mut run.table, &(seed, leaf), cases);
            }
        },
    )
}

/// The same as a part.
pub fn against_rust_part(under_test: &dyn Implementation, seeds: Seeds) -> Part {
    Part {
        title: "document 01 in plain Rust, against the Rust",
        kinds: [&COMPARED[..], &KNOWN, &LEFT_OUT].concat(),
        table: against_rust(under_test, seeds).table,
    }
}

/// Packing, unpacking and the block check.
pub fn single(under_test: &dyn Implementation, (seeds, first): Seeds) -> Part {
    let mut table = Table::default();
    for record in edge_records() {
        add(&mut table, &record, compare_record(under_test, &record));
    }
    for number in edge_numbers() {
        add(&mut table, &number, compare_number(under_test, number));
    }
    let random = |table: &mut Table, seed| {
        let mut rng = Rng::new(seed);
        for _ in 0..RECORDS {
            let record = random_record(&mut rng);
            add(table, &record, compare_record(under_test, &record));
            let number = random_number(&mut rng);
            add(table, &number, compare_number(under_test, number));
        }
        for block in random_blocks(&mut rng) {
            let case = compare_block(under_test, &block);
            add(table, &(block.number, &block.bytes), vec![case]);
        }
    };
    let random = over_seeds(seeds, first, Table::default, random);
    random.into_iter().for_each(|part| table.join(part));
    Part {
        title: "packing, unpacking and the block check",
        kinds: single::kinds(),
        table,
    }
}

/// Sums, differences, products and negatives of values.
pub fn operations(under_test: &dyn Implementation, (seeds, first): Seeds) -> Part {
    let mut table = Table::default();
    let at_bounds = compare_operations(under_test, &at_bounds());
    add(&mut table, &"values at bounds", at_bounds);
    let random = |table: &mut Table, seed| {
        let operations = random_operations(&mut Rng::new(seed));
        add(table, &seed, compare_operations(under_test, &operations));
    };
    let random = over_seeds(seeds, first, Table::default, random);
    random.into_iter().for_each(|part| table.join(part));
    Part {
        title: "sums, differences, products and negatives of values",
        kinds: arithmetic::kinds(),
        table,
    }
}

/// The sheet calls, on sheets and blocks made from random sheets.
pub fn calls(under_test: &dyn Implementation, (seeds, first): Seeds) -> Part {
    let mut table = Table::default();
    let random = |table: &mut Table, seed| {
        for input in random_inputs(&mut Rng::new(seed)) {
            add(table, &input, compare_input(under_test, &input));
        }
    };
    let random = over_seeds(seeds, first, Table::default, random);
    random.into_iter().for_each(|part| table.join(part));
    Part {
        title: "calls on sheets and blocks",
        kinds: sheet_calls::kinds(),
        table,
    }
}

/// The calls at their bounds.
pub fn at_edges(under_test: &dyn Implementation) -> Part {
    let mut table = Table::default();
    for edge in edges() {
        add(&mut table, &edge.input, compare_edge(under_test, &edge));
    }
    for (name, sheet) in edge_sheets() {
        add(&mut table, &name, compare_lent(under_test, &sheet));
    }
    for sheet in lengths() {
        let case = compare_round_trip(under_test, &sheet);
        add(&mut table, &sheet, vec![case]);
    }
    let made = list_edges();
    for edge in &made {
        add(&mut table, &edge.sheet, compare_list_edge(under_test, edge));
    }
    let mut sheets: Vec<Sheet> = made.into_iter().map(|edge| edge.sheet).collect();
    sheets.extend(edge_sheets().into_iter().map(|(_, sheet)| sheet));
    sheets.extend((0..SHORT_SHEETS).map(|seed| short_sheet(&mut Rng::new(seed))));
    let lengths = |table: &mut Table, k| {
        let sheet = &sheets[k as usize];
        add(table, sheet, compare_list_lengths(under_test, sheet));
    };
    let lengths = over_seeds(sheets.len() as u64, 0, Table::default, lengths);
    lengths.into_iter().for_each(|part| table.join(part));
    Part {
        title: "edges",
        kinds: edges::kinds(),
        table,
    }
}

/// Graphs against the Rust's: the sheets at the limits, then random ones.
pub fn graphs(under_test: &dyn Implementation, seeds: Seeds) -> Part {
    let run = Run::over_sheets(
        under_test,
        compare_graph,
        &edge_sheets(),
        seeds,
        |_, _, _| {},
    );
    Part {
        title: "graphs, against the Rust",
        kinds: GRAPHS.to_vec(),
        table: run.table,
    }
}

/// Both expansions: of the sheets at the limits, of the examples, then of random sheets.
pub fn expansions(under_test: &dyn Implementation, seeds: Seeds) -> Part {
    let examples = examples().into_iter().map(|x| (x.name, x.sheet));
    let named: Vec<_> = edge_sheets().into_iter().chain(examples).collect();
    let run = Run::over_sheets(under_test, compare_lists, &named, seeds, |_, _, _| {});
    Part {
        title: "expansions, against the Rust and plain",
        kinds: lists::kinds(),
        table: run.table,
    }
}

fn add(table: &mut Table, input: &dyn Debug, cases: Vec<Case>) {
    for case in cases {
        if let Some(difference) = &case.difference {
            if table.differences() < SHOWN {
                // the largest inputs have 90,116 words
                println!("{}, {}: {difference}", case.kind, front(input, 2_000));
            }
        }
        table.add(case.kind, case.difference.is_some(), case.size);
    }
}
