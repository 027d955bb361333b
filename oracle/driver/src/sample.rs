//! A sample of answers for the program that replays them: sheets with the Rust's graphs and lists, and refusals. Its form stands in
//! oracle/README.md.

use plain::calls::{Family, WORK};
use plain::Sheet;

use crate::compare::{rust_lists, with_spare, Lists};
use crate::edges::lists::list_edges;
use crate::edges::{edge_sheets, edges, Edge};
use crate::examples::examples;
use crate::implementation::{Implementation, Plain};
use crate::needs::{needs, outputs, FAMILIES};
use crate::records::Records;
use crate::rng::Rng;
use crate::rust;
use crate::sheet_calls::Input;
use crate::sheets::{SHAPES, SIZED};

/// Of each shape so many sheets of at most so many words.
const SHORT: (usize, usize) = (20, 150);
const LONG: (usize, usize) = (1, 800);

/// Of the refused sheets among the edges so many for each number, and none longer.
const REFUSED: usize = 14;
const REFUSED_WORDS: usize = 250;

/// What no call in the sample of lists is asked to go beyond: words of the sheet, of the pool and of each output.
const MOST_WORDS: usize = 2_048;
const MOST_POOL: usize = 8_192;
const MOST_OUTPUT: usize = 1_024;

/// Sheets of all shapes, and the spare words behind each.
fn sheets() -> Vec<(Sheet, usize)> {
    let mut sheets = vec![];
    for example in examples() {
        sheets.push((example.sheet, 0));
    }
    for (_, sheet) in edge_sheets() {
        if sheet.length() < 3_000 {
            sheets.push((sheet, 0));
        }
    }
    for (k, (_, _, make)) in SHAPES.iter().enumerate() {
        for (count, words) in [SHORT, LONG] {
            let mut rng = Rng::new(k as u64);
            // some shapes have no short sheet
            let drawn = (0..400).map(|_| make(&mut rng));
            let fit = drawn.filter(|sheet| sheet.length() <= words);
            let fit = fit.filter(|sheet| 2 * sheet.length() > words || count > 1);
            for (n, sheet) in fit.take(count).enumerate() {
                sheets.push((sheet, [0, 0, 1, 126][n % 4]));
            }
        }
    }
    for (_, make) in SIZED {
        sheets.push((make(&mut Rng::new(1), 100), 0));
    }
    sheets
}

/// Words that are no sheet, of each refusal by 3 to 7 some.
fn refused() -> Vec<Vec<u32>> {
    let mut refused = vec![];
    for number in 3..=7 {
        let words: Vec<Vec<u32>> = edges().into_iter().filter_map(|e| by(e, number)).collect();
        let step = words.len().div_ceil(REFUSED);
        refused.extend(words.into_iter().step_by(step));
    }
    refused
}

/// Sheets of all shapes, their graphs, the first sheets of each row of the edges of the walk, and words that are no sheet, each with
/// calls of the builder and of both expansions.
pub fn sample() -> String {
    let mut items = vec![];
    for (sheet, spare) in sheets().into_iter().chain([(negatives(400), 0)]) {
        let graph = rust::sheet_of(&rust::build(&sheet));
        let other = graph != sheet;
        items.extend(sheet_with_calls(&sheet, spare));
        if other {
            items.extend(sheet_with_calls(&graph, 0));
        }
    }
    let mut rows = vec![];
    for edge in list_edges() {
        // its last record named by a constraint, a count and a field
        if rows.iter().filter(|&&row| row == edge.row).count() < 3 {
            rows.push(edge.row);
            items.extend(sheet_with_calls(&edge.sheet, 0));
        }
    }
    for words in refused() {
        items.push(sheet_item(&words));
        items.push(refused_build(&words, 100, 100).expect("no sheet"));
        for family in FAMILIES {
            let lent = vec![9; outputs(family)];
            items.push(refused_call(family, &words, WORK, 100, &lent));
        }
    }
    let count = items.len();
    format!("{count}\n{}", items.concat())
}

fn sheet_item(words: &[u32]) -> String {
    format!("0 {}", counted(words))
}

/// A sheet and its calls: the Rust's graph and, where they are accepted, its lists; and refusals. None where a call goes beyond what
/// the sample may ask for.
fn sheet_with_calls(sheet: &Sheet, spare: usize) -> Vec<String> {
    let words = with_spare(sheet, spare);
    let mut items = vec![sheet_item(&words)];
    items.extend(builds(sheet, &words));
    for family in FAMILIES {
        let needs = needs(family, sheet);
        let pool = needs.pool;
        let lent = needs.outputs.clone().unwrap_or(vec![7; outputs(family)]);
        let small = words.len() <= MOST_WORDS && pool <= MOST_POOL;
        if !small || lent.iter().any(|&length| length > MOST_OUTPUT) {
            return vec![];
        }
        let refused = |work, pool, lent: &[usize]| refused_call(family, &words, work, pool, lent);
        items.push(match needs.outputs {
            Ok(_) => {
                let rust = rust_lists(family, sheet).expect("lists, as document 01 gives some");
                accepted_call(family, pool, &lent, rust)
            }
            Err(_) => refused(WORK, pool, &lent),
        });
        items.push(refused(WORK - 1, pool, &lent));
        if let Some(short) = (2 * sheet.records.len()).checked_sub(1) {
            items.push(refused(WORK, short, &lent));
        }
        let stored = &needs.stored;
        for &(_, total) in [stored.first(), stored.get(stored.len() / 2)]
            .into_iter()
            .flatten()
        {
            items.push(refused(WORK, total - 1, &lent));
        }
        if needs.outputs.is_ok() {
            for k in (0..lent.len()).filter(|&k| lent[k] > 0) {
                let mut short = lent.clone();
                short[k] -= 1;
                items.push(refused(WORK, pool, &short));
            }
        }
    }
    items
}

/// The Rust's graph, and the refusals where scratch or output is one short.
fn builds(sheet: &Sheet, words: &[u32]) -> Vec<String> {
    let graph = rust::sheet_of(&rust::build(sheet)).encode();
    let (records, length) = (sheet.records.len(), sheet.length());
    let lent = decimal(&[1, records as u32, length as u32, 0, 0]);
    let mut items = vec![lent + &counted(&graph)];
    for (scratch, out) in [(records.saturating_sub(1), length), (records, length - 1)] {
        items.extend(refused_build(words, scratch, out));
    }
    items
}

/// A call of the builder, if it is refused.
fn refused_build(words: &[u32], scratch: usize, out: usize) -> Option<String> {
    let refusal = Plain.builder(words, scratch, out).refusal()?;
    let lent = [1, scratch as u32, out as u32];
    Some(decimal(
        &[&lent[..], &[refusal.number, refusal.place]].concat(),
    ))
}

/// The calls of a family have this number in the sample.
fn kind(family: Family) -> u32 {
    match family {
        Family::Constraints => 2,
        Family::Interactions => 3,
    }
}

/// A call's kind, and what is lent.
fn lent_words(family: Family, work: usize, pool: usize, lent: &[usize]) -> Vec<u32> {
    let lengths = [&[work, pool], lent].concat();
    let lengths = lengths.into_iter().map(|length| length as u32);
    [kind(family)].into_iter().chain(lengths).collect()
}

/// A call that is accepted: its kind, what is lent, 0, 0, each list behind its length, and the further numbers.
fn accepted_call(family: Family, pool: usize, lent: &[usize], (lists, numbers): Lists) -> String {
    let mut text = decimal(&[&lent_words(family, WORK, pool, lent)[..], &[0, 0]].concat());
    for list in &lists {
        text += &counted(list);
    }
    if !numbers.is_empty() {
        text += &decimal(&numbers);
    }
    text
}

/// A call that is refused: its kind, what is lent, number and place.
fn refused_call(family: Family, words: &[u32], work: usize, pool: usize, lent: &[usize]) -> String {
    let outcome = Plain.expand(family, words, work, pool, lent);
    let refusal = outcome.refusal().expect("a refusal");
    let refusal = [refusal.number, refusal.place];
    decimal(&[&lent_words(family, work, pool, lent)[..], &refusal].concat())
}

/// A line of numbers behind how many they are.
fn counted(numbers: &[u32]) -> String {
    decimal(&[&[numbers.len() as u32], numbers].concat())
}

fn decimal(numbers: &[u32]) -> String {
    let numbers: Vec<String> = numbers.iter().map(u32::to_string).collect();
    numbers.join(" ") + "\n"
}

/// A chain of negatives.
fn negatives(count: u32) -> Sheet {
    Sheet {
        records: Records::negatives(count).0,
        constraints: vec![count - 1],
        interactions: vec![],
    }
}

/// The words of an edge that is refused by this number.
fn by(edge: Edge, number: u32) -> Option<Vec<u32>> {
    match edge.input {
        Input::Words(words) if words.len() < REFUSED_WORDS => {
            let refused = Sheet::decode(&words).is_err_and(|r| r.number == number);
            refused.then_some(words)
        }
        _ => None,
    }
}
