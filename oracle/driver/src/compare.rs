//! One sheet through an implementation under test and through the Rust.

use std::fmt::Debug;

use openvm_stark_backend::air_builders::symbolic::{SymbolicConstraints, SymbolicConstraintsDag};
use p3_field::BabyBear;
use plain::calls::{Family, WORK};
use plain::expand::{Limits, Walk, LIMITS};
use plain::reply::{Answer, Refusal};
use plain::sheet::{children, MUL, VARIABLE};
use plain::{Outcome, Record, Sheet};

use crate::implementation::Implementation;
use crate::rust::{self, Caught};

type Dag = SymbolicConstraintsDag<BabyBear>;

pub const PACKING: &str = "packing against the Rust, and unpacking of the number";
const SHEET_CHECK: &str = "sheet check (no counterpart in the Rust)";
const BLOCKS: &str = "blocks written and read (no counterpart in the Rust)";
const GRAPH_NODES: &str = "graph: nodes";
const GRAPH_CONSTRAINTS: &str = "graph: constraint indices";
const GRAPH_INTERACTIONS: &str = "graph: interactions";
const CONVERSION: &str = "conversion of the graph";
const GRAPH_AGAIN: &str = "graph built again from the converted graph";

/// Of the sheet, and of its graph.
const ROTATION: [&str; 2] = ["max_rotation of the sheet", "max_rotation of the graph"];
const NUM_CONSTRAINTS: [&str; 2] = [
    "num_constraints of the sheet",
    "num_constraints of the graph",
];
const CONSTRAINT_LISTS: [&str; 2] = [
    "constraint expansion of the sheet",
    "constraint expansion of the graph",
];
const INTERACTION_LISTS: [&str; 2] = [
    "interaction expansion of the sheet",
    "interaction expansion of the graph",
];

/// What is compared.
pub const COMPARED: [&str; 16] = [
    PACKING,
    SHEET_CHECK,
    BLOCKS,
    GRAPH_NODES,
    GRAPH_CONSTRAINTS,
    GRAPH_INTERACTIONS,
    CONVERSION,
    GRAPH_AGAIN,
    ROTATION[0],
    ROTATION[1],
    NUM_CONSTRAINTS[0],
    NUM_CONSTRAINTS[1],
    CONSTRAINT_LISTS[0],
    CONSTRAINT_LISTS[1],
    INTERACTION_LISTS[0],
    INTERACTION_LISTS[1],
];

/// What is compared of a graph.
pub const GRAPHS: [&str; 9] = [
    GRAPH_NODES,
    GRAPH_CONSTRAINTS,
    GRAPH_INTERACTIONS,
    CONVERSION,
    GRAPH_AGAIN,
    ROTATION[0],
    ROTATION[1],
    NUM_CONSTRAINTS[0],
    NUM_CONSTRAINTS[1],
];

/// What is compared of the expansions.
pub const EXPANSIONS: [&str; 4] = [
    CONSTRAINT_LISTS[0],
    CONSTRAINT_LISTS[1],
    INTERACTION_LISTS[0],
    INTERACTION_LISTS[1],
];

/// Where document 01 refuses and the Rust does something else; a difference here is a case where it does not do that.
pub const KNOWN: [&str; 7] = [
    "8, column above 65,535: the Rust panics",
    "9, a challenge: the Rust panics",
    "10, part above 255: the Rust takes it modulo 256",
    "11, offset above 15, also modulo 256: the Rust panics",
    "11, offset above 15, not modulo 256: the Rust takes it so",
    "12, a working list above 256: the Rust goes on",
    "13, a product above 14 variables: the Rust goes on",
];

/// What is left out, for the Rust would take too long or too much memory.
pub const LEFT_OUT: [&str; 2] = [
    "accepted interactions, too much without a cache",
    "refused by 12 or 13, too much without limits or a cache",
];

/// One comparison: its kind, what differs, and how much was compared (nodes, names, headers).
pub struct Case {
    pub kind: &'static str,
    pub difference: Option<String>,
    pub size: usize,
}

/// How far the Rust is followed where it goes on: beyond the limits of 12 and 13, and in all.
const RAISED: Limits = Limits {
    list: 2_048,
    product: 256,
};
const RAISED_POOL: usize = 400_000;

/// The largest interaction expansion, in steps and monomials of the tree without a cache, that the Rust is asked for.
const MOST_STEPS: u64 = 100_000;

/// All comparisons of one sheet, which is inside the limits; so many spare words are put behind it.
pub fn compare_sheet(under_test: &dyn Implementation, sheet: &Sheet, spare: usize) -> Vec<Case> {
    let mut comparison = Comparison::of(under_test);
    comparison.sheet(sheet, spare);
    comparison.cases
}

/// The graph, the conversion, max_rotation and num_constraints: a comparison as above, without the expansions.
pub fn compare_graph(under_test: &dyn Implementation, sheet: &Sheet, spare: usize) -> Vec<Case> {
    let mut comparison = Comparison::of(under_test);
    comparison.graph_and_numbers(sheet, &with_spare(sheet, spare));
    comparison.cases
}

/// Both expansions of a sheet and of its graph: a comparison as above, without the rest.
pub fn compare_expansions(
    under_test: &dyn Implementation,
    sheet: &Sheet,
    graph: &Sheet,
) -> Vec<Case> {
    let mut comparison = Comparison::of(under_test);
    comparison.expansions(sheet, graph);
    comparison.cases
}

pub fn with_spare(sheet: &Sheet, spare: usize) -> Vec<u32> {
    [sheet.encode(), vec![0; spare]].concat()
}

/// Packing alone, of a leaf that the sheet check takes.
pub fn compare_packing(under_test: &dyn Implementation, leaf: &Record) -> Vec<Case> {
    let mut comparison = Comparison::of(under_test);
    comparison.packing(leaf);
    comparison.cases
}

struct Comparison<'a> {
    under_test: &'a dyn Implementation,
    cases: Vec<Case>,
}

impl<'a> Comparison<'a> {
    fn of(under_test: &'a dyn Implementation) -> Self {
        Comparison {
            under_test,
            cases: vec![],
        }
    }

    fn case(&mut self, kind: &'static str, size: usize, difference: Option<String>) {
        self.cases.push(Case {
            kind,
            difference,
            size,
        });
    }

    fn equal<T: PartialEq + Debug>(&mut self, kind: &'static str, size: usize, ours: T, rust: T) {
        let difference = (ours != rust).then(|| {
            let name = self.under_test.name();
            let (ours, rust) = (front(&ours, 300), front(&rust, 300));
            format!("{name} {ours}, the Rust {rust}")
        });
        self.case(kind, size, difference);
    }

    fn sheet(&mut self, sheet: &Sheet, spare: usize) {
        let words = with_spare(sheet, spare);
        self.check_and_blocks(sheet, &words);
        let Some(graph) = self.graph_and_numbers(sheet, &words) else {
            return;
        };
        self.expansions(sheet, &graph);
    }

    /// Both expansions of a sheet and of its graph.
    fn expansions(&mut self, sheet: &Sheet, graph: &Sheet) {
        for (k, sheet) in [sheet, graph].into_iter().enumerate() {
            self.lists(Family::Constraints, CONSTRAINT_LISTS[k], sheet);
            self.lists(Family::Interactions, INTERACTION_LISTS[k], sheet);
        }
    }

    /// The graph of the words, where it is a sheet, and what it is converted to; the numbers of both.
    fn graph_and_numbers(&mut self, sheet: &Sheet, words: &[u32]) -> Option<Sheet> {
        let rust = rust::build(sheet);
        let graph = self.graph(sheet, words, &rust)?;
        self.conversion(&graph, &rust);

        let source = rust::expression_dag(sheet);
        for (k, (sheet, dag)) in [(sheet, &source), (&graph, &rust.constraints)]
            .into_iter()
            .enumerate()
        {
            let words = sheet.encode();
            let said = self.under_test.max_rotation(&words).reply.numbers;
            let rotation = dag.max_rotation();
            self.equal(ROTATION[k], rotation, said, vec![rotation as u32]);
            let said = self.under_test.num_constraints(&words).reply.numbers;
            let number = dag.num_constraints();
            self.equal(NUM_CONSTRAINTS[k], number, said, vec![number as u32]);
        }
        Some(graph)
    }

    /// The sheet is accepted as what it is, and comes back from its blocks.
    fn check_and_blocks(&mut self, sheet: &Sheet, words: &[u32]) {
        let (records, length) = (sheet.records.len(), sheet.encode().len());
        let numbers = [
            records,
            sheet.constraints.len(),
            sheet.interactions.len(),
            length,
            4 + 5 * records + sheet.constraints.len(),
        ];
        let said = self.under_test.check(words).reply.numbers;
        let numbers = numbers.map(|n| n as u32).to_vec();
        self.equal(SHEET_CHECK, records, said, numbers);

        let blocks = length.div_ceil(127);
        let written = self.under_test.writer(words, 512 * blocks);
        let read = self.under_test.reader(&written.slices[0], 127 * blocks);
        let mut filled = sheet.encode();
        filled.resize(127 * blocks, 0);
        self.equal(BLOCKS, blocks, &read.slices[0], &filled);
    }

    /// The graph of the words, where it is a sheet.
    fn graph(&mut self, sheet: &Sheet, words: &[u32], rust: &Dag) -> Option<Sheet> {
        let (records, length) = (sheet.records.len(), sheet.length());
        match decoded(&self.under_test.builder(words, records, length)) {
            Ok(Sheet {
                records,
                constraints,
                interactions,
            }) => {
                let of_rust = rust::sheet_of(rust);
                let size = of_rust.records.len();
                self.equal(GRAPH_NODES, size, &records, &of_rust.records);
                let size = of_rust.constraints.len();
                self.equal(GRAPH_CONSTRAINTS, size, &constraints, &of_rust.constraints);
                let size = of_rust.interactions.len();
                self.equal(
                    GRAPH_INTERACTIONS,
                    size,
                    &interactions,
                    &of_rust.interactions,
                );
                Some(Sheet {
                    records,
                    constraints,
                    interactions,
                })
            }
            Err(refusal) => {
                self.case(GRAPH_NODES, 0, Some(format!("no graph: {refusal:?}")));
                None
            }
        }
    }

    /// The graph as expressions, and the graph of those.
    fn conversion(&mut self, graph: &Sheet, rust: &Dag) {
        let (words, size) = (graph.encode(), graph.records.len());
        let converted = self.under_test.conversion(&words, words.len());
        let of_rust = SymbolicConstraints::from(rust);
        let same = decoded(&converted).is_ok_and(|sheet| rust::converted_is(&of_rust, &sheet));
        self.equal(CONVERSION, size, same, true);

        let again = self
            .under_test
            .builder(&converted.slices[0], size, words.len());
        let of_rust = rust::sheet_of(&SymbolicConstraintsDag::from(of_rust));
        self.equal(GRAPH_AGAIN, size, decoded(&again), Ok(of_rust));
    }

    /// One expansion of a sheet, in slices that are just long enough.
    fn lists(&mut self, family: Family, kind: &'static str, sheet: &Sheet) {
        let roots = family.roots(sheet);
        let mut walk = Walk::new(&sheet.records, usize::MAX, LIMITS);
        match walk.expand_all(&roots) {
            Ok(()) => {
                if family == Family::Interactions && steps(sheet, &walk) > MOST_STEPS {
                    return self.case(LEFT_OUT[0], 0, None);
                }
                let lists = family.lists(&walk, &roots);
                let lent: Vec<usize> = lists.iter().map(Vec::len).collect();
                let headers = lists.iter().step_by(3).map(|list| list.len() / 4).sum();
                let ours = self.expand(family, sheet, walk.used, &lent);
                let of_rust = rust_lists(family, sheet).map_err(Told::Panic);
                self.equal(kind, headers, told(&ours), of_rust);
            }
            Err(refusal) => {
                let lent = vec![0; 3 * roots.len()];
                let ours = self.expand(family, sheet, walk.used, &lent);
                self.refused(family, sheet, refusal, &ours);
            }
        }
    }

    fn expand(&self, family: Family, sheet: &Sheet, pool: usize, lent: &[usize]) -> Outcome {
        let words = sheet.encode();
        self.under_test.expand(family, &words, WORK, pool, lent)
    }

    /// Document 01 refuses: the refusal is this one, and the Rust does what is known of it.
    fn refused(&mut self, family: Family, sheet: &Sheet, refusal: Refusal, ours: &Outcome) {
        let kind = known(refusal, &sheet.records[refusal.place as usize]);
        if ours.refusal() != Some(refusal) {
            let name = self.under_test.name();
            let difference = format!("{name} {:?}, not {refusal:?}", ours.reply);
            return self.case(kind, 0, Some(difference));
        }
        match foretold(family, sheet) {
            Some(foretold) => self.equal(kind, 1, foretold, rust_lists(family, sheet)),
            None => self.case(LEFT_OUT[1], 0, None),
        }
    }

    fn packing(&mut self, leaf: &Record) {
        let ours = self.under_test.pack(leaf);
        let of_rust = rust::pack(leaf);
        match ours.refusal() {
            None => {
                let number = ours.reply.numbers[0];
                let back = self.under_test.unpack(number).reply.numbers;
                self.equal(PACKING, 1, (Ok(number), back), (of_rust, leaf.to_vec()));
            }
            Some(refusal) => {
                let due = plain::calls::pack(leaf).refusal();
                if due != Some(refusal) {
                    let name = self.under_test.name();
                    let difference = format!("{name} {refusal:?}, not {due:?}");
                    return self.case(PACKING, 0, Some(difference));
                }
                let packed = plain::packing::packed(&wrapped(leaf));
                let foretold = packed.map(|v| v.0).map_err(|n| panic_of(n).to_string());
                self.equal(known(refusal, leaf), 1, foretold, of_rust);
            }
        }
    }
}

/// Lists and further numbers of an expansion.
pub type Lists = (Vec<Vec<u32>>, Vec<u32>);

/// Why there are none: a refusal, or the Rust's panic.
#[derive(Debug, PartialEq)]
enum Told {
    Refusal(Refusal),
    Panic(String),
}

fn told(outcome: &Outcome) -> Result<Lists, Told> {
    if let Some(refusal) = outcome.refusal() {
        return Err(Told::Refusal(refusal));
    }
    let written = |k: usize| outcome.written(k).to_vec();
    let lists = (0..outcome.reply.counts.len()).map(written).collect();
    Ok((lists, outcome.reply.numbers.clone()))
}

/// What the Rust's expansion gives, interaction headers in the order of constraint headers.
pub fn rust_lists(family: Family, sheet: &Sheet) -> Caught<Lists> {
    match family {
        Family::Constraints => {
            let lists = rust::expand_constraints(sheet)?;
            Ok((lists.to_vec(), vec![]))
        }
        Family::Interactions => rust::expand_interactions(sheet),
    }
}

/// The sheet in the output of an accepted call.
pub fn decoded(outcome: &Outcome) -> Answer<Sheet> {
    match outcome.refusal() {
        Some(refusal) => Err(refusal),
        None => Sheet::decode(outcome.written(0)),
    }
}

/// The kind of a refusal by 8 to 13 at a record.
fn known(refusal: Refusal, record: &Record) -> &'static str {
    match refusal.number {
        8 => KNOWN[0],
        9 => KNOWN[1],
        10 => KNOWN[2],
        11 if record[3] % 256 > 15 => KNOWN[3],
        11 => KNOWN[4],
        12 => KNOWN[5],
        13 => KNOWN[6],
        number => panic!("refusal {number} has no counterpart in the Rust"),
    }
}

/// What the Rust is known to do: part and offset are taken modulo 256 before anything looks at them, and there is no limit
/// of 12 and 13. Nothing where following it is too much.
fn foretold(family: Family, sheet: &Sheet) -> Option<Caught<Lists>> {
    let taken = Sheet {
        records: sheet.records.iter().map(wrapped).collect(),
        ..sheet.clone()
    };
    let roots = family.roots(&taken);
    let mut walk = Walk::new(&taken.records, RAISED_POOL, RAISED);
    if let Err(Refusal { number, .. }) = walk.expand_all(&roots) {
        let packing = number <= 11;
        return packing.then(|| Err(panic_of(number).to_string()));
    }
    let lists = family.lists(&walk, &roots);
    match family {
        Family::Constraints => Some(Ok((lists, vec![]))),
        Family::Interactions => {
            let numbers = [taken.interactions.len(), taken.max_fields_len()];
            let few = steps(&taken, &walk) <= MOST_STEPS;
            few.then(|| Ok((lists, numbers.map(|n| n as u32).to_vec())))
        }
    }
}

fn wrapped(record: &Record) -> Record {
    match *record {
        [VARIABLE, entry, part, offset, column] => {
            [VARIABLE, entry, part % 256, offset % 256, column]
        }
        other => other,
    }
}

/// The Rust's message where a variable cannot be packed.
pub fn panic_of(number: u32) -> &'static str {
    match number {
        8 => "symbolic column index exceeds PackedVar capacity",
        9 => "unsupported symbolic entry in zerocheck monomial extraction",
        11 => "PackedVar offset must fit in 4 bits",
        _ => "no panic",
    }
}

/// The steps and monomials of expanding all interactions as trees, without a cache.
fn steps(sheet: &Sheet, walk: &Walk) -> u64 {
    let mut steps = vec![0u64; sheet.records.len()];
    for (number, record) in sheet.records.iter().enumerate() {
        if !walk.reached(number as u32) {
            continue;
        }
        let children = children(record).iter();
        let lengths = children.clone().map(|&c| walk.list_of(c).len() as u64);
        let working: u64 = match record[0] {
            MUL => lengths.product(),
            _ => lengths.sum(),
        };
        let own = 1 + working;
        steps[number] = children.fold(own, |sum, &c| sum.saturating_add(steps[c as usize]));
    }
    let interactions = sheet.interactions.iter();
    let roots = interactions.flat_map(|x| x.message.iter().chain([&x.count]));
    roots.fold(0, |sum, &r| sum.saturating_add(steps[r as usize]))
}

/// So many characters from the front of a value's text.
pub fn front(value: &dyn Debug, characters: usize) -> String {
    let text = format!("{value:?}");
    match text.char_indices().nth(characters) {
        Some((at, _)) => format!("{} ..", &text[..at]),
        None => text,
    }
}
