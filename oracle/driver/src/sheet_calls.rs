//! The calls that take a sheet or its blocks: the sheet check, max_rotation, num_constraints, the conversion, the builder, both
//! expansions, the block reader and the block writer. Sheets and blocks, good and broken, and the comparison with the plain Rust;
//! where a sheet is good, of the two numbers with the Rust too.

use std::fmt::Debug;

use plain::block::{bytes_for, write_blocks, BLOCK_BYTES, BLOCK_WORDS};
use plain::calls::WORK;
use plain::field::P;
use plain::{Outcome, Sheet};

use crate::compare::Case;
use crate::implementation::{Implementation, Plain};
use crate::needs::{outputs, FAMILIES};
use crate::rng::Rng;
use crate::rust;
use crate::sheets::random_sheet;

/// A call by what is due: an answer, 3 to 7.
type Rows = [&'static str; 6];

const CHECK: Rows = [
    "check_sheet, against plain: five numbers",
    "check_sheet, against plain: 3",
    "check_sheet, against plain: 4",
    "check_sheet, against plain: 5",
    "check_sheet, against plain: 6",
    "check_sheet, against plain: 7",
];

const ROTATION: Rows = [
    "max_rotation, against plain: a number",
    "max_rotation, against plain: 3",
    "max_rotation, against plain: 4",
    "max_rotation, against plain: 5",
    "max_rotation, against plain: 6",
    "max_rotation, against plain: 7",
];

const CONSTRAINTS: Rows = [
    "num_constraints, against plain: a number",
    "num_constraints, against plain: 3",
    "num_constraints, against plain: 4",
    "num_constraints, against plain: 5",
    "num_constraints, against plain: 6",
    "num_constraints, against plain: 7",
];

const AGAINST_RUST: [&str; 2] = [
    "max_rotation of a good sheet, against the Rust",
    "num_constraints of a good sheet, against the Rust",
];

/// A call with an output: an answer lent exactly what it needs or more, 3 to 7, 15 lent one less or nothing.
type WritingRows = [&'static str; 9];

const CONVERT: WritingRows = [
    "convert, against plain: words, lent exactly",
    "convert, against plain: words, lent more",
    "convert, against plain: 3",
    "convert, against plain: 4",
    "convert, against plain: 5",
    "convert, against plain: 6",
    "convert, against plain: 7",
    "convert, against plain: 15, lent less",
    "convert, against plain: 15, lent nothing",
];

const WRITE: WritingRows = [
    "write_blocks, against plain: bytes, lent exactly",
    "write_blocks, against plain: bytes, lent more",
    "write_blocks, against plain: 3",
    "write_blocks, against plain: 4",
    "write_blocks, against plain: 5",
    "write_blocks, against plain: 6",
    "write_blocks, against plain: 7",
    "write_blocks, against plain: 15, lent less",
    "write_blocks, against plain: 15, lent nothing",
];

/// The builder: a graph lent exactly what it needs or more, 3 to 7, 14 and 15 lent less or nothing.
const BUILD: [&str; 11] = [
    "build, against plain: a graph, lent exactly",
    "build, against plain: a graph, lent more",
    "build, against plain: 3",
    "build, against plain: 4",
    "build, against plain: 5",
    "build, against plain: 6",
    "build, against plain: 7",
    "build, against plain: 14, scratch lent less",
    "build, against plain: 14, scratch lent nothing",
    "build, against plain: 15, output lent less",
    "build, against plain: 15, output lent nothing",
];

/// Each expansion: lists, 3 to 7, 8 to 17 of what is a sheet.
const EXPAND: [[&str; 7]; 2] = [
    [
        "expand_constraints, against plain: lists",
        "expand_constraints, against plain: 3",
        "expand_constraints, against plain: 4",
        "expand_constraints, against plain: 5",
        "expand_constraints, against plain: 6",
        "expand_constraints, against plain: 7",
        "expand_constraints, against plain: 8 to 17",
    ],
    [
        "expand_interactions, against plain: lists",
        "expand_interactions, against plain: 3",
        "expand_interactions, against plain: 4",
        "expand_interactions, against plain: 5",
        "expand_interactions, against plain: 6",
        "expand_interactions, against plain: 7",
        "expand_interactions, against plain: 8 to 17",
    ],
];

/// What is lent to an expansion here, work, pool and each output: what short lists need, and nothing.
const LENT: [[usize; 3]; 2] = [[WORK, 4_096, 200], [0, 0, 0]];

/// The reader: an answer lent exactly what it needs or more, 1, 2, 15 lent one less or nothing.
const READ: [&str; 6] = [
    "read_blocks, against plain: words, lent exactly",
    "read_blocks, against plain: words, lent more",
    "read_blocks, against plain: 1",
    "read_blocks, against plain: 2",
    "read_blocks, against plain: 15, lent less",
    "read_blocks, against plain: 15, lent nothing",
];

/// All kinds, in the order of the table.
pub fn kinds() -> Vec<&'static str> {
    let numbers = [CHECK, ROTATION, CONSTRAINTS].concat();
    let writing = [CONVERT, WRITE].concat();
    let expand = EXPAND.concat();
    [
        &numbers,
        &AGAINST_RUST[..],
        &writing,
        &BUILD,
        &expand,
        &READ,
    ]
    .concat()
}

/// What is put to the calls: words that may be a sheet, or bytes that may be blocks.
#[derive(Debug)]
pub enum Input {
    Words(Vec<u32>),
    Bytes(Vec<u8>),
}

/// Every call that takes the input, each lent several lengths.
pub fn compare_input(under_test: &dyn Implementation, input: &Input) -> Vec<Case> {
    match input {
        Input::Words(words) => compare_words(under_test, words),
        Input::Bytes(bytes) => compare_bytes(under_test, bytes),
    }
}

/// Reply and every lent slice. The first element that differs is shown.
pub fn case<T: PartialEq + Debug>(kind: &'static str, ours: &Outcome<T>, due: &Outcome<T>) -> Case {
    let difference = (ours != due).then(|| {
        let at = |k: usize| {
            ours.slices[k]
                .iter()
                .zip(&due.slices[k])
                .position(|(x, y)| x != y)
        };
        let places: Vec<Option<usize>> = (0..due.slices.len()).map(at).collect();
        format!(
            "{:?}, not {:?}; slices differ at {places:?}",
            ours.reply, due.reply
        )
    });
    Case {
        kind,
        difference,
        size: 1,
    }
}

/// The row of a call that is lent nothing for writing.
fn row(rows: &Rows, due: &Outcome) -> &'static str {
    match due.refusal() {
        None => rows[0],
        Some(refusal) => rows[refusal.number as usize - 2],
    }
}

/// The row of a call that is lent so much.
fn writing_row<T>(rows: &WritingRows, due: &Outcome<T>, lent: usize) -> &'static str {
    match due.refusal().map(|refusal| refusal.number) {
        None => rows[usize::from(due.reply.counts[0] as usize != lent)],
        Some(15) => rows[7 + usize::from(lent == 0)],
        Some(number) => rows[number as usize - 1],
    }
}

/// What is lent where so much is needed: as much, one less, more, nothing.
fn lengths(needed: usize) -> [usize; 5] {
    [
        needed,
        needed.saturating_sub(1),
        needed + 1,
        needed + 130,
        0,
    ]
}

fn compare_words(under_test: &dyn Implementation, words: &[u32]) -> Vec<Case> {
    let mut cases = vec![];
    let due = Plain.check(words);
    cases.push(case(row(&CHECK, &due), &under_test.check(words), &due));
    let due = Plain.max_rotation(words);
    let rotation = under_test.max_rotation(words);
    cases.push(case(row(&ROTATION, &due), &rotation, &due));
    let due = Plain.num_constraints(words);
    let constraints = under_test.num_constraints(words);
    cases.push(case(row(&CONSTRAINTS, &due), &constraints, &due));

    // the Rust takes only what is a sheet; so it is asked where both say so
    let agreed = cases.iter().all(|case| case.difference.is_none());
    let sheet = Sheet::decode(words);
    if let (Ok(sheet), true) = (&sheet, agreed) {
        let dag = rust::expression_dag(sheet);
        let of_rust = [dag.max_rotation(), dag.num_constraints()];
        for (k, said) in [rotation, constraints].into_iter().enumerate() {
            let same = said.reply.number == 0 && said.reply.numbers == [of_rust[k] as u32];
            let differs = || format!("{:?}, the Rust {}", said.reply, of_rust[k]);
            cases.push(Case {
                kind: AGAINST_RUST[k],
                difference: (!same).then(differs),
                size: 1,
            });
        }
    }

    let length = sheet.as_ref().map_or(words.len(), |sheet| sheet.length());
    for lent in lengths(length) {
        let due = Plain.conversion(words, lent);
        let ours = under_test.conversion(words, lent);
        cases.push(case(writing_row(&CONVERT, &due, lent), &ours, &due));
    }
    for lent in lengths(bytes_for(length)) {
        let due = Plain.writer(words, lent);
        let ours = under_test.writer(words, lent);
        cases.push(case(writing_row(&WRITE, &due, lent), &ours, &due));
    }
    let records = sheet.map_or(words.len() / 5, |sheet| sheet.records.len());
    for (scratch, out) in build_lengths(records, length) {
        let due = Plain.builder(words, scratch, out);
        let ours = under_test.builder(words, scratch, out);
        let exactly = (scratch, out) == (records, length);
        let row = match due.refusal().map(|refusal| refusal.number) {
            None => usize::from(!exactly),
            Some(14) => 7 + usize::from(scratch == 0),
            Some(15) => 9 + usize::from(out == 0),
            Some(number) => number as usize - 1,
        };
        cases.push(case(BUILD[row], &ours, &due));
    }
    for (family, rows) in FAMILIES.into_iter().zip(EXPAND) {
        for [work, pool, output] in LENT {
            let lent = vec![output; outputs(family)];
            let due = Plain.expand(family, words, work, pool, &lent);
            let ours = under_test.expand(family, words, work, pool, &lent);
            let row = match due.refusal().map(|refusal| refusal.number) {
                None => 0,
                Some(number) => (number as usize - 2).min(6),
            };
            cases.push(case(rows[row], &ours, &due));
        }
    }
    cases
}

/// Scratch and output that are lent where so much is needed: as much, more of one or both, less of one or both, nothing.
fn build_lengths(records: usize, words: usize) -> [(usize, usize); 9] {
    let short = records.saturating_sub(1);
    [
        (records, words),
        (records + 1, words + 130),
        (records + 130, words + 1),
        (short, words),
        (short, words.saturating_sub(1)),
        (0, words),
        (records, words.saturating_sub(1)),
        (records + 1, 0),
        (0, 0),
    ]
}

fn compare_bytes(under_test: &dyn Implementation, bytes: &[u8]) -> Vec<Case> {
    let compared = |lent: usize| {
        let due = Plain.reader(bytes, lent);
        let kind = match due.refusal().map(|refusal| refusal.number) {
            None => READ[usize::from(due.reply.counts[0] as usize != lent)],
            Some(15) => READ[4 + usize::from(lent == 0)],
            Some(number) => READ[number as usize + 1],
        };
        case(kind, &under_test.reader(bytes, lent), &due)
    };
    let needed = bytes.len() / BLOCK_BYTES * BLOCK_WORDS;
    lengths(needed).map(compared).into()
}

/// Inputs of one random sheet: good, broken in several ways, and its blocks, good and broken.
pub fn random_inputs(rng: &mut Rng) -> Vec<Input> {
    let (_, sheet) = random_sheet(rng);
    let words = sheet.encode();
    let spare = |words: &[u32], zeros: usize| [words, &vec![0; zeros]].concat();

    let zeros = rng.pick(&[0, 0, 1, 126]);
    let good = spare(&words, zeros);
    let front = rng.pick(&[4, 24, words.len(), words.len()]);
    let at = rng.below(front.min(words.len()));
    let changed = one_changed(rng, &sheet, &words, at);
    let at = words.len() - 1 - rng.below(words.len().min(40));
    let changed_late = one_changed(rng, &sheet, &words, at);
    let cut = words[..rng.below(words.len())].to_vec();
    let zeros = rng.pick(&[1, 60, 125, 126, 127, 128, 300]);
    let longer = spare(&words, zeros);
    let zeros = rng.pick(&[0, 0, 1, 60, 125, 126, 127]);
    let mut not_zero = spare(&words, zeros);
    not_zero.push(rng.word().max(1));
    let zeros = rng.below(3);
    not_zero.resize(not_zero.len() + zeros, 0);

    let blocks = write_blocks(&good);
    let mut flipped = blocks.clone();
    flipped[rng.below(blocks.len())] ^= 1 << rng.below(8);
    let bytes = [
        blocks.clone(),
        flipped,
        resized(rng, &blocks),
        moved(rng, &blocks),
        exchanged(rng, &blocks),
    ];
    let words = [good, changed, changed_late, cut, longer, not_zero];
    let words = words.into_iter().map(Input::Words);
    words.chain(bytes.into_iter().map(Input::Bytes)).collect()
}

/// The word at an index is another: a neighbour, a bound of document 01, or any.
fn one_changed(rng: &mut Rng, sheet: &Sheet, words: &[u32], at: usize) -> Vec<u32> {
    let mut changed = words.to_vec();
    let word = words[at];
    let bounds = [
        0,
        1,
        4,
        9,
        10,
        63,
        64,
        1_024,
        1_025,
        4_096,
        4_097,
        65_535,
        65_536,
        P - 1,
        P,
        u32::MAX,
    ];
    let (bound, any) = (rng.pick(&bounds), rng.word());
    let near = rng.pick(&[word.wrapping_add(1), word.wrapping_sub(1)]);
    let record = (sheet.records.len() as u32).wrapping_sub(rng.below(2) as u32);
    changed[at] = rng.pick(&[bound, bound, near, near, record, any]);
    changed
}

/// The blocks with another length: some bytes, a block of zeros, or as many blocks as are taken and more.
fn resized(rng: &mut Rng, blocks: &[u8]) -> Vec<u8> {
    if rng.percent(2) {
        let count = rng.pick(&[709, 710, 711, 712]);
        let words: Vec<u32> = (0..count * BLOCK_WORDS).map(|_| rng.word()).collect();
        return write_blocks(&words);
    }
    let length = blocks.len();
    let other = rng.below(length + 2 * BLOCK_BYTES);
    let length = rng.pick(&[
        0,
        length - 1,
        length + 1,
        length + BLOCK_BYTES,
        other,
        other,
    ]);
    let mut resized = blocks.to_vec();
    resized.resize(length, 0);
    resized
}

/// The blocks with two neighbouring words exchanged, in one block or where two of them meet; they may be equal.
fn exchanged(rng: &mut Rng, blocks: &[u8]) -> Vec<u8> {
    let mut exchanged = blocks.to_vec();
    let at = 4 * rng.below(blocks.len() / 4 - 1);
    exchanged[at..at + 8].rotate_left(4);
    exchanged
}

/// The blocks in another order, or without the first: their numbers are wrong. A single block has one byte changed instead.
fn moved(rng: &mut Rng, blocks: &[u8]) -> Vec<u8> {
    let mut moved = blocks.to_vec();
    let count = blocks.len() / BLOCK_BYTES;
    if count == 1 {
        moved[rng.below(BLOCK_BYTES)] = rng.draw() as u8;
        return moved;
    }
    if rng.percent(30) {
        return moved.split_off(BLOCK_BYTES);
    }
    moved.rotate_left(BLOCK_BYTES * rng.between(1, count - 1));
    moved
}
