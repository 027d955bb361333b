//! Edges of the sheet calls, of the builder and of the expansions: inputs at and beside each bound, made without chance. Every call
//! is compared with the plain Rust, and what is due by how an input was made is asked for too.

pub mod lists;

use plain::block::{bytes_for, write_blocks, BLOCK_BYTES, BLOCK_WORDS};
use plain::field::P;
use plain::sheet::{
    ADD, CHALLENGE, CONSTANT, IS_FIRST_ROW, IS_LAST_ROW, IS_TRANSITION, MAIN, MUL, NEG,
    PREPROCESSED, PUBLIC, SUB, VARIABLE,
};
use plain::{Interaction, Record, Reply, Sheet};

use crate::compare::Case;
use crate::implementation::{Implementation, Plain};
use crate::sheet_calls::{case, compare_input, Input};

/// The largest L: 4,096 records, 1,024 constraints, 1,024 interactions of 63 fields.
const MOST_WORDS: usize = 90_116;

/// What is due by how an input was made, from the sheet check for words and from the reader for bytes.
enum Due {
    Accepted,
    Refused(u32, usize),
    AsPlain,
}

/// An input, the row of the table it counts in, and what is due.
pub struct Edge {
    row: &'static str,
    pub input: Input,
    due: Due,
}

/// Each call that is lent something for writing, by what it is lent.
const LENT: [[&str; 3]; 5] = [
    [
        "convert, output one short: 15",
        "convert, output exact",
        "convert, output one long",
    ],
    [
        "write_blocks, output one short: 15",
        "write_blocks, output exact",
        "write_blocks, output one long",
    ],
    [
        "read_blocks, output one short: 15",
        "read_blocks, output exact",
        "read_blocks, output one long",
    ],
    [
        "build, scratch one short: 14",
        "build, scratch exact",
        "build, scratch one long",
    ],
    [
        "build, output one short: 15",
        "build, output exact",
        "build, output one long",
    ],
];

const ROUND_TRIP: &str = "blocks written and read: the sheet's words, then zeros";

/// All kinds, in the order of the table.
pub fn kinds() -> Vec<&'static str> {
    let mut rows: Vec<&str> = edges().iter().map(|edge| edge.row).collect();
    rows.dedup();
    let lists = lists::kinds();
    [&rows[..], &LENT.concat(), &[ROUND_TRIP], &lists].concat()
}

/// So many records of all kinds but row marks, none equal to another.
fn records(count: u32) -> Vec<Record> {
    let record = |k: u32| match k % 6 {
        0 => [VARIABLE, MAIN, 0, k % 16, k],
        1 => [CONSTANT, k, 0, 0, 0],
        2 => [ADD, k - 1, k - 2, k, 0],
        3 => [SUB, k - 1, k - 3, k, 0],
        4 => [NEG, k - 1, 0, k, 0],
        _ => [MUL, k - 1, k - 2, k, 0],
    };
    (0..count).map(record).collect()
}

/// So many records, constraints and interactions, these with a message of so many fields.
fn sized(count: u32, constraints: u32, interactions: u32, message: u32) -> Sheet {
    let interaction = |k: u32| Interaction {
        bus: 64 * k % 65_536,
        weight: k.wrapping_mul(0x9e37_79b9),
        count: 7 * k % count,
        message: (0..message).map(|j| (67 * k + 13 * j) % count).collect(),
    };
    Sheet {
        records: records(count),
        constraints: (0..constraints)
            .map(|k| count - 1 - 3 * k % count)
            .collect(),
        interactions: (0..interactions).map(interaction).collect(),
    }
}

/// All kinds and entries, constraints out of order and repeated, interactions with and without a message.
fn small() -> Sheet {
    let interaction = |bus, count, message: &[u32]| Interaction {
        bus,
        weight: 3,
        count,
        message: message.to_vec(),
    };
    Sheet {
        records: vec![
            [VARIABLE, PREPROCESSED, 0, 2, 9],
            [VARIABLE, MAIN, 1, 1, 9],
            [VARIABLE, CHALLENGE, 0, 0, 9],
            [VARIABLE, PUBLIC, 0, 0, 9],
            [IS_FIRST_ROW, 0, 0, 0, 0],
            [IS_LAST_ROW, 0, 0, 0, 0],
            [IS_TRANSITION, 0, 0, 0, 0],
            [CONSTANT, 5, 0, 0, 0],
            [NEG, 1, 0, 1, 0],
            [ADD, 0, 8, 1, 0],
            [SUB, 9, 8, 1, 0],
            [MUL, 10, 7, 2, 0],
        ],
        constraints: vec![11, 6, 11],
        interactions: vec![interaction(7, 9, &[2, 3, 7]), interaction(65_535, 5, &[])],
    }
}

fn most() -> Sheet {
    let sheet = sized(4_096, 1_024, 1_024, 63);
    assert_eq!(sheet.length(), MOST_WORDS);
    sheet
}

/// The sheets at the limits, for the comparison of their graphs with the Rust's.
pub fn edge_sheets() -> Vec<(&'static str, Sheet)> {
    vec![
        ("a head alone", Sheet::default()),
        ("a small sheet with all kinds", small()),
        ("E 4,096", sized(4_096, 1, 0, 0)),
        ("C 1,024", sized(2, 1_024, 0, 0)),
        ("I 1,024", sized(2, 0, 1_024, 1)),
        ("a message of 63", sized(9, 0, 1, 63)),
        ("L 90,116, the largest", most()),
    ]
}

/// The edges among words and bytes.
pub fn edges() -> Vec<Edge> {
    let mut edges = vec![];
    let mut say = |row, input, due| edges.push(Edge { row, input, due });
    let spare = |words: &[u32], zeros| Input::Words([words, &vec![0; zeros]].concat());
    let words = |sheet: Sheet| Input::Words(sheet.encode());

    say(
        "no words: 4, place 0",
        Input::Words(vec![]),
        Due::Refused(4, 0),
    );
    say("a head alone", words(Sheet::default()), Due::Accepted);
    say(
        "a small sheet with all kinds",
        words(small()),
        Due::Accepted,
    );
    let good = small().encode();
    for k in 0..good.len() {
        say(
            "each front of the same: 4",
            Input::Words(good[..k].to_vec()),
            Due::Refused(4, k),
        );
    }
    for changed in replaced(&small()) {
        say(
            "each word of the same replaced by bounds and neighbours",
            Input::Words(changed),
            Due::AsPlain,
        );
    }
    say("126 spare words", spare(&good, 126), Due::Accepted);
    say(
        "127 spare words: 7",
        spare(&good, 127),
        Due::Refused(7, good.len() + 126),
    );
    for at in (0..126).step_by(25) {
        let mut changed = [&good[..], &[0; 126]].concat();
        changed[good.len() + at] = 1;
        say(
            "a spare word that is not zero: 7",
            Input::Words(changed),
            Due::Refused(7, good.len() + at),
        );
    }
    say("E 4,096", words(sized(4_096, 1, 0, 0)), Due::Accepted);
    say(
        "E 4,097: 3, place 1",
        words(sized(4_097, 1, 0, 0)),
        Due::Refused(3, 1),
    );
    say("C 1,024", words(sized(2, 1_024, 0, 0)), Due::Accepted);
    say(
        "C 1,025: 3, place 2",
        words(sized(2, 1_025, 0, 0)),
        Due::Refused(3, 2),
    );
    say("I 1,024", words(sized(2, 0, 1_024, 1)), Due::Accepted);
    say(
        "I 1,025: 3, place 3",
        words(sized(2, 0, 1_025, 1)),
        Due::Refused(3, 3),
    );
    say("a message of 63", words(sized(9, 0, 1, 63)), Due::Accepted);
    // four head words, nine records, bus, weight, count
    say(
        "a message of 64: 6",
        words(sized(9, 0, 1, 64)),
        Due::Refused(6, 4 + 45 + 3),
    );
    let most = most().encode();
    say(
        "L 90,116, the largest",
        Input::Words(most.clone()),
        Due::Accepted,
    );
    say(
        "L 90,116 and 54 spare words, as read from 710 blocks",
        spare(&most, 54),
        Due::Accepted,
    );
    say(
        "L 90,116 and a 127th spare word: 7",
        spare(&most, 127),
        Due::Refused(7, MOST_WORDS + 126),
    );
    let cut = most[..MOST_WORDS - 1].to_vec();
    say(
        "L 90,116 without its last word: 4",
        Input::Words(cut),
        Due::Refused(4, MOST_WORDS - 1),
    );

    let any_words = |blocks: usize| -> Vec<u32> {
        let word = |k| (k as u32).wrapping_mul(0x9e37_79b9);
        (0..blocks * BLOCK_WORDS).map(word).collect()
    };
    let bytes = |blocks: usize, length: usize| {
        let mut bytes = write_blocks(&any_words(blocks));
        bytes.resize(length, 0);
        Input::Bytes(bytes)
    };
    let all = 710 * BLOCK_BYTES;
    say("no bytes: 1", bytes(1, 0), Due::Refused(1, 0));
    say(
        "one byte less than a block: 1",
        bytes(1, BLOCK_BYTES - 1),
        Due::Refused(1, 0),
    );
    say(
        "one byte less than a block: 1",
        bytes(2, 2 * BLOCK_BYTES - 1),
        Due::Refused(1, 0),
    );
    say(
        "one byte more than a block: 1",
        bytes(1, BLOCK_BYTES + 1),
        Due::Refused(1, 0),
    );
    say(
        "one byte more than a block: 1",
        bytes(2, 2 * BLOCK_BYTES + 1),
        Due::Refused(1, 0),
    );
    say("710 blocks", bytes(710, all), Due::Accepted);
    say(
        "711 blocks: 1",
        bytes(711, all + BLOCK_BYTES),
        Due::Refused(1, 0),
    );
    say(
        "one byte less than 710 blocks: 1",
        bytes(710, all - 1),
        Due::Refused(1, 0),
    );
    say(
        "one byte more than 710 blocks: 1",
        bytes(710, all + 1),
        Due::Refused(1, 0),
    );
    let mut changed = write_blocks(&any_words(710));
    changed[all - 5] ^= 1;
    say(
        "the last of 710 blocks changed: 2, place 709",
        Input::Bytes(changed),
        Due::Refused(2, 709),
    );
    let words = any_words(710);
    let first = 709 * BLOCK_WORDS;
    let swapped = |words: &[u32], at: usize| {
        let mut bytes = write_blocks(words);
        let place = BLOCK_BYTES * 709 + 4 * (at - first);
        bytes[place..place + 8].rotate_left(4);
        Input::Bytes(bytes)
    };
    let neighbours = [first, first + 60, first + BLOCK_WORDS - 2];
    for at in neighbours {
        say(
            "neighbours in the last of 710 blocks exchanged: 2, place 709",
            swapped(&words, at),
            Due::Refused(2, 709),
        );
    }
    for at in neighbours {
        let mut apart = words.clone();
        apart[at + 1] = apart[at] ^ (1 << 31);
        say(
            "neighbours 2^31 apart in the last of 710 blocks exchanged",
            swapped(&apart, at),
            Due::Accepted,
        );
    }
    let sum = words[first..]
        .iter()
        .fold(710u32, |sum, &w| sum.wrapping_add(w));
    let mut plain_sum = write_blocks(&words);
    plain_sum[all - 4..].copy_from_slice(&sum.to_le_bytes());
    say(
        "the last of 710 blocks under the sum without weights: 2, place 709",
        Input::Bytes(plain_sum),
        Due::Refused(2, 709),
    );
    edges
}

/// Each word of a sheet as each of the others: small ones, every bound of document 01 and its neighbours, the largest.
fn replaced(sheet: &Sheet) -> Vec<Vec<u32>> {
    let words = sheet.encode();
    let records = sheet.records.len() as u32;
    let bounds = [
        0,
        1,
        2,
        3,
        4,
        5,
        8,
        9,
        10,
        records - 1,
        records,
        records + 1,
        63,
        64,
        255,
        256,
        1_024,
        1_025,
        4_096,
        4_097,
        65_535,
        65_536,
        P - 1,
        P,
        P + 1,
        1 << 31,
        u32::MAX,
    ];
    let mut made = vec![];
    for (at, &word) in words.iter().enumerate() {
        let near = [word.wrapping_sub(1), word.wrapping_add(1)];
        let mut others = [&bounds[..], &near].concat();
        others.sort();
        others.dedup();
        for other in others.into_iter().filter(|&other| other != word) {
            let mut changed = words.clone();
            changed[at] = other;
            made.push(changed);
        }
    }
    made
}

/// Every call that takes the input, and what is due by how it was made.
pub fn compare_edge(under_test: &dyn Implementation, edge: &Edge) -> Vec<Case> {
    let mut cases = compare_input(under_test, &edge.input);
    cases.iter_mut().for_each(|case| case.kind = edge.row);
    let said = match &edge.input {
        Input::Words(words) => under_test.check(words).reply,
        Input::Bytes(bytes) => {
            let needed = bytes.len().div_ceil(BLOCK_BYTES) * BLOCK_WORDS;
            under_test.reader(bytes, needed).reply
        }
    };
    let due = match edge.due {
        Due::Accepted => (0, 0),
        Due::Refused(number, place) => (number, place as u32),
        Due::AsPlain => return cases,
    };
    let differs = || format!("made to give {due:?}, not {said:?}");
    cases.push(Case {
        kind: edge.row,
        difference: ((said.number, said.place) != due).then(differs),
        size: 1,
    });
    cases
}

/// One less, as many and one more than is needed, for each call that is lent something for writing. Beside what is due from the
/// plain Rust: the number, and the needed length as the place.
pub fn compare_lent(under_test: &dyn Implementation, sheet: &Sheet) -> Vec<Case> {
    let (words, records) = (sheet.encode(), sheet.records.len());
    let blocks = write_blocks(&words);
    let read = blocks.len() / BLOCK_BYTES * BLOCK_WORDS;
    let (length, bytes) = (words.len(), blocks.len());
    let mut cases = vec![];
    for side in 0..3 {
        let lent = |needed: usize| (needed + side).saturating_sub(1);
        let mut push = |call: usize, number: u32, needed: usize, mut case: Case, said: Reply| {
            if needed == 0 && side == 0 {
                return; // nothing is one short of nothing
            }
            let due = if side == 0 {
                (number, needed as u32)
            } else {
                (0, 0)
            };
            if (said.number, said.place) != due {
                case.difference = Some(format!("{said:?}, not {due:?}"));
            }
            case.kind = LENT[call][side];
            cases.push(case);
        };
        let ours = under_test.conversion(&words, lent(length));
        let plain = Plain.conversion(&words, lent(length));
        push(0, 15, length, case("", &ours, &plain), ours.reply);

        let ours = under_test.writer(&words, lent(bytes));
        let plain = Plain.writer(&words, lent(bytes));
        push(1, 15, bytes, case("", &ours, &plain), ours.reply);

        let ours = under_test.reader(&blocks, lent(read));
        let plain = Plain.reader(&blocks, lent(read));
        push(2, 15, read, case("", &ours, &plain), ours.reply);

        let ours = under_test.builder(&words, lent(records), length);
        let plain = Plain.builder(&words, lent(records), length);
        push(3, 14, records, case("", &ours, &plain), ours.reply);

        let ours = under_test.builder(&words, records, lent(length));
        let plain = Plain.builder(&words, records, lent(length));
        push(4, 15, length, case("", &ours, &plain), ours.reply);
    }
    cases
}

/// Sheets of every length around the ends of blocks, and the largest.
pub fn lengths() -> Vec<Sheet> {
    let of_length = |words: u32| sized((words - 4) / 5, (words - 4) % 5, 0, 0);
    let mut sheets: Vec<Sheet> = (9..=400).map(of_length).collect();
    sheets.extend(edge_sheets().into_iter().map(|(_, sheet)| sheet));
    sheets
}

/// The blocks written of a sheet, read again.
pub fn compare_round_trip(under_test: &dyn Implementation, sheet: &Sheet) -> Case {
    let words = sheet.encode();
    let blocks = bytes_for(words.len());
    let written = under_test.writer(&words, blocks);
    let needed = blocks / BLOCK_BYTES * BLOCK_WORDS;
    let read = under_test.reader(&written.slices[0], needed);
    let mut due = words;
    due.resize(needed, 0);
    let accepted = written.refusal().is_none() && read.refusal().is_none();
    let same = accepted && read.written(0) == due;
    let differs = || format!("{:?}, then {:?}", written.reply, read.reply);
    Case {
        kind: ROUND_TRIP,
        difference: (!same).then(differs),
        size: 1,
    }
}
