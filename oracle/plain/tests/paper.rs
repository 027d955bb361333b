//! What document 01 says of single inputs: its checked examples, and every refusal with its place and order.

use plain::block::write_blocks;
use plain::calls::{self, WORK};
use plain::field::P;
use plain::sheet::{ADD, CONSTANT, IS_TRANSITION, MAIN, MUL, NEG, SUB, VARIABLE};
use plain::sheetlist::sheetlist;
use plain::{Interaction, Outcome, Record, Sheet};

const V: Record = [VARIABLE, MAIN, 0, 0, 0];
const W: Record = [VARIABLE, MAIN, 0, 0, 1];

fn constant(value: u32) -> Record {
    [CONSTANT, value, 0, 0, 0]
}

fn sheet(records: &[Record], constraints: &[u32]) -> Sheet {
    Sheet {
        records: records.to_vec(),
        constraints: constraints.to_vec(),
        interactions: vec![],
    }
}

/// Number and place, and every slice zero after a refusal.
fn reply(outcome: &Outcome) -> (u32, u32) {
    if outcome.reply.number != 0 {
        assert!(outcome.reply.counts.is_empty() && outcome.reply.numbers.is_empty());
        assert!(outcome.slices.iter().flatten().all(|&word| word == 0));
    }
    (outcome.reply.number, outcome.reply.place)
}

fn graph(sheet: &Sheet) -> Sheet {
    let outcome = calls::builder(&sheet.encode(), sheet.records.len(), sheet.length());
    assert_eq!(reply(&outcome), (0, 0));
    Sheet::decode(outcome.written(0)).expect("a graph is a sheet")
}

fn expanded(sheet: &Sheet) -> Outcome {
    calls::expand_constraints(&sheet.encode(), WORK, 100_000, [2_000; 3])
}

#[test]
fn packing() {
    let packed = |record| {
        let outcome = calls::pack(&record);
        assert_eq!(reply(&outcome), (0, 0));
        let number = outcome.reply.numbers[0];
        assert_eq!(calls::unpack(number).reply.numbers, record);
        number
    };
    assert_eq!(packed(V), 0x00000001);
    assert_eq!(packed([VARIABLE, 1, 255, 15, 65_535]), 0xfffffff1);
    assert_eq!(packed([VARIABLE, 3, 0, 0, 3]), 0x00030003);
    assert_eq!([2, 3, 4].map(|kind| packed([kind, 0, 0, 0, 0])), [8, 9, 10]);
}

#[test]
fn packing_refused() {
    let refused = |record| reply(&calls::pack(&record));
    assert_eq!(refused([VARIABLE, 1, 0, 16, 0]), (11, 0));
    assert_eq!(refused([VARIABLE, 1, 256, 0, 0]), (10, 0));
    assert_eq!(refused([VARIABLE, 1, 0, 0, 65_536]), (8, 0));
    assert_eq!(refused([VARIABLE, 2, 0, 0, 0]), (9, 0));
    assert_eq!(refused([VARIABLE, 2, 0, 0, 65_536]), (8, 0));
    assert_eq!(refused([VARIABLE, 1, 256, 16, 0]), (10, 0));
    assert_eq!(refused([0, 0, 0, 0, 0]), (5, 0));
    assert_eq!(refused(constant(0)), (5, 0));
    assert_eq!(refused([VARIABLE, 4, 0, 0, 0]), (5, 1));
    assert_eq!(refused([VARIABLE, 0, 1, 0, 65_536]), (5, 2));
    assert_eq!(refused([VARIABLE, 2, 0, 1, 0]), (5, 3));
    assert_eq!(refused([IS_TRANSITION, 0, 0, 0, 1]), (5, 4));
}

#[test]
fn unpacking_refused() {
    let never = [
        2, 4, 5, 6, 7, 11, 15, 0x10, 0x13, 0x1003, 0x18, 0x1008, 0x10008, 0xfffffff2,
    ];
    for number in never {
        assert_eq!(reply(&calls::unpack(number)), (5, 0), "{number:#x}");
    }
}

#[test]
fn graphs() {
    let built = graph(&sheet(&[V, W, [NEG, 1, 0, 1, 0], [ADD, 0, 2, 1, 0]], &[3]));
    assert_eq!(
        built,
        sheet(&[V, W, [NEG, 1, 0, 1, 0], [SUB, 0, 1, 1, 0]], &[3])
    );

    let twice = sheet(&[V, [NEG, 0, 0, 1, 0], [NEG, 1, 0, 1, 0]], &[2]);
    assert_eq!(graph(&twice), twice);

    let below = graph(&sheet(&[constant(0), V, [SUB, 0, 1, 1, 0]], &[2]));
    assert_eq!(below.records.len(), 3);

    let vanished = sheet(&[V, constant(0), [MUL, 0, 1, 1, 0]], &[2]);
    let built = graph(&vanished);
    assert_eq!(built, sheet(&[V, constant(0)], &[1]));
    assert_eq!(expanded(&built).reply.counts, [0, 0, 0]);
    assert_eq!(expanded(&vanished).reply.counts, [0, 0, 0]);

    let zero = sheet(&[constant(0)], &[0]);
    assert_eq!(graph(&zero), zero);
    assert_eq!(expanded(&zero).reply.counts, [0, 0, 0]);

    let degrees = sheet(&[V, W, [ADD, 0, 1, 1, 0], [ADD, 0, 1, 2, 0]], &[2, 3]);
    assert_eq!(graph(&degrees), degrees);
    let outcome = expanded(&degrees);
    assert_eq!(outcome.written(0), [0, 0, 1, 2, 1, 2, 1, 2]);
    assert_eq!(outcome.written(1), [0x1, 0x10001]);
    assert_eq!(outcome.written(2), [0, 1, 1, 1, 0, 1, 1, 1]);

    let same = sheet(&[V, W, [ADD, 0, 1, 1, 0], [ADD, 0, 1, 1, 0]], &[2, 3]);
    assert_eq!(graph(&same).constraints, [2]);

    let folded = sheet(&[constant(P - 1), constant(P - 1), [MUL, 0, 1, 0, 0]], &[2]);
    assert_eq!(graph(&folded), sheet(&[constant(P - 1), constant(1)], &[1]));
}

#[test]
fn building_twice() {
    let records = [
        V,
        W,
        [NEG, 1, 0, 1, 0],
        [NEG, 2, 0, 1, 0],
        [ADD, 0, 3, 1, 0],
    ];
    let once = graph(&sheet(&records, &[4]));
    assert_eq!(once.records[4], [SUB, 0, 2, 1, 0]);
    let twice = graph(&once);
    assert_eq!(
        twice,
        sheet(&[V, W, [NEG, 1, 0, 1, 0], [ADD, 0, 1, 1, 0]], &[3])
    );
}

#[test]
fn difference_of_squares() {
    let records = [
        V,
        W,
        [ADD, 0, 1, 1, 0],
        [SUB, 0, 1, 1, 0],
        [MUL, 2, 3, 2, 0],
    ];
    let outcome = expanded(&sheet(&records, &[4]));
    assert_eq!(outcome.written(0), [0, 0, 2, 1, 2, 1, 2, 1]);
    assert_eq!(outcome.written(1), [0x1, 0x1, 0x10001, 0x10001]);
    assert_eq!(outcome.written(2), [0, 1, 0, P - 1]);
}

/// So many variables from a column on, joined by one kind; the number of the last record.
fn joined(records: &mut Vec<Record>, kind: u32, count: u32, column: u32) -> u32 {
    records.push([VARIABLE, MAIN, 0, 0, column]);
    for k in 1..count {
        let before = records.len() as u32 - 1;
        records.push([VARIABLE, MAIN, 0, 0, column + k]);
        records.push([kind, before, before + 1, 0, 0]);
    }
    records.len() as u32 - 1
}

#[test]
fn limits_of_the_lists() {
    for (factors, number) in [(14, 0), (15, 13)] {
        let mut records = vec![];
        let last = joined(&mut records, MUL, factors, 0);
        let place = if number == 0 { 0 } else { last };
        assert_eq!(reply(&expanded(&sheet(&records, &[last]))), (number, place));
    }
    for (width, number) in [(16, 0), (17, 12)] {
        let mut records = vec![];
        let left = joined(&mut records, ADD, 16, 0);
        let right = joined(&mut records, ADD, width, 100);
        records.push([MUL, left, right, 0, 0]);
        let last = records.len() as u32 - 1;
        let place = if number == 0 { 0 } else { last };
        assert_eq!(reply(&expanded(&sheet(&records, &[last]))), (number, place));
    }
}

#[test]
fn sheet_check() {
    let check = |words: &[u32]| reply(&calls::check(words));
    let small = Sheet {
        records: vec![V, constant(7), [ADD, 0, 1, 9, 0]],
        constraints: vec![2],
        interactions: vec![Interaction {
            bus: 65_535,
            weight: u32::MAX,
            count: 1,
            message: vec![0, 2],
        }],
    };
    let words = small.encode();
    assert_eq!(words.len(), 26);
    assert_eq!(calls::check(&words).reply.numbers, [3, 1, 1, 26, 20]);
    assert_eq!(Sheet::decode(&words), Ok(small));
    // Every cut is 4 at the length.
    for cut in 0..words.len() {
        assert_eq!(check(&words[..cut]), (4, cut as u32));
    }
    // One wrong word at a time; a count that is too small moves what follows.
    let wrong = [
        (0, 0, 3),
        (0, 2, 3),
        (1, 4_097, 3),
        (2, 1_025, 3),
        (3, 1_025, 3),
        (4, 0, 5),
        (4, 10, 5),
        (5, 4, 5),
        (10, P, 5),
        (11, 1, 5),
        (13, 1, 5),
        (15, 2, 5),
        (16, u32::MAX, 5),
        (18, 1, 5),
        (19, 3, 6),
        (20, 65_536, 6),
        (22, 3, 6),
        (23, 64, 6),
        (24, 3, 6),
        (25, 3, 6),
    ];
    for (at, word, number) in wrong {
        let mut words = words.clone();
        words[at] = word;
        assert_eq!(check(&words), (number, at as u32), "word {at}");
        // A wrong word before the cut wins.
        assert_eq!(check(&words[..at + 1]), (number, at as u32));
    }
    // Spare words.
    let spare = |zeros: usize| [words.clone(), vec![0; zeros]].concat();
    assert_eq!(check(&spare(126)), (0, 0));
    assert_eq!(check(&spare(127)), (7, 26 + 126));
    assert_eq!(check(&spare(500)), (7, 26 + 126));
    let mut marked = spare(127);
    marked[30] = 1;
    assert_eq!(check(&marked), (7, 30));
    assert_eq!(check(&[1, 0, 0, 0]), (0, 0));
    assert_eq!(check(&[1, 0, 1, 0, 0]), (6, 4));
}

#[test]
fn blocks() {
    let small = sheet(&[V, W, [ADD, 0, 1, 1, 0]], &[2]);
    let words = [small.encode(), vec![0; 9]].concat();
    let refused = calls::writer(&words, 511);
    assert_eq!((refused.reply.number, refused.reply.place), (15, 512));
    assert_eq!(refused.slices, [vec![0; 511]]);
    let written = calls::writer(&words, 600);
    assert_eq!(written.reply.counts, [512]);
    let bytes = written.written(0);

    assert_eq!(calls::block_check(bytes, 1).reply.numbers, [1]);
    assert_eq!(calls::block_check(bytes, 2).reply.numbers, [0]);
    assert_eq!(reply(&calls::block_check(&bytes[1..], 1)), (1, 0));

    let read = calls::reader(bytes, 130);
    assert_eq!(read.reply.counts, [127]);
    assert_eq!(read.written(0)[..small.length()], small.encode());
    assert_eq!(reply(&calls::reader(bytes, 126)), (15, 127));
    assert_eq!(reply(&calls::reader(&[], 0)), (1, 0));
    assert_eq!(reply(&calls::reader(&bytes[1..], 127)), (1, 0));
    assert_eq!(reply(&calls::reader(&vec![0; 363_520 + 512], 0)), (1, 0));

    // "1 for the first, 3 for the second, up to 253", "plus the block's number from 1"
    let check = |words: &[u32], number: usize| {
        let bytes = write_blocks(words);
        let at = 512 * number - 4;
        u32::from_le_bytes(bytes[at..at + 4].try_into().unwrap())
    };
    let last = |word: u32| [vec![0; 126], vec![word]].concat();
    assert_eq!(check(&[7], 1), 8);
    assert_eq!(check(&[0, 7], 1), 22);
    assert_eq!(check(&last(1), 1), 254);
    assert_eq!(check(&last(u32::MAX), 1), 0u32.wrapping_sub(252));
    assert_eq!(check(&[last(1), last(1)].concat(), 2), 255);

    // "Two neighbours .., swapped, are seen unless they are equal or differ by exactly 2^31"
    let swapped = |words: [u32; 2]| {
        let mut bytes = write_blocks(&words);
        bytes[..8].rotate_left(4);
        reply(&calls::reader(&bytes, 127))
    };
    assert_eq!(swapped([1, 2]), (2, 0));
    assert_eq!(swapped([1, 1 << 30]), (2, 0));
    assert_eq!(swapped([9, 9]), (0, 0));
    assert_eq!(swapped([9, 9 + (1 << 31)]), (0, 0));

    let mut two = write_blocks(&[5; 254]);
    assert_eq!(reply(&calls::reader(&two, 254)), (0, 0));
    two[512] ^= 1;
    assert_eq!(reply(&calls::reader(&two, 254)), (2, 1));
    assert_eq!(reply(&calls::reader(&two, 253)), (15, 254));
    two[0] ^= 1;
    assert_eq!(reply(&calls::reader(&two, 254)), (2, 0));
}

#[test]
fn what_is_lent() {
    let small = sheet(&[V, W, [ADD, 0, 1, 1, 0]], &[2]);
    let words = small.encode();
    assert_eq!(reply(&calls::builder(&words, 2, 0)), (14, 3));
    assert_eq!(reply(&calls::builder(&words, 3, 19)), (15, 20));
    assert_eq!(reply(&calls::builder(&words, 3, 20)), (0, 0));
    assert_eq!(reply(&calls::conversion(&words, 19)), (15, 20));

    let expand = |work, pool, lent| reply(&calls::expand_constraints(&words, work, pool, lent));
    assert_eq!(expand(4_095, 0, [0; 3]), (14, 4_096));
    assert_eq!(expand(4_096, 5, [0; 3]), (14, 6));
    // v and w take 3 words each, their sum 6.
    assert_eq!(expand(4_096, 6, [0; 3]), (16, 0));
    assert_eq!(expand(4_096, 11, [0; 3]), (16, 1));
    assert_eq!(expand(4_096, 17, [0; 3]), (16, 2));
    assert_eq!(expand(4_096, 18, [7, 1, 3]), (17, 1));
    assert_eq!(expand(4_096, 18, [8, 1, 3]), (17, 2));
    assert_eq!(expand(4_096, 18, [8, 2, 3]), (17, 3));
    assert_eq!(expand(4_096, 18, [8, 2, 4]), (0, 0));

    let empty = Sheet::default().encode();
    assert_eq!(
        reply(&calls::expand_interactions(&empty, 4_095, 0, [0; 6])),
        (14, 4_096)
    );
    let accepted = calls::expand_interactions(&empty, 4_096, 0, [0; 6]);
    assert_eq!(accepted.reply.numbers, [0, 0]);
}

#[test]
fn refusals_of_the_walk() {
    let wild: [(Record, u32); 4] = [
        ([VARIABLE, 1, 0, 0, 65_536], 8),
        ([VARIABLE, 2, 0, 0, 0], 9),
        ([VARIABLE, 1, 256, 0, 0], 10),
        ([VARIABLE, 1, 0, 16, 0], 11),
    ];
    for (record, number) in wild {
        // Only reached records are looked at, and the pool comes after.
        assert_eq!(reply(&expanded(&sheet(&[V, record], &[0]))), (0, 0));
        let reached = sheet(&[V, record], &[1]).encode();
        let outcome = calls::expand_constraints(&reached, WORK, 4, [0; 3]);
        assert_eq!(reply(&outcome), (number, 1));
    }
    // Counts of all interactions are walked before any field.
    let interaction = |count, field| Interaction {
        count,
        message: vec![field],
        ..Interaction::default()
    };
    let two = Sheet {
        records: vec![V, wild[0].0, wild[1].0],
        constraints: vec![],
        interactions: vec![interaction(0, 1), interaction(2, 0)],
    };
    let outcome = calls::expand_interactions(&two.encode(), WORK, 100, [100; 6]);
    assert_eq!(reply(&outcome), (9, 2));
}

#[test]
fn listing() {
    let example = Sheet {
        records: vec![
            [VARIABLE, MAIN, 0, 1, 0],
            V,
            [SUB, 0, 1, 1, 0],
            constant(1),
            [SUB, 2, 3, 1, 0],
            [IS_TRANSITION, 0, 0, 0, 0],
            [MUL, 5, 4, 2, 0],
        ],
        constraints: vec![6],
        interactions: vec![Interaction {
            bus: 7,
            weight: 1,
            count: 3,
            message: vec![1, 2],
        }],
    };
    let text = "dag 7 1 1\nm 0000000a\nt 0 -1\nm 00000001 0000000a\nt 0 -1\nm 0000000a 00001001\nt 0 1\nn\nu 0 1\n\
        d 00000001\nw 0 0 1\nw 0 1 -1\nd 00001001\nw 0 1 1\nend\n";
    assert_eq!(sheetlist(&write_blocks(&example.encode())), text);
    assert_eq!(sheetlist(&[0; 4_097]), "refused read 1 0\n");
    assert_eq!(sheetlist(&write_blocks(&[2])), "refused dag 3 0\n");
}
