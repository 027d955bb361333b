//! The sheet of document 01 that sheetlist lists, through every call.

use suhkelva::refusal::{POOL_TOO_SHORT, SCRATCH_TOO_SHORT, SLICE_TOO_SHORT};
use suhkelva::*;

/// Records: main offset 1 column 0; v; Sub(0, 1); constant 1; Sub(2, 3); IsTransition; Mul(5, 4). Constraint 6. Interaction: bus 7,
/// weight 1, count 3, message records 1 and 2.
const SHEET: [u32; 46] = [
    1, 7, 1, 1, // head
    1, 1, 0, 1, 0, // 0
    1, 1, 0, 0, 0, // 1
    7, 0, 1, 1, 0, // 2
    5, 1, 0, 0, 0, // 3
    7, 2, 3, 1, 0, // 4
    4, 0, 0, 0, 0, // 5
    9, 5, 4, 2, 0, // 6
    6, // constraint
    7, 1, 3, 2, 1, 2, // interaction
];

const MINUS_ONE: u32 = 2_013_265_920;

/// What is lent to an expansion: more than the sheet needs.
struct Lent {
    work: [u32; WORK_WORDS],
    pool: [u32; 200],
    lists: [[u32; 40]; 6],
}

fn lent() -> Lent {
    Lent {
        work: [7; WORK_WORDS],
        pool: [7; 200],
        lists: [[7; 40]; 6],
    }
}

fn three(lists: &mut [[u32; 40]]) -> Lists<'_> {
    let [headers, variables, terms] = lists else {
        unreachable!("three lists");
    };
    Lists {
        headers,
        variables,
        terms,
    }
}

#[test]
fn packing() {
    assert_eq!(pack([1, 1, 0, 0, 0]), Ok(PackedVar(1)));
    assert_eq!(unpack(PackedVar(0xffff_fff1)), Ok([1, 1, 255, 15, 65_535]));
    let refused = pack([1, 1, 0, 16, 0]).expect_err("offset 16");
    assert_eq!((refused.number, refused.place), (11, 0));
    let text = "refused by 11, place 0: an offset above 15";
    assert_eq!(refused.to_string(), text);
}

#[test]
fn sheet_and_blocks() {
    let sheet = check_sheet(&SHEET).expect("a sheet");
    assert_eq!((sheet.records, sheet.constraints), (7, 1));
    assert_eq!((sheet.words, sheet.start), (46, 40));
    assert_eq!(max_rotation(&SHEET), Ok(1));
    assert_eq!(num_constraints(&SHEET), Ok(1));
    let mut copy = [7; 50];
    assert_eq!(convert(&SHEET, &mut copy), Ok(46));
    assert_eq!(copy[..46], SHEET);
    assert_eq!(copy[46..], [0; 4]);

    let mut blocks = [7; BLOCK_BYTES];
    assert_eq!(write_blocks(&SHEET, &mut blocks), Ok(BLOCK_BYTES));
    assert_eq!(block_check(&blocks, 1), Ok(true));
    assert_eq!(block_check(&blocks, 2), Ok(false));
    let mut words = [7; BLOCK_WORDS];
    assert_eq!(read_blocks(&blocks, &mut words), Ok(BLOCK_WORDS));
    assert_eq!(words[..46], SHEET);
}

#[test]
fn graph_and_lists() {
    let (mut scratch, mut graph) = ([7; 7], [7; 46]);
    assert_eq!(build(&SHEET, &mut scratch, &mut graph), Ok(46));
    assert_eq!(scratch, [0; 7]);
    // the transition mark is reached first
    assert_eq!(graph[..9], [1, 7, 1, 1, 4, 0, 0, 0, 0]);

    let mut l = lent();
    let lists = three(&mut l.lists[..3]);
    let lengths = expand_constraints(&graph, &mut l.work, &mut l.pool, lists).expect("lists");
    assert_eq!(
        (lengths.headers, lengths.variables, lengths.terms),
        (3 * HEADER_WORDS, 5, 3 * TERM_WORDS)
    );
    assert_eq!(l.lists[1][..5], [0xa, 0x1, 0xa, 0xa, 0x1001]);
    assert_eq!(l.lists[2][..6], [0, MINUS_ONE, 0, MINUS_ONE, 0, 1]);
    assert!(l.work.iter().chain(&l.pool).all(|&word| word == 0));

    let mut l = lent();
    let (numerators, denominators) = l.lists.split_at_mut(3);
    let (numerators, denominators) = (three(numerators), three(denominators));
    let answer = expand_interactions(&graph, &mut l.work, &mut l.pool, numerators, denominators)
        .expect("lists");
    assert_eq!((answer.num_interactions, answer.max_fields_len), (1, 2));
    assert_eq!(l.lists[2][..3], [1, 0, 0]);
    assert_eq!(l.lists[4][..2], [0x1, 0x1001]);
    assert_eq!(l.lists[5][..9], [1, 0, 0, MINUS_ONE, 0, 1, 1, 0, 1]);
}

#[test]
fn refused() {
    let expand = |work: usize, pool: usize, headers: usize| {
        let mut l = lent();
        let mut lists = three(&mut l.lists[..3]);
        lists.headers = &mut lists.headers[..headers];
        let answer = expand_constraints(&SHEET, &mut l.work[..work], &mut l.pool[..pool], lists);
        let refusal = answer.expect_err("refused");
        (refusal.number, refusal.place)
    };
    assert_eq!(expand(4_095, 200, 40), (SCRATCH_TOO_SHORT, 4_096));
    assert_eq!(expand(4_096, 13, 40), (SCRATCH_TOO_SHORT, 14));
    assert_eq!(expand(4_096, 14, 40), (POOL_TOO_SHORT, 5));
    assert_eq!(expand(4_096, 200, 11), (SLICE_TOO_SHORT, 1));
}
