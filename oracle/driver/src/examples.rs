//! The checked examples of document 01, and the smallest sheets of each known difference.

use plain::field::P;
use plain::sheet::{
    ADD, CHALLENGE, CONSTANT, IS_TRANSITION, MAIN, MUL, NEG, PUBLIC, SUB, VARIABLE,
};
use plain::{Interaction, Record, Sheet};

use crate::records::{Records, V, W};

/// What document 01 says of a sheet's graph, and of the expansion of its constraints as they are given.
pub struct Example {
    pub name: &'static str,
    pub sheet: Sheet,
    pub nodes: usize,
    pub indices: usize,
    /// The number of headers, or the refusal's number.
    pub headers: Result<usize, u32>,
}

const ZERO: Record = [CONSTANT, 0, 0, 0, 0];
const NEG_W: Record = [NEG, 1, 0, 1, 0];

fn factors(count: u32) -> Vec<Record> {
    let mut records = Records::default();
    records.joined(MUL, count, 0);
    records.0
}

fn product_of_sums(left: u32, right: u32) -> Vec<Record> {
    let mut records = Records::default();
    let left = records.joined(ADD, left, 0);
    let right = records.joined(ADD, right, 100);
    records.join(MUL, left, right);
    records.0
}

/// The variable again and again times itself, its 16th power last.
fn sixteenth_power() -> Vec<Record> {
    let square = |k: u32| [MUL, k, k, 0, 0];
    vec![V, square(0), square(1), square(2), square(3)]
}

/// 1 + v + w, its square, fourth and eighth power, and the product of the last two.
fn twelfth_power() -> Vec<Record> {
    let one = [CONSTANT, 1, 0, 0, 0];
    vec![
        V,
        W,
        one,
        [ADD, 0, 1, 0, 0],
        [ADD, 2, 3, 0, 0],
        [MUL, 4, 4, 0, 0],
        [MUL, 5, 5, 0, 0],
        [MUL, 6, 6, 0, 0],
        [MUL, 6, 7, 0, 0],
    ]
}

pub fn examples() -> Vec<Example> {
    let mut list = vec![];
    let mut say = |name, records: &[Record], constraints: &[u32], nodes, indices, headers| {
        list.push(Example {
            name,
            sheet: Sheet {
                records: records.to_vec(),
                constraints: constraints.to_vec(),
                interactions: vec![],
            },
            nodes,
            indices,
            headers,
        })
    };
    let sum = |degree| [ADD, 0, 1, degree, 0];
    let neg = |child| [NEG, child, 0, 1, 0];
    let minus_one = [CONSTANT, P - 1, 0, 0, 0];
    let only = |record: Record| vec![record];

    say(
        "v + (−w)",
        &[V, W, NEG_W, [ADD, 0, 2, 1, 0]],
        &[3],
        4,
        1,
        Ok(2),
    );
    say("−(−v)", &[V, neg(0), neg(1)], &[2], 3, 1, Ok(1));
    say("0 − v", &[ZERO, V, [SUB, 0, 1, 1, 0]], &[2], 3, 1, Ok(1));
    say(
        "0 − (−v)",
        &[ZERO, V, neg(1), [SUB, 0, 2, 1, 0]],
        &[3],
        4,
        1,
        Ok(1),
    );
    say("v·0", &[V, ZERO, [MUL, 0, 1, 1, 0]], &[2], 2, 1, Ok(0));
    say("constraint 0", &[ZERO], &[0], 1, 1, Ok(0));
    say(
        "v + w with degree words 1 and 2",
        &[V, W, sum(1), sum(2)],
        &[2, 3],
        4,
        2,
        Ok(2),
    );
    say(
        "the same Add twice",
        &[V, W, sum(1), sum(1)],
        &[2, 3],
        3,
        1,
        Ok(2),
    );
    say(
        "(p − 1)·(p − 1)",
        &[minus_one, minus_one, [MUL, 0, 1, 0, 0]],
        &[2],
        2,
        1,
        Ok(1),
    );
    let squares = [V, W, sum(1), [SUB, 0, 1, 1, 0], [MUL, 2, 3, 2, 0]];
    say("(v + w)·(v − w)", &squares, &[4], 5, 1, Ok(2));
    let twice = [V, W, NEG_W, neg(2), [ADD, 0, 3, 1, 0]];
    say("v + (−(−w))", &twice, &[4], 5, 1, Ok(2));
    let graph = [V, W, NEG_W, [SUB, 0, 2, 1, 0]];
    say("v + (−(−w)), from its graph", &graph, &[3], 4, 1, Ok(2));
    say("14 factors", &factors(14), &[26], 27, 1, Ok(1));
    say("15 factors", &factors(15), &[28], 29, 1, Err(13));
    say(
        "16 times 16",
        &product_of_sums(16, 16),
        &[62],
        63,
        1,
        Ok(256),
    );
    say(
        "16 times 17",
        &product_of_sums(16, 17),
        &[64],
        65,
        1,
        Err(12),
    );

    say(
        "a public variable",
        &only([VARIABLE, PUBLIC, 0, 0, 3]),
        &[0],
        1,
        1,
        Ok(1),
    );
    say(
        "column 65,536",
        &only([VARIABLE, MAIN, 0, 0, 65_536]),
        &[0],
        1,
        1,
        Err(8),
    );
    say(
        "a challenge",
        &only([VARIABLE, CHALLENGE, 0, 0, 0]),
        &[0],
        1,
        1,
        Err(9),
    );
    say(
        "part 256",
        &only([VARIABLE, MAIN, 256, 0, 0]),
        &[0],
        1,
        1,
        Err(10),
    );
    say(
        "offset 16",
        &only([VARIABLE, MAIN, 0, 16, 0]),
        &[0],
        1,
        1,
        Err(11),
    );
    say(
        "offset 256",
        &only([VARIABLE, MAIN, 0, 256, 0]),
        &[0],
        1,
        1,
        Err(11),
    );
    say(
        "(1 + v + w)^4·(1 + v + w)^8",
        &twelfth_power(),
        &[8],
        9,
        1,
        Err(12),
    );
    say("v^16", &sixteenth_power(), &[4], 5, 1, Err(13));
    list.push(listed());
    list
}

/// The sheet whose listing by `sheetlist` document 01 gives.
fn listed() -> Example {
    let records = vec![
        [VARIABLE, MAIN, 0, 1, 0],
        V,
        [SUB, 0, 1, 1, 0],
        [CONSTANT, 1, 0, 0, 0],
        [SUB, 2, 3, 1, 0],
        [IS_TRANSITION, 0, 0, 0, 0],
        [MUL, 5, 4, 2, 0],
    ];
    let interaction = Interaction {
        bus: 7,
        weight: 1,
        count: 3,
        message: vec![1, 2],
    };
    Example {
        name: "the sheet listed by sheetlist",
        sheet: Sheet {
            records,
            constraints: vec![6],
            interactions: vec![interaction],
        },
        nodes: 7,
        indices: 1,
        headers: Ok(3),
    }
}
