//! Edges of the expansions: sheets at and beside each bound of the walk, and every lent length one short, exact and one long.

use plain::calls::{Family, WORK};
use plain::sheet::{
    ADD, CHALLENGE, CONSTANT, IS_FIRST_ROW, MAIN, MUL, NEG, PREPROCESSED, PUBLIC, SUB, VARIABLE,
};
use plain::{Interaction, Record, Sheet};

use super::Due;
use crate::compare::Case;
use crate::implementation::{Implementation, Plain};
use crate::needs::{needs, outputs, Needs, FAMILIES};
use crate::records::{Records, V};
use crate::rng::Rng;
use crate::sheet_calls::case;
use crate::sheets::random_sheet;

/// A sheet, what is due from each expansion by how it was made, and the row of the table it counts in.
pub struct ListEdge {
    pub row: &'static str,
    pub sheet: Sheet,
    due: [Due; 2],
}

const UNREACHED: &str = "the faulty records of the above, unreached: lists";

/// Each family by what is lent.
const LENT: [[&str; 11]; 2] = [
    [
        "expand_constraints, work 4,095: 14",
        "expand_constraints, work 4,096 and 4,097",
        "expand_constraints, pool 2E - 1: 14",
        "expand_constraints, pool 2E and 2E + 1",
        "expand_constraints, pool one short of a list: 16",
        "expand_constraints, pool that a list just fits",
        "expand_constraints, pool one long",
        "expand_constraints, an output one short or empty: 17",
        "expand_constraints, outputs exact and one long",
        "expand_constraints, two outputs one short: 17, the first",
        "expand_constraints, 8 to 13, any outputs",
    ],
    [
        "expand_interactions, work 4,095: 14",
        "expand_interactions, work 4,096 and 4,097",
        "expand_interactions, pool 2E - 1: 14",
        "expand_interactions, pool 2E and 2E + 1",
        "expand_interactions, pool one short of a list: 16",
        "expand_interactions, pool that a list just fits",
        "expand_interactions, pool one long",
        "expand_interactions, an output one short or empty: 17",
        "expand_interactions, outputs exact and one long",
        "expand_interactions, two outputs one short: 17, the first",
        "expand_interactions, 8 to 13, any outputs",
    ],
];

/// Of the lists of a walk so many are tried with the pool one short, exact and one long: in a short walk all.
const MOST_TOTALS: usize = 80;

/// Random sheets for the lent lengths have no more records.
const MOST_RECORDS: usize = 60;

/// All kinds, in the order of the table.
pub fn kinds() -> Vec<&'static str> {
    let mut rows: Vec<&str> = list_edges().iter().map(|edge| edge.row).collect();
    rows.retain(|&row| row != UNREACHED);
    rows.dedup();
    [&rows[..], &[UNREACHED], &LENT.concat()].concat()
}

/// The last record named as a constraint, as a count and as a field: what is due from the call that reaches it. The other call
/// is due to accept.
fn named(row: &'static str, records: &Records, refusal: Option<u32>) -> [ListEdge; 3] {
    let root = records.last();
    let due = || match refusal {
        None => Due::Accepted,
        Some(number) => Due::Refused(number, root as usize),
    };
    let interaction = |count, message: &[u32]| Interaction {
        count,
        message: message.to_vec(),
        ..Interaction::default()
    };
    let edge = |constraints: &[u32], interactions: Vec<Interaction>, due| ListEdge {
        row,
        sheet: Sheet {
            records: records.0.clone(),
            constraints: constraints.to_vec(),
            interactions,
        },
        due,
    };
    [
        edge(&[0, root], vec![], [due(), Due::Accepted]),
        edge(&[0], vec![interaction(root, &[0])], [Due::Accepted, due()]),
        edge(
            &[],
            vec![interaction(0, &[]), interaction(0, &[0, root])],
            [Due::Accepted, due()],
        ),
    ]
}

/// The edges of the walk.
pub fn list_edges() -> Vec<ListEdge> {
    let mut edges = vec![];
    let mut unreached = vec![];
    let mut say = |row, records: &Records, refusal| {
        edges.extend(named(row, records, refusal));
        if refusal.is_some() {
            unreached.push(records.0.clone());
        }
    };
    let mut leaf = |row, record: Record, refusal| {
        let mut records = Records(vec![V]);
        records.push(record);
        say(row, &records, refusal);
    };

    for entry in [MAIN, PREPROCESSED, PUBLIC] {
        leaf("column 65,535", [VARIABLE, entry, 0, 0, 65_535], None);
    }
    for entry in [MAIN, PREPROCESSED, PUBLIC] {
        leaf("column 65,536: 8", [VARIABLE, entry, 0, 0, 65_536], Some(8));
    }
    leaf("a challenge: 9", [VARIABLE, CHALLENGE, 0, 0, 0], Some(9));
    leaf("part 255", [VARIABLE, MAIN, 255, 15, 65_535], None);
    leaf("part 256: 10", [VARIABLE, MAIN, 256, 0, 0], Some(10));
    for entry in [MAIN, PREPROCESSED] {
        leaf("offset 15", [VARIABLE, entry, 0, 15, 0], None);
    }
    for entry in [MAIN, PREPROCESSED] {
        for offset in [16, 256, u32::MAX] {
            leaf(
                "offset 16 and more: 11",
                [VARIABLE, entry, 0, offset, 0],
                Some(11),
            );
        }
    }
    for (words, number) in [
        ([CHALLENGE, 0, 0, 65_536], 8),
        ([MAIN, 256, 0, 65_536], 8),
        ([MAIN, 256, 16, u32::MAX], 8),
        ([PREPROCESSED, 0, 16, 65_536], 8),
        ([MAIN, 256, 16, 65_535], 10),
        ([MAIN, u32::MAX, u32::MAX, 0], 10),
    ] {
        let [a, b, c, d] = words;
        leaf(
            "several of 8 to 11 at one record: the lowest",
            [VARIABLE, a, b, c, d],
            Some(number),
        );
    }

    let sums = [
        (127, 128, "a sum of 255 and 256 monomials", None),
        (0, 255, "a sum of 255 and 256 monomials", None),
        (128, 128, "a sum of 255 and 256 monomials", None),
        (255, 1, "a sum of 255 and 256 monomials", None),
        (1, 255, "a sum of 255 and 256 monomials", None),
        (256, 0, "a sum of 255 and 256 monomials", None),
        (128, 129, "a sum of 257 monomials: 12", Some(12)),
        (256, 1, "a sum of 257 monomials: 12", Some(12)),
        (1, 256, "a sum of 257 monomials: 12", Some(12)),
    ];
    for (left, right, row, refusal) in sums {
        for kind in [ADD, SUB] {
            let mut records = Records(vec![V]);
            let left = records.list(left, 0);
            let right = records.list(right, 1_000);
            records.join(kind, left, right);
            say(row, &records, refusal);
        }
    }
    // the working list counts, not what is left of it
    for (monomials, refusal) in [(128, None), (129, Some(12))] {
        let mut records = Records(vec![V]);
        let list = records.list(monomials, 0);
        records.join(SUB, list, list);
        let row = match refusal {
            None => "a difference of 128 monomials and the same: nothing",
            Some(_) => "a difference of 129 monomials and the same: 12",
        };
        say(row, &records, refusal);
    }
    // 257 is a prime, and no list is longer than 256
    let products = [
        (15, 17, "a product of 255 and 256 monomials", None),
        (255, 1, "a product of 255 and 256 monomials", None),
        (16, 16, "a product of 255 and 256 monomials", None),
        (256, 1, "a product of 255 and 256 monomials", None),
        (1, 256, "a product of 255 and 256 monomials", None),
        (2, 128, "a product of 255 and 256 monomials", None),
        (0, 256, "a product of 255 and 256 monomials", None),
        (129, 2, "a product of 258 monomials and more: 12", Some(12)),
        (2, 129, "a product of 258 monomials and more: 12", Some(12)),
        (43, 6, "a product of 258 monomials and more: 12", Some(12)),
        (7, 37, "a product of 258 monomials and more: 12", Some(12)),
        (16, 17, "a product of 258 monomials and more: 12", Some(12)),
        (
            256,
            256,
            "a product of 258 monomials and more: 12",
            Some(12),
        ),
    ];
    for (left, right, row, refusal) in products {
        let mut records = Records(vec![V]);
        let left = records.list(left, 0);
        let right = records.list(right, 1_000);
        records.join(MUL, left, right);
        say(row, &records, refusal);
    }
    let factors = [
        (7, 7, "a product of 14 variables", None),
        (13, 1, "a product of 14 variables", None),
        (1, 13, "a product of 14 variables", None),
        (14, 0, "a product of 14 variables", None),
        (0, 14, "a product of 14 variables", None),
        (7, 8, "a product of 15 variables: 13", Some(13)),
        (14, 1, "a product of 15 variables: 13", Some(13)),
        (1, 14, "a product of 15 variables: 13", Some(13)),
        (14, 14, "a product of 15 variables: 13", Some(13)),
    ];
    for (left, right, row, refusal) in factors {
        // alone, and as the longest monomial of a sum
        for longer in [false, true] {
            let mut records = Records(vec![V]);
            let mut factor = |count, column| {
                let product = match count {
                    0 => records.push([CONSTANT, 3, 0, 0, 0]),
                    _ => records.joined(MUL, count, column),
                };
                if !longer {
                    return product;
                }
                let mark = records.push([IS_FIRST_ROW, 0, 0, 0, 0]);
                match count {
                    0 => records.push([NEG, product, 0, 0, 0]),
                    _ => records.join(ADD, mark, product),
                }
            };
            let (left, right) = (factor(left, 3), factor(right, 0));
            records.join(MUL, left, right);
            say(row, &records, refusal);
        }
    }
    let mut records = Records(vec![V]);
    let nothing = records.list(0, 0);
    let product = records.joined(MUL, 14, 0);
    let product = records.join(MUL, product, nothing);
    records.join(MUL, product, product);
    say("14 variables times nothing", &records, None);
    let mut records = Records(vec![V]);
    let product = records.joined(MUL, 14, 0);
    let sum = records.list(129, 100);
    let mark = records.push([IS_FIRST_ROW, 0, 0, 0, 0]);
    let left = records.join(ADD, product, mark);
    records.join(MUL, left, sum);
    say("12 and 13 at one record: 12", &records, Some(12));

    say("a chain of 4,096 records", &Records::negatives(4_096), None);

    edges.extend(out_of_order());
    for records in unreached {
        edges.push(ListEdge {
            row: UNREACHED,
            sheet: Sheet {
                records,
                constraints: vec![0],
                interactions: vec![Interaction {
                    message: vec![0],
                    ..Interaction::default()
                }],
            },
            due: [Due::Accepted, Due::Accepted],
        });
    }
    edges
}

/// Several records that are refused: the one reached first decides.
fn out_of_order() -> Vec<ListEdge> {
    let row = "several refused records: the first one reached";
    let records = vec![
        V,
        [VARIABLE, MAIN, 0, 0, 65_536], // 1: 8
        [VARIABLE, CHALLENGE, 0, 0, 0], // 2: 9
        [VARIABLE, MAIN, 256, 0, 0],    // 3: 10
        [VARIABLE, MAIN, 0, 16, 0],     // 4: 11
        [ADD, 4, 1, 0, 0],              // 5: the left child first
        [MUL, 0, 3, 0, 0],              // 6
        [NEG, 2, 0, 0, 0],              // 7
    ];
    let edge = |constraints: &[u32], interactions: &[(u32, &[u32])], due| {
        let interaction = |&(count, message): &(u32, &[u32])| Interaction {
            count,
            message: message.to_vec(),
            ..Interaction::default()
        };
        ListEdge {
            row,
            sheet: Sheet {
                records: records.clone(),
                constraints: constraints.to_vec(),
                interactions: interactions.iter().map(interaction).collect(),
            },
            due,
        }
    };
    vec![
        edge(&[0, 5, 6, 7], &[], [Due::Refused(11, 4), Due::Accepted]),
        edge(&[6, 5, 7], &[], [Due::Refused(10, 3), Due::Accepted]),
        edge(&[7, 5], &[(0, &[])], [Due::Refused(9, 2), Due::Accepted]),
        // the counts of all interactions, then all fields
        edge(
            &[0],
            &[(0, &[5]), (7, &[6])],
            [Due::Accepted, Due::Refused(9, 2)],
        ),
        edge(
            &[1],
            &[(0, &[0, 6]), (0, &[5, 7])],
            [Due::Refused(8, 1), Due::Refused(10, 3)],
        ),
    ]
}

/// Both expansions of a sheet, lent enough: as plain, and what is due by how the sheet was made.
pub fn compare_list_edge(under_test: &dyn Implementation, edge: &ListEdge) -> Vec<Case> {
    let words = edge.sheet.encode();
    let compared = |(family, due): (Family, &Due)| {
        let needs = needs(family, &edge.sheet);
        let lent = needs.outputs.unwrap_or(vec![3; outputs(family)]);
        let due = match *due {
            Due::Accepted => (0, 0),
            Due::Refused(number, place) => (number, place),
            Due::AsPlain => unreachable!("each is made to give something"),
        };
        let asked = Asked::of(under_test, family, &words);
        asked.compare(edge.row, WORK, needs.pool, &lent, due)
    };
    let both = FAMILIES.into_iter().zip(&edge.due);
    both.map(compared).collect()
}

/// A call of one expansion, with what it is lent left open.
struct Asked<'a> {
    under_test: &'a dyn Implementation,
    family: Family,
    words: &'a [u32],
}

impl<'a> Asked<'a> {
    fn of(under_test: &'a dyn Implementation, family: Family, words: &'a [u32]) -> Self {
        Asked {
            under_test,
            family,
            words,
        }
    }

    /// As plain in every word, and with this number and place.
    fn compare(
        &self,
        row: &'static str,
        work: usize,
        pool: usize,
        lent: &[usize],
        due: (u32, usize),
    ) -> Case {
        let (family, words) = (self.family, self.words);
        let ours = self.under_test.expand(family, words, work, pool, lent);
        let plain = Plain.expand(family, words, work, pool, lent);
        let mut case = case(row, &ours, &plain);
        let said = (ours.reply.number, ours.reply.place as usize);
        if said != due {
            case.difference = Some(format!(
                "work {work}, pool {pool}, outputs {lent:?}: {said:?}, not {due:?}"
            ));
        }
        case
    }
}

/// A random sheet for the lent lengths.
pub fn short_sheet(rng: &mut Rng) -> Sheet {
    loop {
        let (_, sheet) = random_sheet(rng);
        if sheet.records.len() <= MOST_RECORDS {
            return sheet;
        }
    }
}

/// Both expansions of a sheet at every bound of every lent length.
pub fn compare_list_lengths(under_test: &dyn Implementation, sheet: &Sheet) -> Vec<Case> {
    let words = sheet.encode();
    let mut cases = vec![];
    for (family, rows) in FAMILIES.into_iter().zip(LENT) {
        let needs = needs(family, sheet);
        let asked = Asked::of(under_test, family, &words);
        let lent = match &needs.outputs {
            Ok(needed) => needed.clone(),
            Err(_) => vec![2; outputs(family)],
        };
        cases.extend(work_and_pool(
            &asked,
            sheet.records.len(),
            &needs,
            &lent,
            rows,
        ));
        match &needs.outputs {
            Ok(needed) => cases.extend(output_lengths(&asked, needs.pool, needed, rows)),
            Err(refusal) => {
                let due = (refusal.number, refusal.place as usize);
                for output in [0, 1, 300] {
                    let lent = vec![output; outputs(family)];
                    cases.push(asked.compare(rows[10], WORK, needs.pool, &lent, due));
                }
            }
        }
    }
    cases
}

/// Work and pool around what is needed, the pool also around what each list of the walk needs.
fn work_and_pool(
    asked: &Asked,
    records: usize,
    needs: &Needs,
    lent: &[usize],
    rows: [&'static str; 11],
) -> Vec<Case> {
    let least = 2 * records;
    let nothing = vec![0; lent.len()];
    // the walk's answer: the first list that has no room, or what comes of a walk with room for all
    let walked = |pool: usize| match needs.stored.iter().find(|&&(_, total)| total > pool) {
        Some(&(record, _)) => (16, record as usize),
        None => match &needs.outputs {
            Ok(_) => (0, 0),
            Err(refusal) => (refusal.number, refusal.place as usize),
        },
    };
    let enough = walked(needs.pool);
    let short = (14, WORK);
    let mut cases = vec![
        asked.compare(rows[0], WORK - 1, needs.pool, lent, short),
        asked.compare(rows[0], WORK - 1, least.saturating_sub(1), &nothing, short),
        asked.compare(rows[0], 0, 0, &nothing, short),
        asked.compare(rows[1], WORK, needs.pool, lent, enough),
        asked.compare(rows[1], WORK + 1, needs.pool, lent, enough),
        asked.compare(rows[3], WORK, least, lent, walked(least)),
        asked.compare(rows[3], WORK, least + 1, lent, walked(least + 1)),
    ];
    if least > 0 {
        let due = (14, least);
        cases.push(asked.compare(rows[2], WORK, least - 1, lent, due));
        cases.push(asked.compare(rows[2], WORK, 0, &nothing, due));
    }
    let mut totals: Vec<usize> = needs.stored.iter().map(|&(_, total)| total).collect();
    totals.dedup();
    let step = totals.len().div_ceil(MOST_TOTALS).max(1);
    // from the last, which is always among them
    for &total in totals.iter().rev().step_by(step) {
        let due = walked(total - 1);
        // 16 before 17
        cases.push(asked.compare(rows[4], WORK, total - 1, &nothing, due));
        cases.push(asked.compare(rows[5], WORK, total, lent, walked(total)));
        cases.push(asked.compare(rows[6], WORK, total + 1, lent, walked(total + 1)));
    }
    cases
}

/// Each output empty, one short, exact and one long; every two of them one short.
fn output_lengths(
    asked: &Asked,
    pool: usize,
    needed: &[usize],
    rows: [&'static str; 11],
) -> Vec<Case> {
    let mut cases = vec![asked.compare(rows[8], WORK, pool, needed, (0, 0))];
    let with = |changes: &[(usize, usize)]| {
        let mut lent = needed.to_vec();
        for &(output, length) in changes {
            lent[output] = length;
        }
        lent
    };
    let filled: Vec<usize> = (0..needed.len()).filter(|&k| needed[k] > 0).collect();
    for (output, &length) in needed.iter().enumerate() {
        let long = with(&[(output, length + 1)]);
        cases.push(asked.compare(rows[8], WORK, pool, &long, (0, 0)));
    }
    for (n, &first) in filled.iter().enumerate() {
        let due = (17, first + 1);
        let one_short = (first, needed[first] - 1);
        for lent in [with(&[one_short]), with(&[(first, 0)])] {
            cases.push(asked.compare(rows[7], WORK, pool, &lent, due));
        }
        for &second in &filled[n + 1..] {
            let both = with(&[one_short, (second, needed[second] - 1)]);
            cases.push(asked.compare(rows[9], WORK, pool, &both, due));
        }
    }
    cases
}
