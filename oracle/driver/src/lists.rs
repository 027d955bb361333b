//! Both expansions of a sheet and of its graph: against the Rust, and against the plain Rust, reply and every word of what is lent.

use plain::calls::{Family, WORK};
use plain::Sheet;

use crate::compare::{compare_expansions, decoded, with_spare, Case, EXPANSIONS, KNOWN, LEFT_OUT};
use crate::implementation::{Implementation, Plain};
use crate::needs::{needs, outputs, FAMILIES};
use crate::sheet_calls::case;

const GRAPH: &str = "the graph to expand";

/// An expansion against plain: lists lent exactly what they need, lists lent more, refused by 8 to 13.
type Rows = [&'static str; 3];

/// Of each family, of the sheet and of its graph.
const AGAINST_PLAIN: [[Rows; 2]; 2] = [
    [
        [
            "constraint expansion of the sheet, as plain: lent exactly",
            "constraint expansion of the sheet, as plain: lent more",
            "constraint expansion of the sheet, as plain: 8 to 13",
        ],
        [
            "constraint expansion of the graph, as plain: lent exactly",
            "constraint expansion of the graph, as plain: lent more",
            "constraint expansion of the graph, as plain: 8 to 13",
        ],
    ],
    [
        [
            "interaction expansion of the sheet, as plain: lent exactly",
            "interaction expansion of the sheet, as plain: lent more",
            "interaction expansion of the sheet, as plain: 8 to 13",
        ],
        [
            "interaction expansion of the graph, as plain: lent exactly",
            "interaction expansion of the graph, as plain: lent more",
            "interaction expansion of the graph, as plain: 8 to 13",
        ],
    ],
];

/// All kinds, in the order of the table.
pub fn kinds() -> Vec<&'static str> {
    let against_plain = AGAINST_PLAIN.concat().concat();
    let against_rust = [&EXPANSIONS[..], &KNOWN, &LEFT_OUT].concat();
    [vec![GRAPH], against_rust, against_plain].concat()
}

/// The sheet as it is and its graph as the implementation under test builds it.
pub fn compare_lists(under_test: &dyn Implementation, sheet: &Sheet, spare: usize) -> Vec<Case> {
    let words = with_spare(sheet, spare);
    let built = under_test.builder(&words, sheet.records.len(), sheet.length());
    let graph = decoded(&built);
    let mut cases = vec![Case {
        kind: GRAPH,
        difference: graph.as_ref().err().map(|refusal| format!("{refusal:?}")),
        size: 1,
    }];
    if let Ok(graph) = graph {
        cases.extend(compare_expansions(under_test, sheet, &graph));
        for (k, family) in FAMILIES.into_iter().enumerate() {
            let [of_sheet, of_graph] = AGAINST_PLAIN[k];
            cases.extend(against_plain(under_test, family, sheet, &words, of_sheet));
            let words = graph.encode();
            cases.extend(against_plain(under_test, family, &graph, &words, of_graph));
        }
    }
    cases
}

/// One expansion lent what it needs, and lent more; where it is refused, lent some.
fn against_plain(
    under_test: &dyn Implementation,
    family: Family,
    sheet: &Sheet,
    words: &[u32],
    rows: Rows,
) -> Vec<Case> {
    let compared = |kind, work, pool, lent: &[usize]| {
        let ours = under_test.expand(family, words, work, pool, lent);
        let due = Plain.expand(family, words, work, pool, lent);
        case(kind, &ours, &due)
    };
    let needs = needs(family, sheet);
    match needs.outputs {
        Ok(exactly) => {
            let further = exactly.iter().zip([1, 3, 130, 2, 40, 1]);
            let more: Vec<usize> = further.map(|(needed, more)| needed + more).collect();
            vec![
                compared(rows[0], WORK, needs.pool, &exactly),
                compared(rows[1], WORK + 1, needs.pool + 130, &more),
            ]
        }
        Err(_) => {
            let some = &[5, 0, 3, 1, 0, 8][..outputs(family)];
            vec![compared(rows[2], WORK, needs.pool, some)]
        }
    }
}
