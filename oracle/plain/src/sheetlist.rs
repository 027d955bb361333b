//! The program `sheetlist`: from the bytes read to the text printed.

use std::fmt::Write;

use crate::block::BLOCK_WORDS;
use crate::calls::{builder, expand_constraints, expand_interactions, max_rotation, reader, WORK};
use crate::field::P;
use crate::reply::{refuse, Answer, Outcome, Refusal};

/// "reads at most 4,096 bytes from standard input (more: 1), with a pool of 4,096 words, constraint outputs of 1,024 words
/// each, interaction outputs of 512 each"
const MOST_BYTES: usize = 4_096;
const POOL: usize = 4_096;
const CONSTRAINT_OUTPUT: usize = 1_024;
const INTERACTION_OUTPUT: usize = 512;

/// The words of 4,096 bytes of blocks, which scratch and output of the builder can be no longer than.
const WORDS: usize = MOST_BYTES / 512 * BLOCK_WORDS;

/// "It builds the graph, then expands the graph." What was printed before a refusal stays.
pub fn sheetlist(bytes: &[u8]) -> String {
    let mut text = String::new();
    if let Err((step, Refusal { number, place })) = list(bytes, &mut text) {
        line(&mut text, format_args!("refused {step} {number} {place}"));
    }
    text
}

fn line(text: &mut String, words: std::fmt::Arguments) {
    writeln!(text, "{words}").expect("a string takes all");
}

/// An accepted call, or its refusal with the step's name.
fn step(name: &'static str, outcome: Outcome) -> Result<Outcome, (&'static str, Refusal)> {
    match outcome.refusal() {
        Some(refusal) => Err((name, refusal)),
        None => Ok(outcome),
    }
}

fn list(bytes: &[u8], text: &mut String) -> Result<(), (&'static str, Refusal)> {
    check_length(bytes).map_err(|refusal| ("read", refusal))?;
    let read = step("read", reader(bytes, WORDS))?;
    let built = step("dag", builder(read.written(0), WORDS, WORDS))?;
    let graph = built.written(0);
    let rotation = max_rotation(graph).reply.numbers[0];
    line(
        text,
        format_args!("dag {} {} {rotation}", graph[1], graph[2]),
    );

    let lent = [CONSTRAINT_OUTPUT; 3];
    let expanded = step("cons", expand_constraints(graph, WORK, POOL, lent))?;
    headers(
        text,
        'm',
        &expanded,
        0,
        |term| format!("t {} {}", term[0], signed(term[1])),
        2,
    );

    let lent = [INTERACTION_OUTPUT; 6];
    let expanded = step("inter", expand_interactions(graph, WORK, POOL, lent))?;
    headers(
        text,
        'n',
        &expanded,
        0,
        |term| format!("u {} {}", term[1], signed(term[0])),
        3,
    );
    headers(
        text,
        'd',
        &expanded,
        3,
        |term| format!("w {} {} {}", term[1], term[2], signed(term[0])),
        3,
    );
    line(text, format_args!("end"));
    Ok(())
}

fn check_length(bytes: &[u8]) -> Answer<()> {
    if bytes.len() > MOST_BYTES {
        return refuse(1, 0);
    }
    Ok(())
}

/// The headers in the outputs from `first` on, each with its variables in hex and its terms.
fn headers(
    text: &mut String,
    letter: char,
    expanded: &Outcome,
    first: usize,
    term_line: fn(&[u32]) -> String,
    width: usize,
) {
    let [headers, variables, terms] = [0, 1, 2].map(|k| expanded.written(first + k));
    for header in headers.chunks_exact(4) {
        let [variable_offset, term_offset, vars, count] = [0, 1, 2, 3].map(|k| header[k] as usize);
        let vars = &variables[variable_offset..][..vars];
        let hex: String = vars.iter().map(|v| format!(" {v:08x}")).collect();
        line(text, format_args!("{letter}{hex}"));
        for term in terms[width * term_offset..][..width * count].chunks_exact(width) {
            line(text, format_args!("{}", term_line(term)));
        }
    }
}

/// "A coefficient up to 1006632960 prints as itself, above that less p, so it may be negative."
pub fn signed(coefficient: u32) -> i64 {
    let c = i64::from(coefficient);
    if c <= 1_006_632_960 {
        c
    } else {
        c - i64::from(P)
    }
}
