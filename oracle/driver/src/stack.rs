//! How much stack the rewrite's recursive calls take on a chain, and on a list as long as can be: threads with less and less of it, each in a process of its own, for
//! one that runs out of stack ends the process.

use std::env;
use std::process::{Command, Stdio};
use std::thread;

use plain::calls::Family;
use plain::sheet::{ADD, CONSTANT, MUL, NEG};
use plain::{Interaction, Record, Sheet};

use crate::rattle::Ready;
use crate::records::{Records, V};

/// Stack is lent in pages of so many KiB; the least that a thread has, and the most that is tried.
const PAGE: usize = 4;
const LEAST: usize = 16;
const MOST: usize = 64 << 10;

const ONE: Record = [CONSTANT, 1, 0, 0, 0];

/// Each record of a chain, from the one before.
type Next = fn(u32) -> Record;

/// Chains by the first record and what each further one is.
const CHAINS: [(&str, Record, Next); 4] = [
    ("negatives", V, |before| [NEG, before, 0, 1, 0]),
    ("sums, the chain left", V, |before| [ADD, before, 0, 1, 0]),
    ("sums, the chain right", V, |before| [ADD, 0, before, 1, 0]),
    ("products", ONE, |before| [MUL, before, 0, 1, 0]),
];

/// What is called; its name, and where the last record of the chain stands in the sheet.
type Called = (&'static str, fn(u32) -> Sheet, fn(&Sheet) -> Ready);

const CALLS: [Called; 4] = [
    ("suhkelva_build", as_constraint, Ready::build),
    ("suhkelva_expand_constraints", as_constraint, |sheet| {
        Ready::expand(Family::Constraints, sheet)
    }),
    ("suhkelva_expand_interactions, a count", as_count, |sheet| {
        Ready::expand(Family::Interactions, sheet)
    }),
    ("suhkelva_expand_interactions, a field", as_field, |sheet| {
        Ready::expand(Family::Interactions, sheet)
    }),
];

fn as_constraint(last: u32) -> Sheet {
    Sheet {
        constraints: vec![last],
        ..Sheet::default()
    }
}

fn as_count(last: u32) -> Sheet {
    named(last, vec![])
}

fn as_field(last: u32) -> Sheet {
    named(0, vec![last])
}

fn named(count: u32, message: Vec<u32>) -> Sheet {
    let interaction = Interaction {
        count,
        message,
        ..Interaction::default()
    };
    Sheet {
        interactions: vec![interaction],
        ..Sheet::default()
    }
}

/// Behind the chains: a record with as many monomials as it can have.
const WIDE: usize = CHAINS.len();
const MONOMIALS: u32 = 256;

/// A chain of so many records, or the records of the longest list.
fn shape(chain: usize, count: u32) -> Records {
    let mut records = Records::default();
    match CHAINS.get(chain) {
        Some(&(_, first, next)) => {
            records.push(first);
            (1..count).for_each(|k| _ = records.push(next(k - 1)));
        }
        None => _ = records.list(MONOMIALS, 0),
    }
    records
}

/// The child's part: one call on one chain in a thread with so much stack; whether it was accepted.
pub fn attempt(call: usize, chain: usize, count: u32, kib: usize) -> bool {
    let (_, names, ready) = CALLS[call];
    let records = shape(chain, count);
    let sheet = Sheet {
        records: records.0.clone(),
        ..names(records.last())
    };
    let mut ready = ready(&sheet);
    let run = move || ready.call();
    let thread = thread::Builder::new().stack_size(kib << 10).spawn(run);
    thread.expect("a thread").join().expect("no panic")
}

/// Whether a process of its own gets through with so much stack.
fn passes(call: usize, chain: usize, records: u32, kib: usize) -> bool {
    let program = env::current_exe().expect("the program's own name");
    let mut child = Command::new(program);
    child.arg("stack-attempt");
    child.args([call, chain, records as usize, kib].map(|n| n.to_string()));
    let quiet = child.stdout(Stdio::null()).stderr(Stdio::null());
    quiet.status().expect("a process").success()
}

/// The least stack that passes, in KiB.
fn least(call: usize, chain: usize, records: u32) -> usize {
    let (mut low, mut high) = (LEAST / PAGE, MOST / PAGE);
    let enough = passes(call, chain, records, MOST);
    assert!(enough, "{MOST} KiB are not enough");
    while low < high {
        let middle = (low + high) / 2;
        if passes(call, chain, records, middle * PAGE) {
            high = middle;
        } else {
            low = middle + 1;
        }
    }
    low * PAGE
}

/// The table, for chains of 1, 2,048 and 4,096 records, and for the longest list.
pub fn measure() {
    println!("least stack of a thread in which a call passes, in KiB (steps of {PAGE}, at least {LEAST})");
    for (call, (name, ..)) in CALLS.iter().enumerate() {
        print!("\n{name:<38} {:>9} {:>9} {:>9}", 1, 2_048, 4_096);
        println!(" {:>16}", "bytes per level");
        for (chain, (name, ..)) in CHAINS.iter().enumerate() {
            let found = [1, 2_048, 4_096].map(|records| least(call, chain, records));
            let [one, half, all] = found;
            let level = ((all - half) << 10) as f64 / 2_048.0;
            println!("{name:<38} {one:>9} {half:>9} {all:>9} {level:>16.0}");
        }
        println!("a list of {MONOMIALS} monomials: {}", least(call, WIDE, 0));
    }
}
