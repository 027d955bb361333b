//! Compares the rewrite, through its C entry points, with the plain Rust written from document 01 and with the Rust that the
//! document refers to; measures its stack, and its time against the Rust's.

use std::process::ExitCode;
use std::thread;

use driver::compare::LEFT_OUT;
use driver::implementation::{Implementation, Plain};
use driver::parts::{against_rust_part, at_edges, calls, expansions, graphs, operations, single};
use driver::rattle::Rattle;
use driver::runs::STACK;
use driver::table::{print_parts, Part};
use driver::{bench, rust, stack};

const USAGE: &str = "usage:
  driver-rattle [SHEETS] [SEED]         every comparison below and plain against the Rust, in one table; 200,000 sheets from seed 1
                                        unless said otherwise, here and below
  driver-rattle single [SHEETS] [SEED]  packing, unpacking and the block check: the edges, and for each seed ten random records,
                                        ten numbers, and a block in ten states
  driver-rattle operations [SHEETS] [SEED]  sums, differences, products and negatives of values, at bounds and random: folded constants
                                        and coefficients, 48 in each sheet
  driver-rattle calls [SHEETS] [SEED]   the sheet calls, the builder and the expansions: eleven inputs of each sheet, good and broken
  driver-rattle edges                   the same calls at each bound
  driver-rattle graphs [SHEETS] [SEED]  the builder's graphs against the Rust's
  driver-rattle lists [SHEETS] [SEED]   both expansions of sheets and of their graphs, against the Rust and plain
  driver-rattle stack                   the least stack in which the builder and the expansions pass a chain of 4,096 records
  driver-rattle bench                   the time of the builder and of the expansions over the Rust's, and of large expansions";

fn main() -> ExitCode {
    let arguments: Vec<String> = std::env::args().skip(1).collect();
    let arguments: Vec<&str> = arguments.iter().map(String::as_str).collect();
    let named = arguments
        .first()
        .filter(|text| text.parse::<u64>().is_err());
    let numbers = arguments[usize::from(named.is_some())..].iter();
    let numbers: Option<Vec<u64>> = numbers.map(|text| text.parse().ok()).collect();
    let Some(numbers) = numbers else {
        return usage();
    };
    let sheets = numbers.first().copied().unwrap_or(200_000);
    let seeds = (sheets, numbers.get(1).copied().unwrap_or(1));
    let over_sheets = numbers.len() <= 2;
    let run: Box<dyn FnOnce() -> bool + Send> = match (named.copied(), &numbers[..]) {
        (None, _) if over_sheets => Box::new(move || {
            print_all(vec![
                against_rust_part(&Plain, seeds),
                single(&Rattle, seeds),
                operations(&Rattle, seeds),
                calls(&Rattle, seeds),
                at_edges(&Rattle),
                graphs(&Rattle, seeds),
                expansions(&Rattle, seeds),
            ])
        }),
        (Some("single"), _) if over_sheets => {
            Box::new(move || print_all(vec![single(&Rattle, seeds)]))
        }
        (Some("operations"), _) if over_sheets => {
            Box::new(move || print_all(vec![operations(&Rattle, seeds)]))
        }
        (Some("calls"), _) if over_sheets => {
            Box::new(move || print_all(vec![calls(&Rattle, seeds)]))
        }
        (Some("edges"), []) => Box::new(|| print_all(vec![at_edges(&Rattle)])),
        (Some("graphs"), _) if over_sheets => {
            Box::new(move || print_all(vec![graphs(&Rattle, seeds)]))
        }
        (Some("lists"), _) if over_sheets => {
            Box::new(move || print_all(vec![expansions(&Rattle, seeds)]))
        }
        (Some("stack"), []) => Box::new(|| {
            stack::measure();
            true
        }),
        (Some("stack-attempt"), &[call, chain, records, kib]) => Box::new(move || {
            let [call, chain, kib] = [call, chain, kib].map(|n| n as usize);
            stack::attempt(call, chain, records as u32, kib)
        }),
        (Some("bench"), []) => Box::new(|| {
            bench::bench();
            true
        }),
        _ => return usage(),
    };
    rust::keep_caught_panics_quiet();
    let thread = thread::Builder::new().stack_size(STACK).spawn(run);
    let thread = thread.expect("a thread with a large stack");
    match thread.join().expect("no panic in the driver") {
        true => ExitCode::SUCCESS,
        false => ExitCode::FAILURE,
    }
}

fn usage() -> ExitCode {
    eprintln!("{USAGE}");
    ExitCode::from(2)
}

/// The table; whether there is no difference and no row without a case. Nothing need be left out.
fn print_all(parts: Vec<Part>) -> bool {
    println!("{} against plain and the Rust", Rattle.name());
    print_parts(&parts);
    let empty = parts.iter().flat_map(Part::empty);
    let empty: Vec<&str> = empty.filter(|kind| !LEFT_OUT.contains(kind)).collect();
    for kind in &empty {
        println!("no case of: {kind}");
    }
    let differences: u64 = parts.iter().map(|part| part.table.differences()).sum();
    println!("\nunexplained differences: {differences}");
    differences == 0 && empty.is_empty()
}
