//! Compares the plain Rust written from document 01 with the Rust that the document refers to.

use std::io::{self, Read};
use std::process::ExitCode;
use std::thread;

use driver::compare::{compare_sheet, COMPARED, KNOWN, LEFT_OUT};
use driver::examples::{examples, Example};
use driver::implementation::{Implementation, Plain};
use driver::runs::{Run, STACK};
use driver::sheets::SHAPES;
use driver::table::{print_parts, Table};
use driver::{measured, parts, rust, sample, variables};
use plain::calls::WORK;

const USAGE: &str = "usage:
  driver plain-vs-rust [SHEETS] [SEED]   random sheets: the plain Rust written from document 01 against the Rust
  driver examples                        the examples of document 01 and of the known differences, likewise
  driver sheetlist                       what sheetlist prints for standard input, by the plain Rust
  driver sample                          sheets of all shapes with the Rust's graphs and lists, and refusals
  driver measured                        the sheets on which time is measured, and what to lend for them
  driver variables cases                 cases for the program variables, entries and variables around every bound
  driver variables answers               what the Rust answers to them
  driver variables compare PROGRAM [CASES] [SEED]   the program on these and on random cases, against the Rust";

fn main() -> ExitCode {
    let arguments: Vec<String> = std::env::args().skip(1).collect();
    let number = |k: usize, usual: u64| match arguments.get(k) {
        Some(text) => text.parse().ok(),
        None => Some(usual),
    };
    let texts: Vec<&str> = arguments.iter().map(String::as_str).collect();
    let seeds = |k: usize, usual: u64| number(k, usual).zip(number(k + 1, 1));
    type Steps = Box<dyn FnOnce() -> bool + Send>;
    let run: Steps = match (&texts[..], seeds(1, 20_000), seeds(3, 100_000)) {
        (["plain-vs-rust", ..], Some((sheets, seed)), _) => {
            Box::new(move || random_sheets(&Plain, sheets, seed))
        }
        (["examples"], ..) => Box::new(|| all_examples(&Plain)),
        (["sheetlist"], ..) => Box::new(list_input),
        (["sample"], ..) => Box::new(|| print_text(sample::sample())),
        (["measured"], ..) => Box::new(|| print_text(measured::lines())),
        (["variables", "cases"], ..) => {
            Box::new(|| print_text(variables::input(&variables::edges())))
        }
        (["variables", "answers"], ..) => {
            Box::new(|| print_text(variables::answers(&variables::edges())))
        }
        (["variables", "compare", program, ..], _, Some((cases, seed))) => {
            let program = program.to_string();
            Box::new(move || compare_variables(&program, cases, seed))
        }
        _ => {
            eprintln!("{USAGE}");
            return ExitCode::from(2);
        }
    };
    rust::keep_caught_panics_quiet();
    let thread = thread::Builder::new().stack_size(STACK).spawn(run);
    let thread = thread.expect("a thread with a large stack");
    match thread.join().expect("no panic in the driver") {
        true => ExitCode::SUCCESS,
        false => ExitCode::FAILURE,
    }
}

/// Random sheets through an implementation and the Rust; whether no difference is left unexplained.
fn random_sheets(under_test: &dyn Implementation, sheets: u64, first_seed: u64) -> bool {
    let name = under_test.name();
    println!("{name} against the Rust: {sheets} sheets, seeds from {first_seed}");
    let run = parts::against_rust(under_test, (sheets, first_seed));
    let shapes = SHAPES.map(|shape| shape.0);
    run.shapes.print("sheets, largest in records", &shapes);
    print_cases(&run.table)
}

fn print_cases(table: &Table) -> bool {
    table.print("compared", &COMPARED);
    table.print("known differences, each as foretold", &KNOWN);
    table.print("left out", &LEFT_OUT);
    println!("\nunexplained differences: {}", table.differences());
    table.differences() == 0
}

/// The examples: what document 01 says of each, and the comparison with the Rust.
fn all_examples(under_test: &dyn Implementation) -> bool {
    let mut run = Run::new(under_test, compare_sheet);
    let mut as_said = true;
    for example in examples() {
        let said = (example.nodes, example.indices, example.headers);
        let found = found(under_test, &example);
        let rust = match rust::expand_constraints(&example.sheet) {
            Ok([headers, ..]) => format!("{} headers", headers.len() / 4),
            Err(panic) => format!("a panic: {panic}"),
        };
        let name = example.name;
        println!("{name}: nodes, indices, headers or refusal {found:?}; the Rust: {rust}");
        if found != said {
            println!("  but document 01 says {said:?}");
            as_said = false;
        }
        run.sheet(name, &example.sheet, 0);
    }
    print_cases(&run.table) && as_said
}

fn found(under_test: &dyn Implementation, example: &Example) -> (usize, usize, Result<usize, u32>) {
    let (sheet, words) = (&example.sheet, example.sheet.encode());
    let built = under_test.builder(&words, sheet.records.len(), words.len());
    let expanded = under_test.expand_constraints(&words, WORK, 100_000, [10_000; 3]);
    let headers = match expanded.refusal() {
        None => Ok(expanded.reply.counts[0] as usize / 4),
        Some(refusal) => Err(refusal.number),
    };
    let graph = built.written(0);
    (graph[1] as usize, graph[2] as usize, headers)
}

/// The program `variables` around every bound and on random cases; whether no difference is left unexplained and each kind has a
/// case.
fn compare_variables(program: &str, count: u64, seed: u64) -> bool {
    let cases = [variables::edges(), variables::cases(count, seed)].concat();
    let part = variables::compare(program, &cases);
    let (differences, empty) = (part.table.differences(), part.empty().count());
    print_parts(&[part]);
    println!("\nunexplained differences: {differences}; kinds without a case: {empty}");
    differences == 0 && empty == 0
}

fn print_text(text: String) -> bool {
    print!("{text}");
    true
}

fn list_input() -> bool {
    let mut bytes = vec![];
    let mut input = io::stdin().take(4_097); // one more than sheetlist takes
    input.read_to_end(&mut bytes).expect("readable input");
    print!("{}", plain::sheetlist::sheetlist(&bytes));
    true
}
