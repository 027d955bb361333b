//! The rewrite's builder and expansions against the Rust's, timed in one thread. Only the time that the thread ran is counted: the
//! machine may do other work.

use std::hint::black_box;
use std::time::Duration;

use openvm_cuda_backend::monomial::{ExpandedInteractionMonomials, ExpandedMonomials};
use openvm_stark_backend::air_builders::symbolic::SymbolicConstraintsDag;
use plain::calls::Family;
use plain::Sheet;

use crate::measured::{as_fields, multiples, products_of_sums, realistic, EXPANDED, SHEETS, SIZES};
use crate::needs::{needs, FAMILIES};
use crate::rattle::Ready;
use crate::rng::Rng;
use crate::rust;
use crate::sheets::{Sized, SIZED};

/// How often a sheet is timed at least and at most, how long one timing takes at least, and after how long in all it is not timed
/// more often.
const TIMINGS: (usize, usize) = (3, 15);
const LONG_ENOUGH: Duration = Duration::from_micros(500);
const IN_ALL: Duration = Duration::from_millis(300);

/// Records, constraints and interactions of realistic sheets.
const REALISTIC: [(usize, usize, usize); 3] = [
    (1_000, 300, 100),
    (4_096, 1_024, 409),
    (4_096, 1_024, 1_024),
];

/// Grouping is timed on products with so many headers each, and not with more products once it took so long.
const HEADERS: usize = 256;
const TOO_LONG: Duration = Duration::from_secs(20);

/// Linux's clock of the time that the calling thread ran.
const THREAD_TIME: i32 = 3;

#[repr(C)]
struct Time {
    seconds: i64,
    nanoseconds: i64,
}

extern "C" {
    fn clock_gettime(clock: i32, time: *mut Time) -> i32;
}

fn thread_time() -> Duration {
    let mut time = Time {
        seconds: 0,
        nanoseconds: 0,
    };
    let failed = unsafe { clock_gettime(THREAD_TIME, &mut time) };
    assert_eq!(failed, 0, "no clock of the thread's time");
    Duration::new(time.seconds as u64, time.nanoseconds as u32)
}

/// All tables.
pub fn bench() {
    let text = "suhkelva_build over the Rust's builder";
    ratios(text, &SIZED, Ready::build, |sheet| {
        // The tree stands before the time starts. The call consumes its constraints, so each run has a copy of them, which shares
        // what is below.
        let tree = rust::symbolic_constraints(sheet);
        timed(move || tree.clone(), SymbolicConstraintsDag::from)
    });
    let text = "suhkelva_expand_constraints over ExpandedMonomials::from_dag";
    ratios(text, &EXPANDED, expand_constraints, rust_constraints);
    let text =
        "suhkelva_expand_interactions over ExpandedInteractionMonomials::from_symbolic_constraints";
    ratios(text, &EXPANDED, expand_interactions, rust_interactions);
    realistic_sheets();
    grouping();
}

fn expand_constraints(sheet: &Sheet) -> Ready {
    Ready::expand(Family::Constraints, sheet)
}

fn rust_constraints(sheet: &Sheet) -> Timed {
    let dag = rust::expression_dag(sheet);
    timed(|| (), move |()| ExpandedMonomials::from_dag(&dag))
}

fn expand_interactions(sheet: &Sheet) -> Ready {
    Ready::expand(Family::Interactions, sheet)
}

fn rust_interactions(sheet: &Sheet) -> Timed {
    let tree = rust::symbolic_constraints(sheet);
    let expand = move |()| ExpandedInteractionMonomials::from_symbolic_constraints(&tree);
    timed(|| (), expand)
}

/// The time of so many runs.
type Timed = Box<dyn FnMut(usize) -> Duration>;

/// What goes in stands before the time starts, and what comes out is dropped after it ends.
fn timed<A, B>(input: impl Fn() -> A + 'static, call: impl Fn(A) -> B + 'static) -> Timed {
    Box::new(move |runs| {
        let inputs: Vec<A> = (0..runs).map(|_| input()).collect();
        let mut outputs = Vec::with_capacity(runs);
        let start = thread_time();
        for input in inputs {
            outputs.push(call(black_box(input)));
        }
        let time = thread_time() - start;
        black_box(&outputs);
        time
    })
}

fn timed_rattle(mut ready: Ready) -> Timed {
    Box::new(move |runs| {
        let start = thread_time();
        for _ in 0..runs {
            assert!(ready.call(), "an accepted sheet");
        }
        thread_time() - start
    })
}

/// A table: medians of the ratios, the rewrite's time over the Rust's.
fn ratios(
    title: &str,
    shapes: &[Sized],
    ours: impl Fn(&Sheet) -> Ready,
    of_rust: impl Fn(&Sheet) -> Timed,
) {
    println!("\n{title}: median ratio of {SHEETS} sheets, and the smallest and largest\n");
    print!("{:<24}", "shape");
    SIZES.iter().for_each(|size| print!(" {size:>20}"));
    println!();
    for (name, make) in shapes {
        print!("{name:<24}");
        for size in SIZES {
            let ratio = |seed| {
                let sheet = make(&mut Rng::new(seed), size);
                let (ours, rust) = both(timed_rattle(ours(&sheet)), of_rust(&sheet));
                ours / rust
            };
            let mut ratios: Vec<f64> = (1..=SHEETS).map(ratio).collect();
            let median = median(&mut ratios);
            let (least, most) = (ratios[0], ratios[ratios.len() - 1]);
            let text = format!("{median:.2} ({least:.2}-{most:.2})");
            print!(" {text:>20}");
        }
        println!();
    }
}

fn median(values: &mut [f64]) -> f64 {
    values.sort_by(f64::total_cmp);
    values[values.len() / 2]
}

/// The medians of two, timed in turn, in seconds.
fn both(mut ours: Timed, mut of_rust: Timed) -> (f64, f64) {
    let (our_runs, rust_runs) = (enough(&mut ours), enough(&mut of_rust));
    let (mut mine, mut theirs) = (vec![], vec![]);
    let start = thread_time();
    let (least, most) = TIMINGS;
    while mine.len() < least || (mine.len() < most && thread_time() - start < IN_ALL) {
        mine.push(ours(our_runs).as_secs_f64() / our_runs as f64);
        theirs.push(of_rust(rust_runs).as_secs_f64() / rust_runs as f64);
    }
    (median(&mut mine), median(&mut theirs))
}

/// How many runs take long enough to be timed.
fn enough(time: &mut Timed) -> usize {
    let mut runs = 1;
    while time(runs) < LONG_ENOUGH {
        runs *= 2;
    }
    runs
}

/// Milliseconds of each call on realistic sheets, a common one and as large as sheets can be, and the headers of each expansion.
fn realistic_sheets() {
    println!("\nrealistic sheets, milliseconds of each call\n");
    let heads = ["records", "constraints", "interactions", "build"];
    heads.iter().for_each(|head| print!("{head:>14}"));
    for head in ["expand_constraints", "expand_interactions"] {
        print!("{head:>21}{:>10}", "headers");
    }
    println!();
    for (records, constraints, interactions) in REALISTIC {
        let sheet = realistic(&mut Rng::new(1), records, constraints, interactions);
        let counts = [
            sheet.records.len(),
            sheet.constraints.len(),
            sheet.interactions.len(),
        ];
        counts.iter().for_each(|count| print!("{count:>14}"));
        let ready = [
            Ready::build(&sheet),
            expand_constraints(&sheet),
            expand_interactions(&sheet),
        ];
        let [build, constraints, interactions] = ready.map(|ready| {
            let mut call = timed_rattle(ready);
            let runs = enough(&mut call);
            let times = (0..TIMINGS.1).map(|_| call(runs).as_secs_f64() / runs as f64);
            1e3 * median(&mut times.collect::<Vec<f64>>())
        });
        print!("{build:>14.3}");
        for (time, family) in [constraints, interactions].into_iter().zip(FAMILIES) {
            let outputs = needs(family, &sheet).outputs.expect("lists");
            let headers: usize = outputs.iter().step_by(3).map(|words| words / 4).sum();
            print!("{time:>21.3}{headers:>10}");
        }
        println!();
    }
}

/// The time of an expansion where every monomial of every root has a header of its own.
fn grouping() {
    let text = "expand_constraints, every monomial of every constraint";
    let sheets = [1, 2, 4, 8, 11, 16, 23, 32].map(sums);
    grouped(text, &sheets, |sheet| {
        (expand_constraints(sheet), rust_constraints(sheet))
    });
    let text = "expand_interactions, every monomial of every field";
    let mut sheets = [1, 2, 4, 8, 16, 32, 40].map(sums).to_vec();
    sheets.push([false, true].map(|backward| multiples(4_096, backward)));
    grouped(text, &sheets, |sheet| {
        let sheet = as_fields(sheet);
        (expand_interactions(&sheet), rust_interactions(&sheet))
    });
}

/// Products of so many sums in the order of their headers, and from the last to the first.
fn sums(sums: u32) -> [Sheet; 2] {
    [false, true].map(|backward| products_of_sums(16, sums, backward))
}

fn grouped(text: &str, sheets: &[[Sheet; 2]], both: impl Fn(&Sheet) -> (Ready, Timed)) {
    println!("\n{text} a header of its own: milliseconds, and over the Rust\n");
    print!("{:>12}{:>12}", "products", "headers");
    println!(
        "{:>16}{:>8}{:>18}{:>8}",
        "in order", "ratio", "from the last", "ratio"
    );
    let mut longest = Duration::ZERO;
    for orders in sheets {
        if longest > TOO_LONG {
            break;
        }
        let products = orders[0].constraints.len();
        print!("{products:>12}{:>12}", products * HEADERS);
        for (sheet, width) in orders.iter().zip([16, 18]) {
            let (ready, mut of_rust) = both(sheet);
            let (time, rust) = (timed_rattle(ready)(1), of_rust(1));
            longest = longest.max(time);
            let [time, rust] = [time, rust].map(|time| 1e3 * time.as_secs_f64());
            print!("{time:>width$.1}{:>8.2}", time / rust);
        }
        println!();
    }
}
