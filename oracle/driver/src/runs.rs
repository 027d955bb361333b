//! Sheets through a comparison, and the smallest sheet found that shows a difference.

use std::sync::atomic::{AtomicU64, Ordering};
use std::thread;
use std::time::Duration;

use plain::Sheet;

use crate::compare::Case;
use crate::implementation::Implementation;
use crate::rng::Rng;
use crate::sheets;
use crate::shrink::shrink;
use crate::table::Table;

/// A chain of 4,096 records recurses as deep, in the Rust's walks and where its tree is dropped.
pub const STACK: usize = 1 << 30;

/// So many differences are shown in full; of more only the number is kept.
const SHOWN: u64 = 3;

/// How long a smaller sheet is looked for that shows a difference.
const SHRINKING: Duration = Duration::from_secs(2);

/// Seeds are handed out in pieces of so many.
const PIECE: u64 = 64;

/// Every seed from `first` on, one after another on each processor: what each of them made of its seeds.
pub fn over_seeds<T: Send>(
    seeds: u64,
    first: u64,
    start: impl Fn() -> T + Sync,
    step: impl Fn(&mut T, u64) + Sync,
) -> Vec<T> {
    let next = AtomicU64::new(0);
    let work = || {
        let mut made = start();
        loop {
            let from = next.fetch_add(PIECE, Ordering::Relaxed);
            if from >= seeds {
                return made;
            }
            for k in from..seeds.min(from + PIECE) {
                step(&mut made, first.wrapping_add(k));
            }
        }
    };
    let threads = thread::available_parallelism().map_or(1, |n| n.get());
    thread::scope(|scope| {
        let spawn = |_| {
            let thread = thread::Builder::new().stack_size(STACK);
            let thread = thread.spawn_scoped(scope, work);
            thread.expect("a thread with a large stack")
        };
        let threads: Vec<_> = (0..threads).map(spawn).collect();
        let threads = threads.into_iter();
        threads
            .map(|thread| thread.join().expect("no panic in the driver"))
            .collect()
    })
}

/// All cases of one sheet, behind which so many spare words are put.
pub type Compare = fn(&dyn Implementation, &Sheet, usize) -> Vec<Case>;

/// A comparison and what came of it: the shapes of the random sheets, and the cases.
pub struct Run<'a> {
    pub under_test: &'a dyn Implementation,
    compare: Compare,
    pub shapes: Table,
    pub table: Table,
}

impl<'a> Run<'a> {
    pub fn new(under_test: &'a dyn Implementation, compare: Compare) -> Self {
        Run {
            under_test,
            compare,
            shapes: Table::default(),
            table: Table::default(),
        }
    }

    /// Sheets with names, then the random sheet of each seed from `first` on; `further` goes on with its random numbers.
    pub fn over_sheets(
        under_test: &'a dyn Implementation,
        compare: Compare,
        named: &[(&str, Sheet)],
        (sheets, first): (u64, u64),
        further: impl Fn(&mut Self, u64, Rng) + Sync,
    ) -> Self {
        let mut run = Run::new(under_test, compare);
        for (name, sheet) in named {
            run.sheet(name, sheet, 0);
        }
        let start = || Run::new(under_test, compare);
        let step = |run: &mut Self, seed| {
            let rng = run.random_sheet(seed);
            further(run, seed, rng);
        };
        for part in over_seeds(sheets, first, start, step) {
            run.shapes.join(part.shapes);
            run.table.join(part.table);
        }
        run
    }

    /// The random sheet of a seed; the source of random numbers, for what is to go on with it.
    fn random_sheet(&mut self, seed: u64) -> Rng {
        let mut rng = Rng::new(seed);
        let (shape, sheet) = sheets::random_sheet(&mut rng);
        let spare = rng.pick(&[0, 0, 1, 126]);
        let differs = self.sheet(&format!("seed {seed}, {shape}"), &sheet, spare);
        self.shapes.add(shape, differs, sheet.records.len());
        rng
    }

    /// A sheet with a name; whether it differs.
    pub fn sheet(&mut self, name: &str, sheet: &Sheet, spare: usize) -> bool {
        let mut differs = false;
        for case in (self.compare)(self.under_test, sheet, spare) {
            if case.difference.is_some() && self.table.differences() < SHOWN {
                println!("\n{name}, {}:", case.kind);
                self.show(sheet, &case);
            }
            differs |= case.difference.is_some();
            self.table
                .add(case.kind, case.difference.is_some(), case.size);
        }
        differs
    }

    /// A difference, and the smallest sheet found that shows one of its kind.
    fn show(&self, sheet: &Sheet, case: &Case) {
        let difference = |sheet: &Sheet| {
            let cases = (self.compare)(self.under_test, sheet, 0).into_iter();
            let mut same_kind = cases.filter(|c| c.kind == case.kind);
            same_kind.find_map(|c| c.difference)
        };
        let small = shrink(sheet, SHRINKING, |sheet| difference(sheet).is_some());
        let shown = difference(&small).or(case.difference.clone());
        println!("  {}", shown.expect("a difference"));
        for (k, record) in small.records.iter().enumerate() {
            println!("  record {k}: {record:?}");
        }
        println!("  constraints {:?}", small.constraints);
        for x in &small.interactions {
            println!("  {x:?}");
        }
    }
}
