//! Entries and variables: cases for the program `variables`, and what it answers against the Rust. The form of both stands in
//! oracle/README.md.

use std::io::{Read, Write};
use std::process::{Command, Stdio};
use std::thread;

use openvm_cuda_backend::monomial::PackedVar;
use openvm_stark_backend::air_builders::symbolic::symbolic_variable::{Entry, SymbolicVariable};
use p3_field::BabyBear;

use crate::compare::{panic_of, KNOWN};
use crate::rng::Rng;
use crate::rust::{caught, Caught};
use crate::table::{Part, Table};

type Variable = SymbolicVariable<BabyBear>;

/// The calls; the program knows each by its place here, counted from 1.
const CALLS: [&str; 11] = [
    "Entry::offset",
    "Entry::rotate",
    "Entry::next",
    "SymbolicVariable::new",
    "SymbolicVariable::degree_multiple",
    "SymbolicVariable::rotate",
    "SymbolicVariable::next",
    "PackedVar::from_symbolic_var",
    "PackedVar::is_first",
    "PackedVar::is_last",
    "PackedVar::is_transition",
];

/// Where the Rust's sum of two offsets has no room. Built without checks, as here, it takes the sum modulo 2^64.
const TOO_FAR: &str = "11, a rotated offset above 2^64 − 1: the Rust's sum wraps";

/// So many differences are shown.
const SHOWN: u64 = 10;

/// All kinds, in the order of the table. Of the known differences, those that packing shows.
pub fn kinds() -> Vec<&'static str> {
    [&CALLS[..7], &[TOO_FAR], &CALLS[7..], &KNOWN[..5]].concat()
}

/// A call, the entry (0 preprocessed, 1 main, 2 challenge, 3 public), part, offset, column, and by how much it is rotated.
#[derive(Clone, Copy, Debug)]
pub struct Case {
    call: usize,
    words: [usize; 3],
    column: usize,
    by: usize,
}

/// What is due for a case, and what the Rust does that was not foretold.
struct Due {
    kind: &'static str,
    line: String,
    unforetold: Option<String>,
}

fn entry([entry, part_index, offset]: [usize; 3]) -> Entry {
    match entry {
        0 => Entry::Preprocessed { offset },
        1 => Entry::Main { part_index, offset },
        2 => Entry::Challenge,
        3 => Entry::Public,
        _ => unreachable!("four kinds of entry"),
    }
}

fn entry_line(entry: Entry) -> String {
    let [a, b, c] = match entry {
        Entry::Preprocessed { offset } => [0, 0, offset],
        Entry::Main { part_index, offset } => [1, part_index, offset],
        Entry::Challenge => [2, 0, 0],
        Entry::Public => [3, 0, 0],
    };
    format!("{a} {b} {c}")
}

fn variable_line(variable: Variable) -> String {
    format!("{} {}", entry_line(variable.entry), variable.index)
}

impl Case {
    fn variable(&self) -> Variable {
        Variable::new(entry(self.words), self.column)
    }

    fn numbers(&self) -> String {
        let [a, b, c] = self.words;
        format!("{} {a} {b} {c} {} {}\n", self.call, self.column, self.by)
    }

    fn due(&self) -> Due {
        let (entry, variable) = (entry(self.words), self.variable());
        let with = |entry| variable_line(Variable::new(entry, self.column));
        let one = |packed: PackedVar| packed.0.to_string();
        let line = match self.call {
            1 => match entry.offset() {
                Some(offset) => offset.to_string(),
                None => "none".to_string(),
            },
            2 => return self.rotated(self.by, || entry_line(entry.rotate(self.by)), entry_line),
            3 => return self.rotated(1, || entry_line(entry.next()), entry_line),
            4 => variable_line(variable),
            5 => variable.degree_multiple().to_string(),
            6 => {
                let rotated = || variable_line(variable.rotate(self.by));
                return self.rotated(self.by, rotated, with);
            }
            7 => return self.rotated(1, || variable_line(variable.next()), with),
            8 => return self.packed(),
            9 => one(PackedVar::is_first()),
            10 => one(PackedVar::is_last()),
            11 => one(PackedVar::is_transition()),
            _ => unreachable!("eleven calls"),
        };
        self.as_rust(Ok(line))
    }

    /// The Rust's answer is due.
    fn as_rust(&self, rust: Caught<String>) -> Due {
        Due {
            kind: CALLS[self.call - 1],
            line: rust.unwrap_or_else(|panic| format!("a panic: {panic}")),
            unforetold: None,
        }
    }

    /// A refusal is due, and the Rust does what is foretold.
    fn refused(
        kind: &'static str,
        number: u32,
        foretold: Caught<String>,
        rust: Caught<String>,
    ) -> Due {
        let unforetold = (foretold != rust).then(|| format!("the Rust {rust:?}, not {foretold:?}"));
        Due {
            kind,
            line: format!("refused {number} 0"),
            unforetold,
        }
    }

    /// The rotated entry or variable, as the Rust has it, and as it is with a given entry.
    fn rotated(
        &self,
        by: usize,
        rust: impl FnOnce() -> String,
        with: impl Fn(Entry) -> String,
    ) -> Due {
        let rust = caught(rust);
        let [a, part, offset] = self.words;
        if a > 1 || offset.checked_add(by).is_some() {
            return self.as_rust(rust);
        }
        let foretold = match cfg!(debug_assertions) {
            true => Err("attempt to add with overflow".to_string()),
            false => Ok(with(entry([a, part, offset.wrapping_add(by)]))),
        };
        Case::refused(TOO_FAR, 11, foretold, rust)
    }

    fn packed(&self) -> Due {
        let [a, part, offset] = self.words;
        let rust = caught(|| PackedVar::from_symbolic_var(&self.variable()).0.to_string());
        let (part, offset) = match a {
            0 => (0, offset),
            1 => (part, offset),
            _ => (0, 0),
        };
        let (known, number) = match self.column {
            65_536.. => (KNOWN[0], 8),
            _ if a == 2 => (KNOWN[1], 9),
            _ if part > 255 => (KNOWN[2], 10),
            _ if offset % 256 > 15 => (KNOWN[3], 11),
            _ if offset > 15 => (KNOWN[4], 11),
            _ => return self.as_rust(rust),
        };
        let panics = match number {
            8 | 9 => Some(number),
            _ => (offset % 256 > 15).then_some(11),
        };
        let foretold = match panics {
            Some(number) => Err(panic_of(number).to_string()),
            None => Ok(
                (a + 16 * (part % 256) + 4096 * (offset % 256) + 65_536 * self.column).to_string(),
            ),
        };
        Case::refused(known, number, foretold, rust)
    }
}

/// Numbers around every bound.
const AROUND: [usize; 10] = [
    0,
    1,
    15,
    16,
    255,
    256,
    (1 << 32) - 1,
    1 << 32,
    usize::MAX - 1,
    usize::MAX,
];

/// Columns around every bound.
const COLUMNS: [usize; 6] = [0, 1, 65_535, 65_536, 1 << 32, usize::MAX];

/// Every kind of entry with every part and offset around the bounds, through every call, rotated by each of the same numbers.
pub fn edges() -> Vec<Case> {
    let preprocessed = AROUND.map(|offset| [0, 0, offset]);
    let main = AROUND.map(|part| AROUND.map(|offset| [1, part, offset]));
    let entries = [&preprocessed[..], &main.concat(), &[[2, 0, 0], [3, 0, 0]]].concat();
    let mut cases = vec![];
    for (k, words) in entries.into_iter().enumerate() {
        let mut add = |call, column, by| {
            cases.push(Case {
                call,
                words,
                column,
                by,
            })
        };
        let column = COLUMNS[k % COLUMNS.len()];
        [1, 3, 4, 5, 7]
            .into_iter()
            .for_each(|call| add(call, column, 0));
        AROUND.into_iter().for_each(|by| add(2, column, by));
        AROUND.into_iter().for_each(|by| add(6, column, by));
        COLUMNS.into_iter().for_each(|column| add(8, column, 0));
    }
    let mark = |call| Case {
        call,
        words: [3, 0, 0],
        column: 0,
        by: 0,
    };
    cases.extend([9, 10, 11].map(mark));
    cases
}

fn any_number(rng: &mut Rng) -> usize {
    let small = rng.below(20);
    let around = rng.pick(&AROUND);
    let sized = (rng.draw() >> rng.below(64)) as usize;
    let any = rng.draw() as usize;
    rng.pick(&[small, around, sized, any, usize::MAX - small])
}

/// Any call that takes an entry, of any one; what it is rotated by is often near what the offset leaves of 2^64.
fn random(rng: &mut Rng) -> Case {
    let kind = rng.pick(&[0, 1, 1, 1, 2, 3]);
    let small = [rng.below(256), rng.below(16), rng.below(65_536)];
    let any = [0; 3].map(|_| any_number(rng));
    let [part, offset, column] = [0, 1, 2].map(|k| if rng.percent(50) { small[k] } else { any[k] });
    let words = match kind {
        0 => [0, 0, offset],
        1 => [1, part, offset],
        _ => [kind, 0, 0],
    };
    let left = usize::MAX - words[2];
    let by = any_number(rng);
    let near = left
        .saturating_sub(rng.below(2))
        .saturating_add(rng.below(3));
    Case {
        call: rng.between(1, 8),
        words,
        column,
        by: rng.pick(&[by, by, near]),
    }
}

pub fn cases(count: u64, seed: u64) -> Vec<Case> {
    let mut rng = Rng::new(seed);
    (0..count).map(|_| random(&mut rng)).collect()
}

/// What the program reads: how many cases, then each.
pub fn input(cases: &[Case]) -> String {
    let numbers: String = cases.iter().map(Case::numbers).collect();
    format!("{}\n{numbers}", cases.len())
}

/// What it has to write: a line for each.
pub fn answers(cases: &[Case]) -> String {
    cases.iter().map(|case| case.due().line + "\n").collect()
}

/// What the program at a path answers, line by line, against what is due.
pub fn compare(program: &str, cases: &[Case]) -> Part {
    let written = run(program, input(cases));
    let mut lines = written.lines();
    let mut table = Table::default();
    for case in cases {
        let due = case.due();
        let line = lines.next().unwrap_or("nothing");
        let difference = match due.unforetold {
            None if line == due.line => None,
            None => Some(format!("{line}, not {}", due.line)),
            Some(unforetold) => Some(unforetold),
        };
        if let Some(difference) = &difference {
            if table.differences() < SHOWN {
                println!("{}, {case:?}: {difference}", due.kind);
            }
        }
        table.add(due.kind, difference.is_some(), 1);
    }
    assert_eq!(lines.next(), None, "a line for each case and no more");
    Part {
        title: "entries and variables, against the Rust",
        kinds: kinds(),
        table,
    }
}

fn run(program: &str, input: String) -> String {
    let mut child = Command::new(program)
        .stdin(Stdio::piped())
        .stdout(Stdio::piped())
        .spawn()
        .expect("the program variables");
    let mut stdin = child.stdin.take().expect("its input");
    let writer = thread::spawn(move || stdin.write_all(input.as_bytes()));
    let mut written = String::new();
    let mut stdout = child.stdout.take().expect("its output");
    stdout.read_to_string(&mut written).expect("text");
    writer.join().expect("no panic").expect("all input read");
    child.wait().expect("its end");
    written
}
