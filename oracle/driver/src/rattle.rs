//! The rewrite, called through the crate `suhkelva`: its answers and what it wrote, as outcomes.

use std::hint::black_box;
use std::sync::LazyLock;

use plain::calls::{Family, WORK};
use plain::{Outcome, Record, Reply, Sheet};
use suhkelva::{Answer, Lengths, Lists, PackedVar, Refusal};

use crate::implementation::Implementation;
use crate::needs::needs;

/// An answer as an outcome, with the slices lent for writing as they are after the call: counts of what was written, and further
/// numbers.
fn outcome<A, T>(
    answer: Answer<A>,
    counts: impl FnOnce(&A) -> Vec<usize>,
    numbers: impl FnOnce(&A) -> Vec<usize>,
    slices: Vec<Vec<T>>,
) -> Outcome<T> {
    let words = |fields: Vec<usize>| fields.into_iter().map(word).collect();
    let reply = match answer {
        Ok(answer) => Reply {
            number: 0,
            place: 0,
            counts: words(counts(&answer)),
            numbers: words(numbers(&answer)),
        },
        Err(Refusal { number, place }) => Reply {
            number,
            place: word(place as usize),
            counts: vec![],
            numbers: vec![],
        },
    };
    Outcome { reply, slices }
}

fn word(n: usize) -> u32 {
    u32::try_from(n).expect("a reply of words")
}

/// The outcome of a call that is lent nothing for writing.
fn says<A>(answer: Answer<A>, numbers: impl FnOnce(&A) -> Vec<usize>) -> Outcome {
    outcome(answer, |_| vec![], numbers, vec![])
}

/// Elements beyond what is lent, which must stay as they are.
const GUARD: usize = 8;

/// What is lent for writing, filled with noise before the call, again and again: none of it may be left, and what stands behind must
/// be.
struct Lent<T: 'static> {
    elements: Vec<T>,
    lent: usize,
    noise: &'static [T],
}

impl<T: PartialEq + Copy> Lent<T> {
    fn new(lent: usize, noise: &'static [T]) -> Self {
        let length = lent + GUARD;
        let mut elements = Vec::with_capacity(length);
        while elements.len() < length {
            let more = noise.len().min(length - elements.len());
            elements.extend_from_slice(&noise[..more]);
        }
        Lent {
            elements,
            lent,
            noise,
        }
    }

    fn slice(&mut self) -> &mut [T] {
        &mut self.elements[..self.lent]
    }

    fn after(mut self) -> Vec<T> {
        let behind = self.elements.split_off(self.lent);
        let mut behind = behind.into_iter().enumerate();
        let untouched = behind.all(|(k, x)| x == self.noise[(self.lent + k) % self.noise.len()]);
        assert!(untouched, "the library wrote past what it was lent");
        self.elements
    }
}

/// Words and bytes that are not zero, some of the words small as record numbers and counts are. Their number is a prime, so that what is
/// moved by a round number of words is not the same again.
const NOISE: u32 = 65_521;

fn words() -> &'static [u32] {
    static WORDS: LazyLock<Vec<u32>> = LazyLock::new(|| {
        let words = (1..=NOISE).map(|k| k.wrapping_mul(0x9e37_79b9));
        let noise = words.map(|word| match word >> 30 {
            0 => word % 4_096 + 1,
            1 => word % 15 + 1,
            _ => word,
        });
        noise.collect()
    });
    &WORDS
}

fn bytes() -> &'static [u8] {
    static BYTES: LazyLock<Vec<u8>> =
        LazyLock::new(|| words().iter().map(|&word| word as u8 | 1).collect());
    &BYTES
}

/// The outcome of a call that is lent one slice for writing and says how much it wrote there.
fn writing<T: PartialEq + Copy>(
    lent: usize,
    noise: &'static [T],
    call: impl FnOnce(&mut [T]) -> Answer<usize>,
) -> Outcome<T> {
    let mut out = Lent::new(lent, noise);
    let answer = call(out.slice());
    outcome(answer, |&count| vec![count], |_| vec![], vec![out.after()])
}

fn lists(lent: &mut [Lent<u32>]) -> Lists<'_> {
    let [headers, variables, terms] = lent else {
        unreachable!("three slices a family");
    };
    Lists {
        headers: headers.slice(),
        variables: variables.slice(),
        terms: terms.slice(),
    }
}

fn counts(lengths: &Lengths) -> Vec<usize> {
    vec![lengths.headers, lengths.variables, lengths.terms]
}

/// A sheet and what one call on it is lent, made ready once and called again and again: for measuring.
pub struct Ready {
    words: Vec<u32>,
    scratch: Vec<Vec<u32>>,
    outputs: Vec<Vec<u32>>,
}

impl Ready {
    fn new(sheet: &Sheet, scratch: &[usize], outputs: &[usize]) -> Self {
        let lent = |lengths: &[usize]| lengths.iter().map(|&n| vec![1; n]).collect();
        Ready {
            words: sheet.encode(),
            scratch: lent(scratch),
            outputs: lent(outputs),
        }
    }

    /// The builder, lent just what it needs.
    pub fn build(sheet: &Sheet) -> Self {
        Ready::new(sheet, &[sheet.records.len()], &[sheet.length()])
    }

    /// The expansion of a family, lent just what it needs; the sheet must be one that is accepted.
    pub fn expand(family: Family, sheet: &Sheet) -> Self {
        let needs = needs(family, sheet);
        let outputs = needs.outputs.expect("a sheet that is accepted");
        Ready::new(sheet, &[WORK, needs.pool], &outputs)
    }

    /// The call; whether it was accepted.
    pub fn call(&mut self) -> bool {
        let words = black_box(&self.words[..]);
        let accepted = match (&mut self.scratch[..], &mut self.outputs[..]) {
            ([scratch], [out]) => suhkelva::build(words, scratch, out).is_ok(),
            ([work, pool], [headers, variables, terms]) => {
                let lists = Lists {
                    headers,
                    variables,
                    terms,
                };
                suhkelva::expand_constraints(words, work, pool, lists).is_ok()
            }
            ([work, pool], [headers, variables, terms, h, v, t]) => {
                let numerators = Lists {
                    headers,
                    variables,
                    terms,
                };
                let denominators = Lists {
                    headers: h,
                    variables: v,
                    terms: t,
                };
                suhkelva::expand_interactions(words, work, pool, numerators, denominators).is_ok()
            }
            _ => unreachable!("made by one of the above"),
        };
        black_box(accepted)
    }
}

/// The rewrite in Rattle.
pub struct Rattle;

impl Implementation for Rattle {
    fn name(&self) -> &str {
        "the rewrite"
    }

    fn block_check(&self, bytes: &[u8], number: u32) -> Outcome {
        says(suhkelva::block_check(bytes, number), |&good| {
            vec![usize::from(good)]
        })
    }

    fn pack(&self, record: &Record) -> Outcome {
        says(suhkelva::pack(*record), |packed| vec![packed.0 as usize])
    }

    fn unpack(&self, number: u32) -> Outcome {
        says(suhkelva::unpack(PackedVar(number)), |record| {
            record.map(|word| word as usize).to_vec()
        })
    }

    fn check(&self, words: &[u32]) -> Outcome {
        says(suhkelva::check_sheet(words), |s| {
            vec![s.records, s.constraints, s.interactions, s.words, s.start]
        })
    }

    fn max_rotation(&self, words: &[u32]) -> Outcome {
        says(suhkelva::max_rotation(words), |&n| vec![n as usize])
    }

    fn num_constraints(&self, words: &[u32]) -> Outcome {
        says(suhkelva::num_constraints(words), |&n| vec![n as usize])
    }

    fn conversion(&self, sheet: &[u32], out: usize) -> Outcome {
        writing(out, words(), |out| suhkelva::convert(sheet, out))
    }

    fn reader(&self, blocks: &[u8], out: usize) -> Outcome {
        writing(out, words(), |out| suhkelva::read_blocks(blocks, out))
    }

    fn writer(&self, sheet: &[u32], out: usize) -> Outcome<u8> {
        writing(out, bytes(), |out| suhkelva::write_blocks(sheet, out))
    }

    fn builder(&self, sheet: &[u32], scratch: usize, out: usize) -> Outcome {
        let mut scratch = Lent::new(scratch, words());
        let mut out = Lent::new(out, words());
        let answer = suhkelva::build(sheet, scratch.slice(), out.slice());
        let slices = vec![scratch.after(), out.after()];
        outcome(answer, |&count| vec![count], |_| vec![], slices)
    }

    fn expand_constraints(
        &self,
        sheet: &[u32],
        work: usize,
        pool: usize,
        lent: [usize; 3],
    ) -> Outcome {
        let [mut work, mut pool] = [work, pool].map(|n| Lent::new(n, words()));
        let mut lent = lent.map(|n| Lent::new(n, words()));
        let (of_work, of_pool) = (work.slice(), pool.slice());
        let answer = suhkelva::expand_constraints(sheet, of_work, of_pool, lists(&mut lent));
        let slices = [work, pool].into_iter().chain(lent).map(Lent::after);
        outcome(answer, counts, |_| vec![], slices.collect())
    }

    fn expand_interactions(
        &self,
        sheet: &[u32],
        work: usize,
        pool: usize,
        lent: [usize; 6],
    ) -> Outcome {
        let [mut work, mut pool] = [work, pool].map(|n| Lent::new(n, words()));
        let mut lent = lent.map(|n| Lent::new(n, words()));
        let (numerators, denominators) = lent.split_at_mut(3);
        let answer = suhkelva::expand_interactions(
            sheet,
            work.slice(),
            pool.slice(),
            lists(numerators),
            lists(denominators),
        );
        let slices = [work, pool].into_iter().chain(lent).map(Lent::after);
        outcome(
            answer,
            |a| [counts(&a.numerators), counts(&a.denominators)].concat(),
            |a| vec![a.num_interactions, a.max_fields_len],
            slices.collect(),
        )
    }
}
