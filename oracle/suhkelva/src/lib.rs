//! The C library of include/suhkelva.h in Rust: every call as a safe function from what it reads and what it is lent for writing to
//! its answer or its refusal. The header says what each call does, what it needs and when it refuses.

#![deny(unsafe_code)]

#[allow(unsafe_code)]
mod ffi;
pub mod refusal;

pub use refusal::Refusal;

/// Bytes of a block, and the words of a sheet in it.
pub const BLOCK_BYTES: usize = 512;
pub const BLOCK_WORDS: usize = 127;

/// Words of `work` that an expansion needs; words of a header, of a constraint's term and of an interaction's term.
pub const WORK_WORDS: usize = 4_096;
pub const HEADER_WORDS: usize = 4;
pub const TERM_WORDS: usize = 2;
pub const INTERACTION_TERM_WORDS: usize = 3;

/// An accepted call's answer, or why it was refused.
pub type Answer<T> = Result<T, Refusal>;

/// A packed variable or row mark.
#[derive(Clone, Copy, Debug, PartialEq, Eq, PartialOrd, Ord, Hash)]
pub struct PackedVar(pub u32);

/// What the check says of a sheet: its counts, its words without spare ones, and where the first interaction starts.
#[derive(Clone, Copy, Debug, PartialEq, Eq)]
pub struct Sheet {
    pub records: usize,
    pub constraints: usize,
    pub interactions: usize,
    pub words: usize,
    pub start: usize,
}

/// What is lent for three lists of words.
pub struct Lists<'a> {
    pub headers: &'a mut [u32],
    pub variables: &'a mut [u32],
    pub terms: &'a mut [u32],
}

/// How many words were written to each.
#[derive(Clone, Copy, Debug, PartialEq, Eq)]
pub struct Lengths {
    pub headers: usize,
    pub variables: usize,
    pub terms: usize,
}

/// What the interaction call answers.
#[derive(Clone, Copy, Debug, PartialEq, Eq)]
pub struct Interactions {
    pub numerators: Lengths,
    pub denominators: Lengths,
    pub num_interactions: usize,
    pub max_fields_len: usize,
}

/// The answer, where the call was accepted. The header promises place 0 beside an answer and zeros in the further fields of a
/// refusal; this panics where a library breaks that.
fn answer<T>(number: u32, place: u64, further: &[u64], accepted: T) -> Answer<T> {
    if number != 0 {
        let clean = further.iter().all(|&field| field == 0);
        assert!(clean, "{number}, {place}: a refusal with {further:?}");
        return Err(Refusal { number, place });
    }
    assert_eq!(place, 0, "an answer with a place");
    Ok(accepted)
}

/// A length or count, which is no more than what was lent or read.
fn size(field: u64) -> usize {
    field as usize
}

pub fn pack(record: [u32; 5]) -> Answer<PackedVar> {
    let r = ffi::pack(record);
    let further = [r.packed.into()];
    answer(r.number, r.place.into(), &further, PackedVar(r.packed))
}

pub fn unpack(packed: PackedVar) -> Answer<[u32; 5]> {
    let r = ffi::unpack(packed.0);
    let record = [r.kind, r.a, r.b, r.c, r.d];
    answer(
        r.number,
        r.place.into(),
        &record.map(|word| word.into()),
        record,
    )
}

/// Whether a block ends with its check word.
pub fn block_check(bytes: &[u8], number: u32) -> Answer<bool> {
    let r = ffi::block_check(bytes, number);
    assert!(r.good <= 1, "yes or no: {}", r.good);
    answer(r.number, r.place.into(), &[r.good.into()], r.good == 1)
}

pub fn check_sheet(s: &[u32]) -> Answer<Sheet> {
    let r = ffi::check_sheet(s);
    let further = [r.records, r.constraints, r.interactions, r.words, r.start];
    let [records, constraints, interactions, words, start] = further.map(size);
    let sheet = Sheet {
        records,
        constraints,
        interactions,
        words,
        start,
    };
    answer(r.number, r.place, &further, sheet)
}

pub fn max_rotation(s: &[u32]) -> Answer<u64> {
    value(ffi::max_rotation(s))
}

pub fn num_constraints(s: &[u32]) -> Answer<u64> {
    value(ffi::num_constraints(s))
}

fn value(r: ffi::Number) -> Answer<u64> {
    answer(r.number, r.place, &[r.value], r.value)
}

/// How many words were written.
pub fn convert(s: &[u32], out: &mut [u32]) -> Answer<usize> {
    count(ffi::convert(s, out))
}

/// How many words were written.
pub fn read_blocks(bytes: &[u8], out: &mut [u32]) -> Answer<usize> {
    count(ffi::read_blocks(bytes, out))
}

/// How many bytes were written.
pub fn write_blocks(s: &[u32], out: &mut [u8]) -> Answer<usize> {
    count(ffi::write_blocks(s, out))
}

/// How many words the graph has.
pub fn build(s: &[u32], scratch: &mut [u32], out: &mut [u32]) -> Answer<usize> {
    count(ffi::build(s, scratch, out))
}

fn count(r: ffi::Written) -> Answer<usize> {
    answer(r.number, r.place, &[r.count], size(r.count))
}

pub fn expand_constraints(
    s: &[u32],
    work: &mut [u32],
    pool: &mut [u32],
    lists: Lists,
) -> Answer<Lengths> {
    let r = ffi::expand_constraints(s, work, pool, lists);
    let further = [r.headers, r.variables, r.terms];
    answer(r.number, r.place, &further, lengths(further))
}

pub fn expand_interactions(
    s: &[u32],
    work: &mut [u32],
    pool: &mut [u32],
    numerators: Lists,
    denominators: Lists,
) -> Answer<Interactions> {
    let r = ffi::expand_interactions(s, work, pool, numerators, denominators);
    let numerators = [r.headers, r.variables, r.terms];
    let denominators = [r.denom_headers, r.denom_variables, r.denom_terms];
    let numbers = [r.num_interactions, r.max_fields_len];
    let further = [&numerators[..], &denominators, &numbers].concat();
    let interactions = Interactions {
        numerators: lengths(numerators),
        denominators: lengths(denominators),
        num_interactions: size(r.num_interactions),
        max_fields_len: size(r.max_fields_len),
    };
    answer(r.number, r.place, &further, interactions)
}

fn lengths(fields: [u64; 3]) -> Lengths {
    let [headers, variables, terms] = fields.map(size);
    Lengths {
        headers,
        variables,
        terms,
    }
}
