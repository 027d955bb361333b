//! The calls that need no sheet, packing, unpacking and the block check: their edges, random inputs, and the comparison with
//! the plain Rust and, where it has an answer, with the Rust.

use plain::block::{BLOCK_BYTES, BLOCK_WORDS};
use plain::sheet::{IS_FIRST_ROW, IS_TRANSITION, MAIN, PREPROCESSED, PUBLIC, VARIABLE};
use plain::{Outcome, Record};

use crate::compare::{compare_packing, Case, KNOWN, PACKING};
use crate::implementation::{Implementation, Plain};
use crate::rng::Rng;
use crate::sheets::wild_variable;

/// Packing, by what is due: a number, 5 at each place, 8 to 11.
const PACK: [&str; 10] = [
    "pack, against plain: a number",
    "pack, against plain: 5, the kind",
    "pack, against plain: 5, word a",
    "pack, against plain: 5, word b",
    "pack, against plain: 5, word c",
    "pack, against plain: 5, word d",
    "pack, against plain: 8",
    "pack, against plain: 9",
    "pack, against plain: 10",
    "pack, against plain: 11",
];

const UNPACK: [&str; 3] = [
    "unpack, against plain: five words",
    "unpack, against plain: 5",
    "unpacked words, packed again",
];

/// Blocks by how they were made. There is nothing in the Rust to compare them with.
const GOOD: &str = "block check, against plain and as made: good";
const CHANGED: &str = "block check, .. : one word changed";
const RENUMBERED: &str = "block check, .. : under another number";
const EXCHANGED: &str = "block check, .. : two neighbours exchanged, so not good";
const HALF_APART: &str = "block check, .. : two neighbours 2^31 apart exchanged, so good";
const PLAIN_SUM: &str = "block check, .. : the sum without weights, another, so not good";
const PLAIN_SUM_SAME: &str = "block check, .. : the sum without weights, the same, so good";
const ANY_EXCHANGED: &str = "block check, against plain: any two words exchanged";
const ANY_BYTES: &str = "block check, against plain: any bytes";
const ANY_LENGTH: &str = "block check, .. : another length, 1";

/// All kinds, in the order of the table. Of the known differences, those that packing shows.
pub fn kinds() -> Vec<&'static str> {
    let against_rust = [&[PACKING], &KNOWN[..5]].concat();
    let blocks = [
        GOOD,
        CHANGED,
        RENUMBERED,
        EXCHANGED,
        HALF_APART,
        PLAIN_SUM,
        PLAIN_SUM_SAME,
        ANY_EXCHANGED,
        ANY_BYTES,
        ANY_LENGTH,
    ];
    [&PACK[..], &against_rust, &UNPACK, &blocks].concat()
}

fn case(kind: &'static str, under_test: &dyn Implementation, ours: Outcome, due: Outcome) -> Case {
    let difference = (ours != due).then(|| {
        let name = under_test.name();
        format!("{name} {:?}, not {:?}", ours.reply, due.reply)
    });
    Case {
        kind,
        difference,
        size: 1,
    }
}

/// Packing of any five words, and unpacking of the number; against the Rust too where the words are a variable or row mark.
pub fn compare_record(under_test: &dyn Implementation, record: &Record) -> Vec<Case> {
    let due = Plain.pack(record);
    let (kind, leaf) = match due.refusal() {
        None => (PACK[0], true),
        Some(refusal) if refusal.number == 5 => (PACK[1 + refusal.place as usize], false),
        Some(refusal) => (PACK[refusal.number as usize - 2], true),
    };
    let mut cases = vec![case(kind, under_test, under_test.pack(record), due)];
    if leaf {
        cases.extend(compare_packing(under_test, record));
    }
    cases
}

/// Unpacking of any number. Where there are words, both the rewrite and the Rust pack them to the number again.
pub fn compare_number(under_test: &dyn Implementation, number: u32) -> Vec<Case> {
    let ours = under_test.unpack(number);
    let due = Plain.unpack(number);
    let words = ours.reply.numbers.clone();
    let kind = UNPACK[usize::from(due.refusal().is_some())];
    let mut cases = vec![case(kind, under_test, ours, due)];
    if let Ok(record) = Record::try_from(words) {
        let again = under_test.pack(&record).reply;
        let same = again.number == 0 && again.numbers == [number];
        cases.push(Case {
            kind: UNPACK[2],
            difference: (!same).then(|| format!("{record:?} packs to {again:?}")),
            size: 1,
        });
        cases.extend(compare_packing(under_test, &record));
    }
    cases
}

/// Bytes and a number for the block check, and what is due by how they were made, if that is known.
pub struct Block {
    kind: &'static str,
    pub bytes: Vec<u8>,
    pub number: u32,
    due: Option<Vec<u32>>,
}

pub fn compare_block(under_test: &dyn Implementation, block: &Block) -> Case {
    let ours = under_test.block_check(&block.bytes, block.number);
    let due = Plain.block_check(&block.bytes, block.number);
    let mut case = case(block.kind, under_test, ours.clone(), due);
    if let Some(made) = &block.due {
        if ours.reply.numbers != *made {
            case.difference = Some(format!("made to give {made:?}, not {:?}", ours.reply));
        }
    }
    case
}

/// Words around every bound of packing, every combination: kinds 0 to 10 and large ones, entries, parts, offsets and columns.
pub fn edge_records() -> Vec<Record> {
    let most = u32::MAX;
    let kinds = [0, 1, 2, 3, 4, 5, 6, 7, 8, 9, 10, 11, 255, 257, 65_537, most];
    let entries = [0, 1, 2, 3, 4, 5, 257, most];
    let parts = [0, 1, 15, 16, 254, 255, 256, 257, 65_536, most];
    let offsets = [
        0, 1, 14, 15, 16, 17, 255, 256, 257, 271, 272, 511, 512, 65_536, most,
    ];
    let columns = [0, 1, 65_534, 65_535, 65_536, 65_537, 131_072, most];
    let mut records = vec![];
    for kind in kinds {
        for a in entries {
            for b in parts {
                for c in offsets {
                    records.extend(columns.map(|d| [kind, a, b, c, d]));
                }
            }
        }
    }
    records
}

/// Every type, part and offset, in the first, another and the last column.
pub fn edge_numbers() -> Vec<u32> {
    let columns: [u32; 3] = [0, 0x1234, 65_535];
    let numbers = |column| (0..65_536u32).map(move |low| column << 16 | low);
    columns.into_iter().flat_map(numbers).collect()
}

/// Five words: a variable that packing may refuse, one that it takes, one of these with one word changed, or any.
pub fn random_record(rng: &mut Rng) -> Record {
    match rng.below(5) {
        0 | 1 => wild_variable(rng),
        2 => packable(rng),
        3 => {
            let mut record = packable(rng);
            record[rng.below(5)] = any_word(rng);
            record
        }
        _ => [0; 5].map(|_| any_word(rng)),
    }
}

fn any_word(rng: &mut Rng) -> u32 {
    let small = rng.below(12) as u32;
    let around = rng.pick(&[15, 16, 255, 256, 271, 272, 65_535, 65_536, u32::MAX]);
    let any = rng.word();
    rng.pick(&[small, small, around, any])
}

fn packable(rng: &mut Rng) -> Record {
    let below = |rng: &mut Rng, n: usize| rng.below(n) as u32;
    if rng.percent(10) {
        let kind = rng.between(IS_FIRST_ROW as usize, IS_TRANSITION as usize);
        return [kind as u32, 0, 0, 0, 0];
    }
    let entry = rng.pick(&[PREPROCESSED, MAIN, MAIN, PUBLIC]);
    let part = if entry == MAIN { below(rng, 256) } else { 0 };
    let offset = if entry == PUBLIC { 0 } else { below(rng, 16) };
    [VARIABLE, entry, part, offset, below(rng, 65_536)]
}

/// A number that is handed out, one that differs from such a one in one bit, or any.
pub fn random_number(rng: &mut Rng) -> u32 {
    let record = packable(rng);
    let packed = plain::packing::packed(&record).expect("words within the bounds");
    let bit = 1 << rng.below(32);
    let any = rng.word();
    rng.pick(&[packed.0, packed.0 ^ bit, any])
}

/// A good block and what may become of it, under all kinds of numbers.
pub fn random_blocks(rng: &mut Rng) -> Vec<Block> {
    let any = rng.word();
    let number = rng.pick(&[0, 1, 2, 709, 710, 711, 1 << 31, u32::MAX - 1, u32::MAX, any]);
    let small = rng.percent(25);
    let word = |rng: &mut Rng| if small { rng.word() % 4 } else { rng.word() };
    let data: Vec<u32> = (0..BLOCK_WORDS).map(|_| word(rng)).collect();
    let with_sum = |words: &[u32], weight: fn(u32) -> u32| -> Vec<u32> {
        let step = |sum: u32, (i, w): (u32, &u32)| sum.wrapping_add(w.wrapping_mul(weight(i)));
        let sum = (0..).zip(words).fold(number, step);
        [words, &[sum]].concat()
    };
    let weighted = |words: &[u32]| with_sum(words, |i| 2 * i + 1);
    let plain_sum = |words: &[u32]| with_sum(words, |_| 1);
    let words = weighted(&data);
    let block = |kind, words: &[u32], number, good| Block {
        kind,
        bytes: words.iter().flat_map(|w| w.to_le_bytes()).collect(),
        number,
        due: Some(vec![good]),
    };

    let mut changed = words.clone();
    let bit = 1 << rng.below(32);
    let other = rng.word().max(1);
    changed[rng.below(BLOCK_WORDS + 1)] ^= rng.pick(&[bit, other]);
    let mut any_exchanged = words.clone();
    any_exchanged.swap(rng.below(BLOCK_WORDS), rng.below(BLOCK_WORDS));
    let at = rng.below(BLOCK_WORDS - 1);
    let neighbours = |apart: u32| -> Vec<u32> {
        let mut data = data.clone();
        data[at + 1] = data[at] ^ apart;
        let mut words = weighted(&data);
        words.swap(at, at + 1);
        words
    };
    // a word that differs, and not by 2^31
    let (any, bit) = (rng.word(), 1 << rng.below(31));
    let other = rng.pick(&[data[at] ^ data[at + 1], any, bit]);
    let other = if other << 1 == 0 { 1 } else { other };
    // the second word, twice, makes up for all others
    let mut same = data.clone();
    let rest = (2..)
        .zip(&data[2..])
        .fold(0u32, |sum, (i, w)| sum.wrapping_add(w.wrapping_mul(i)));
    same[1] = rest.wrapping_neg() ^ (rng.below(2) as u32) << 31;
    let bit = 1 << rng.below(32);
    let further = rng.pick(&[1, u32::MAX, bit, bit]);

    let mut any = block(ANY_BYTES, &words, number, 0);
    any.bytes = (0..BLOCK_BYTES).map(|_| rng.draw() as u8).collect();
    any.due = None;
    let mut any_exchanged = block(ANY_EXCHANGED, &any_exchanged, number, 0);
    any_exchanged.due = None;
    let mut cut = block(ANY_LENGTH, &words, number, 0);
    let length = rng.pick(&[0, 1, 508, 511, 513, 516, 1_023, 1_024, 1_025]);
    cut.bytes.resize(length, 0);
    cut.due = Some(vec![]);
    vec![
        block(GOOD, &words, number, 1),
        block(CHANGED, &changed, number, 0),
        block(RENUMBERED, &words, number.wrapping_add(further), 0),
        block(EXCHANGED, &neighbours(other), number, 0),
        block(HALF_APART, &neighbours(1 << 31), number, 1),
        match plain_sum(&data) == words {
            true => block(PLAIN_SUM_SAME, &words, number, 1),
            false => block(PLAIN_SUM, &plain_sum(&data), number, 0),
        },
        block(PLAIN_SUM_SAME, &plain_sum(&same), number, 1),
        any_exchanged,
        any,
        cut,
    ]
}
