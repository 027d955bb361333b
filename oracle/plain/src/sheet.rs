//! "The sheet": records, constraints and interactions, as a structure and as words.

use crate::field::P;
use crate::reply::{refuse, Answer};

/// "records of five words: kind, a, b, c, d"
pub type Record = [u32; 5];

pub const VARIABLE: u32 = 1;
pub const IS_FIRST_ROW: u32 = 2;
pub const IS_LAST_ROW: u32 = 3;
pub const IS_TRANSITION: u32 = 4;
pub const CONSTANT: u32 = 5;
pub const ADD: u32 = 6;
pub const SUB: u32 = 7;
pub const NEG: u32 = 8;
pub const MUL: u32 = 9;

pub const PREPROCESSED: u32 = 0;
pub const MAIN: u32 = 1;
pub const CHALLENGE: u32 = 2;
pub const PUBLIC: u32 = 3;

/// "bus, count weight, count's record, message length, then that many records"
#[derive(Clone, Debug, Default, PartialEq, Eq)]
pub struct Interaction {
    pub bus: u32,
    pub weight: u32,
    pub count: u32,
    pub message: Vec<u32>,
}

#[derive(Clone, Debug, Default, PartialEq, Eq)]
pub struct Sheet {
    pub records: Vec<Record>,
    pub constraints: Vec<u32>,
    pub interactions: Vec<Interaction>,
}

/// The children's record numbers, left first.
pub fn children(record: &Record) -> &[u32] {
    match record[0] {
        ADD | SUB | MUL => &record[1..3],
        NEG => &record[1..2],
        _ => &[],
    }
}

/// How a kind uses one of its words a to d.
#[derive(Clone, Copy)]
enum Use {
    Unused,
    Entry,
    Part,
    Offset,
    Any,
    Constant,
    Child,
}

/// "a table of nine rows says which of a to d each kind uses"
const TABLE: [[Use; 4]; 9] = {
    use Use::*;
    [
        [Entry, Part, Offset, Any],
        [Unused, Unused, Unused, Unused],
        [Unused, Unused, Unused, Unused],
        [Unused, Unused, Unused, Unused],
        [Constant, Unused, Unused, Unused],
        [Child, Child, Any, Unused],
        [Child, Child, Any, Unused],
        [Child, Unused, Any, Unused],
        [Child, Child, Any, Unused],
    ]
};

/// Whether word `k` of a record may stand there, the words before it being right; `own` is the record's number.
pub fn word_fits(own: usize, record: &Record, k: usize) -> bool {
    let (kind, entry, word) = (record[0], record[1], record[k]);
    if k == 0 {
        return (1..=9).contains(&kind);
    }
    match TABLE[kind as usize - 1][k - 1] {
        Use::Unused => word == 0,
        Use::Entry => word <= 3,
        Use::Part => entry == MAIN || word == 0,
        Use::Offset => entry == MAIN || entry == PREPROCESSED || word == 0,
        Use::Any => true,
        Use::Constant => word < P,
        Use::Child => (word as usize) < own,
    }
}

/// Reads words from the front; "the first that fails decides".
struct Front<'a> {
    words: &'a [u32],
    at: usize,
}

impl Front<'_> {
    /// The next word. "4: a needed word is past the end. Place: the sheet's length."
    fn peek(&self) -> Answer<u32> {
        match self.words.get(self.at) {
            Some(&word) => Ok(word),
            None => refuse(4, self.words.len()),
        }
    }

    /// The next word, refused with `number` at its index unless it is right.
    fn next(&mut self, number: u32, right: impl Fn(u32) -> bool) -> Answer<u32> {
        let word = self.peek()?;
        if !right(word) {
            return refuse(number, self.at);
        }
        self.at += 1;
        Ok(word)
    }

    fn record(&mut self, own: usize) -> Answer<Record> {
        let mut record = [0; 5];
        for k in 0..5 {
            record[k] = self.peek()?;
            self.next(5, |_| word_fits(own, &record, k))?;
        }
        Ok(record)
    }

    fn interaction(&mut self, records: u32) -> Answer<Interaction> {
        let bus = self.next(6, |w| w <= 65_535)?;
        let weight = self.next(6, |_| true)?;
        let count = self.next(6, |w| w < records)?;
        let length = self.next(6, |w| w <= 63)?;
        let message = (0..length)
            .map(|_| self.next(6, |w| w < records))
            .collect::<Answer<_>>()?;
        Ok(Interaction {
            bus,
            weight,
            count,
            message,
        })
    }

    /// "7: a spare word isn't zero, or is the 127th spare word."
    fn spare(&mut self) -> Answer<()> {
        let first = self.at;
        while self.at < self.words.len() {
            let room = self.at - first < 126;
            self.next(7, |w| w == 0 && room)?;
        }
        Ok(())
    }
}

impl Sheet {
    /// The sheet's words, without spare ones.
    pub fn encode(&self) -> Vec<u32> {
        let counts = [
            self.records.len(),
            self.constraints.len(),
            self.interactions.len(),
        ];
        let mut words = vec![1];
        words.extend(counts.map(|n| n as u32));
        words.extend(self.records.iter().flatten());
        words.extend(&self.constraints);
        for x in &self.interactions {
            words.extend([x.bus, x.weight, x.count, x.message.len() as u32]);
            words.extend(&x.message);
        }
        words
    }

    /// The sheet check, 3 to 7: the sheet that the words are, or the first wrong word.
    pub fn decode(words: &[u32]) -> Answer<Sheet> {
        let mut front = Front { words, at: 0 };
        front.next(3, |form| form == 1)?;
        let records = front.next(3, |w| w <= 4_096)?;
        let constraints = front.next(3, |w| w <= 1_024)?;
        let interactions = front.next(3, |w| w <= 1_024)?;
        let sheet = Sheet {
            records: (0..records as usize)
                .map(|own| front.record(own))
                .collect::<Answer<_>>()?,
            constraints: (0..constraints)
                .map(|_| front.next(6, |w| w < records))
                .collect::<Answer<_>>()?,
            interactions: (0..interactions)
                .map(|_| front.interaction(records))
                .collect::<Answer<_>>()?,
        };
        front.spare()?;
        Ok(sheet)
    }

    /// "L is the sheet's length without spare words."
    pub fn length(&self) -> usize {
        self.interactions_start()
            + self
                .interactions
                .iter()
                .map(|x| 4 + x.message.len())
                .sum::<usize>()
    }

    /// The index of the first interaction's first word.
    pub fn interactions_start(&self) -> usize {
        4 + 5 * self.records.len() + self.constraints.len()
    }

    /// "`max_rotation` is the largest offset over all variable nodes, used or unused, 0 if none."
    pub fn max_rotation(&self) -> u32 {
        let variables = self.records.iter().filter(|r| r[0] == VARIABLE);
        variables.map(|r| r[3]).max().unwrap_or(0)
    }

    /// The largest message length, 0 if there is none.
    pub fn max_fields_len(&self) -> usize {
        let lengths = self.interactions.iter().map(|x| x.message.len());
        lengths.max().unwrap_or(0)
    }
}
