//! "What each call hands back."

/// "A refusal is a number and a place."
#[derive(Clone, Copy, Debug, PartialEq, Eq)]
pub struct Refusal {
    pub number: u32,
    pub place: u32,
}

pub type Answer<T> = Result<T, Refusal>;

/// A refusal where an answer is due.
pub fn refuse<T>(number: u32, place: usize) -> Answer<T> {
    Err(Refusal {
        number,
        place: place as u32,
    })
}

/// 14 and 15: what was lent must be as long as needed; "Place: words needed".
pub fn needs(number: u32, needed: usize, lent: usize) -> Answer<()> {
    if lent < needed {
        return refuse(number, needed);
    }
    Ok(())
}

/// "Acceptance is number 0 with the count of words (or bytes) written to each slice", and for some calls further numbers.
#[derive(Clone, Debug, PartialEq, Eq)]
pub struct Reply {
    pub number: u32,
    pub place: u32,
    pub counts: Vec<u32>,
    pub numbers: Vec<u32>,
}

/// The reply and every slice lent for writing: scratch first, then the outputs. Only the block writer's slice is bytes.
#[derive(Clone, Debug, PartialEq, Eq)]
pub struct Outcome<T = u32> {
    pub reply: Reply,
    pub slices: Vec<Vec<T>>,
}

/// What an accepted call writes to its outputs, and the further numbers.
pub struct Accepted<T = u32> {
    pub outputs: Vec<Vec<T>>,
    pub numbers: Vec<u32>,
}

/// An acceptance without further numbers, and one without outputs.
pub fn writes<T>(output: Vec<T>) -> Accepted<T> {
    Accepted {
        outputs: vec![output],
        numbers: vec![],
    }
}

pub fn says(numbers: Vec<u32>) -> Accepted {
    Accepted {
        outputs: vec![],
        numbers,
    }
}

/// "Past the written part, each slice lent for writing holds zeros; scratch ends all zero. A refusal is a number and a place,
/// and every slice lent for writing, of any length, then holds only zeros."
pub fn outcome<T: Clone + Default>(
    scratch: &[usize],
    outputs: &[usize],
    answer: Answer<Accepted<T>>,
) -> Outcome<T> {
    let zeros = |length: &usize| vec![T::default(); *length];
    let mut slices: Vec<Vec<T>> = scratch.iter().chain(outputs).map(zeros).collect();
    let reply = match answer {
        Err(Refusal { number, place }) => Reply {
            number,
            place,
            counts: vec![],
            numbers: vec![],
        },
        Ok(accepted) => {
            for (slice, written) in slices[scratch.len()..].iter_mut().zip(&accepted.outputs) {
                slice[..written.len()].clone_from_slice(written);
            }
            Reply {
                number: 0,
                place: 0,
                counts: accepted.outputs.iter().map(|w| w.len() as u32).collect(),
                numbers: accepted.numbers,
            }
        }
    };
    Outcome { reply, slices }
}

impl<T> Outcome<T> {
    /// The written part of output `k` of an accepted call; scratch is what is lent beyond the outputs.
    pub fn written(&self, k: usize) -> &[T] {
        let scratch = self.slices.len() - self.reply.counts.len();
        &self.slices[scratch + k][..self.reply.counts[k] as usize]
    }

    /// The refusal, unless the call was accepted.
    pub fn refusal(&self) -> Option<Refusal> {
        let Reply { number, place, .. } = self.reply;
        (number != 0).then_some(Refusal { number, place })
    }
}
