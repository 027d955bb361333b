//! "Blocks are 512 bytes: 127 words, least byte first, then one check word", which is "the sum modulo 2^32 of each of the 127
//! words times an odd weight (1 for the first, 3 for the second, up to 253), plus the block's number from 1" (02, R-8).

use crate::reply::{refuse, Answer};

pub const BLOCK_BYTES: usize = 512;
pub const BLOCK_WORDS: usize = 127;
pub const MOST_BYTES: usize = 363_520;

/// The words that bytes spell, least byte first.
fn words_of(bytes: &[u8]) -> Vec<u32> {
    let word = |b: &[u8]| u32::from_le_bytes([b[0], b[1], b[2], b[3]]);
    bytes.chunks_exact(4).map(word).collect()
}

fn check_word(words: &[u32], number: u32) -> u32 {
    let weights = (1..=253).step_by(2);
    let weighted = words
        .iter()
        .zip(weights)
        .map(|(&word, weight)| u64::from(word) * weight);
    ((weighted.sum::<u64>() + u64::from(number)) % (1 << 32)) as u32
}

/// Whether a block's check word is right; the number is counted from 1, and "any word is taken".
pub fn block_good(block: &[u8], number: u32) -> bool {
    let words = words_of(block);
    words[BLOCK_WORDS] == check_word(&words[..BLOCK_WORDS], number)
}

/// "1: byte length 0, not a multiple of 512, or above 363,520 (710 blocks). Place 0."
pub fn check_length(bytes: usize) -> Answer<()> {
    if bytes == 0 || !bytes.is_multiple_of(BLOCK_BYTES) || bytes > MOST_BYTES {
        return refuse(1, 0);
    }
    Ok(())
}

/// "The words of all blocks, joined"; "2: a block's check differs. Place: block number from 0, first such."
pub fn read_blocks(bytes: &[u8]) -> Answer<Vec<u32>> {
    let mut words = vec![];
    for (k, block) in bytes.chunks_exact(BLOCK_BYTES).enumerate() {
        if !block_good(block, k as u32 + 1) {
            return refuse(2, k);
        }
        words.extend(&words_of(block)[..BLOCK_WORDS]);
    }
    Ok(words)
}

/// "The writer writes those L words and zero fill."
pub fn write_blocks(words: &[u32]) -> Vec<u8> {
    let mut bytes = vec![];
    for (k, chunk) in words.chunks(BLOCK_WORDS).enumerate() {
        let mut block = chunk.to_vec();
        block.resize(BLOCK_WORDS, 0);
        block.push(check_word(&block, k as u32 + 1));
        bytes.extend(block.iter().flat_map(|w| w.to_le_bytes()));
    }
    bytes
}

/// How many bytes so many words take in blocks.
pub fn bytes_for(words: usize) -> usize {
    BLOCK_BYTES * words.div_ceil(BLOCK_WORDS)
}
