//! Speck with blocks of 128 bits and a key of 256 bits, from the Speck paper of
//! 2013.
//!
//! The paper works with words and leaves open how bytes become words. The rule of
//! this project: in a block, y is the first eight bytes and x the last eight; the
//! key is k(0), l(0), l(1), l(2) in this order; every word is little-endian.

use crate::{Block, BlockCipher, BlockKey, BLOCK_LENGTH};

/// T: the number of rounds for this size of block and key.
const ROUNDS: usize = 34;

/// The number of words l(i) that the key gives directly.
const GIVEN_L_WORDS: usize = 3;

/// The rotation to the right in a round, for words of 64 bits.
const ALPHA: u32 = 8;

/// The rotation to the left in a round, for words of 64 bits.
const BETA: u32 = 3;

/// The number of bytes in a word.
const WORD_LENGTH: usize = 8;

/// An expanded Speck128/256 key: one word for each round.
pub struct Speck {
    round_keys: [u64; ROUNDS],
}

/// A block as the two words that the paper names.
struct Words {
    x: u64,
    y: u64,
}

impl BlockCipher for Speck {
    fn new(key: &BlockKey) -> Self {
        Speck {
            round_keys: key_schedule(key),
        }
    }

    fn encrypt(&self, block: &mut Block) {
        let mut words = Words::from_block(block);
        for &round_key in &self.round_keys {
            words.round(round_key);
        }
        *block = words.to_block();
    }

    fn decrypt(&self, block: &mut Block) {
        let mut words = Words::from_block(block);
        for &round_key in self.round_keys.iter().rev() {
            words.inverse_round(round_key);
        }
        *block = words.to_block();
    }
}

impl Words {
    fn from_block(block: &Block) -> Self {
        Words {
            y: word(block, 0),
            x: word(block, 1),
        }
    }

    fn to_block(&self) -> Block {
        let mut block = [0; BLOCK_LENGTH];
        block[..WORD_LENGTH].copy_from_slice(&self.y.to_le_bytes());
        block[WORD_LENGTH..].copy_from_slice(&self.x.to_le_bytes());
        block
    }

    fn round(&mut self, round_key: u64) {
        self.x = self.x.rotate_right(ALPHA).wrapping_add(self.y) ^ round_key;
        self.y = self.y.rotate_left(BETA) ^ self.x;
    }

    /// Undoes [`Words::round`], its last step first.
    fn inverse_round(&mut self, round_key: u64) {
        self.y = (self.y ^ self.x).rotate_right(BETA);
        self.x = (self.x ^ round_key).wrapping_sub(self.y).rotate_left(ALPHA);
    }
}

/// The word at an index, counted in words, of some bytes.
fn word(bytes: &[u8], index: usize) -> u64 {
    let mut taken = [0; WORD_LENGTH];
    taken.copy_from_slice(&bytes[WORD_LENGTH * index..][..WORD_LENGTH]);
    u64::from_le_bytes(taken)
}

/// The round keys k(0) to k(33).
///
/// All words l(i) are kept, rather than the last three in a circle, so that the
/// indices are those of the paper.
fn key_schedule(key: &BlockKey) -> [u64; ROUNDS] {
    let mut k = [0; ROUNDS];
    let mut l = [0; ROUNDS - 1 + GIVEN_L_WORDS];
    k[0] = word(key, 0);
    for (i, given) in l.iter_mut().take(GIVEN_L_WORDS).enumerate() {
        *given = word(key, i + 1);
    }
    for i in 0..ROUNDS - 1 {
        l[i + 3] = k[i].wrapping_add(l[i].rotate_right(ALPHA)) ^ i as u64;
        k[i + 1] = k[i].rotate_left(BETA) ^ l[i + 3];
    }
    k
}

#[cfg(test)]
mod tests {
    use super::*;

    #[test]
    fn a_block_is_y_then_x_in_little_endian() {
        let block: Block = std::array::from_fn(|i| i as u8);
        let words = Words::from_block(&block);
        assert_eq!(words.y, 0x0706_0504_0302_0100);
        assert_eq!(words.x, 0x0f0e_0d0c_0b0a_0908);
        assert_eq!(words.to_block(), block);
    }

    #[test]
    fn an_inverse_round_undoes_a_round() {
        let mut words = Words { x: u64::MAX, y: 1 };
        words.round(0x0123_4567_89ab_cdef);
        words.inverse_round(0x0123_4567_89ab_cdef);
        assert_eq!((words.x, words.y), (u64::MAX, 1));
    }
}
