//! AES with a key of 256 bits, as FIPS 197 words it.
//!
//! Functions carry the names of the standard (`SUBBYTES()` is `sub_bytes`, and so
//! on), so that each can be held beside its section. Work is done byte by byte.
//! No table is typed in: the S-box is computed from its definition, so a slip of
//! the pen in one of 256 entries cannot happen.

use crate::{Block, BlockCipher, BlockKey, BLOCK_LENGTH};

/// Nk: the number of words in the key.
const KEY_WORDS: usize = 8;

/// Nr: the number of rounds.
const ROUNDS: usize = 14;

/// The number of words in the key schedule: four for each round, and four to
/// begin with.
const SCHEDULE_WORDS: usize = 4 * (ROUNDS + 1);

/// The S-box, computed when the crate is compiled.
static SBOX: [u8; 256] = sbox();

/// The inverse of the S-box.
static INV_SBOX: [u8; 256] = inv_sbox();

/// Four bytes of the key schedule.
type Word = [u8; 4];

/// An expanded AES-256 key.
pub struct Aes256 {
    schedule: [Word; SCHEDULE_WORDS],
}

impl BlockCipher for Aes256 {
    fn new(key: &BlockKey) -> Self {
        Aes256 {
            schedule: key_expansion(key),
        }
    }

    /// `CIPHER()` of FIPS 197.
    fn encrypt(&self, state: &mut Block) {
        self.add_round_key(state, 0);
        for round in 1..ROUNDS {
            sub_bytes(state);
            shift_rows(state);
            mix_columns(state);
            self.add_round_key(state, round);
        }
        sub_bytes(state);
        shift_rows(state);
        self.add_round_key(state, ROUNDS);
    }

    /// `INVCIPHER()` of FIPS 197.
    fn decrypt(&self, state: &mut Block) {
        self.add_round_key(state, ROUNDS);
        for round in (1..ROUNDS).rev() {
            inv_shift_rows(state);
            inv_sub_bytes(state);
            self.add_round_key(state, round);
            inv_mix_columns(state);
        }
        inv_shift_rows(state);
        inv_sub_bytes(state);
        self.add_round_key(state, 0);
    }
}

impl Aes256 {
    /// `ADDROUNDKEY()`: column c of the state takes word 4 * round + c.
    fn add_round_key(&self, state: &mut Block, round: usize) {
        for column in 0..4 {
            for row in 0..4 {
                state[at(row, column)] ^= self.schedule[4 * round + column][row];
            }
        }
    }
}

/// Where the state keeps the byte of a row and a column: the bytes of a block
/// fill the state column by column.
fn at(row: usize, column: usize) -> usize {
    row + 4 * column
}

/// `XTIMES()`: multiplies by x in the field of 256 elements, modulo
/// x^8 + x^4 + x^3 + x + 1.
const fn xtimes(byte: u8) -> u8 {
    let doubled = byte << 1;
    if byte & 0x80 == 0 {
        doubled
    } else {
        doubled ^ 0x1b
    }
}

/// Multiplies in the field: the sum of the multiples of `left` by those powers
/// of x that `right` has.
const fn multiply(left: u8, right: u8) -> u8 {
    let mut product = 0;
    let mut multiple = left;
    let mut powers = right;
    while powers != 0 {
        if powers & 1 == 1 {
            product ^= multiple;
        }
        multiple = xtimes(multiple);
        powers >>= 1;
    }
    product
}

/// The inverse in the field, with zero for zero: the power 254, since every
/// element but zero has the power 255 equal to one. As 254 is the sum of 2, 4, 8
/// and so on up to 128, it is a product of repeated squares.
const fn inverse(byte: u8) -> u8 {
    let mut square = byte;
    let mut product = 1;
    let mut squarings = 0;
    while squarings < 7 {
        square = multiply(square, square);
        product = multiply(product, square);
        squarings += 1;
    }
    product
}

/// The affine map of the S-box. Bit i of the result is the sum of bits i, i + 4,
/// i + 5, i + 6 and i + 7 (modulo 8) and of bit i of the constant; to take bit
/// i + 8 - n for every i at once is to rotate left by n.
const fn affine(byte: u8) -> u8 {
    byte ^ byte.rotate_left(4)
        ^ byte.rotate_left(3)
        ^ byte.rotate_left(2)
        ^ byte.rotate_left(1)
        ^ 0x63
}

/// `SBOX()`: the affine map after the inverse, for every byte.
const fn sbox() -> [u8; 256] {
    let mut table = [0; 256];
    let mut byte = 0;
    while byte < 256 {
        table[byte] = affine(inverse(byte as u8));
        byte += 1;
    }
    table
}

/// `INVSBOX()`: the S-box with input and output exchanged.
const fn inv_sbox() -> [u8; 256] {
    let forward = sbox();
    let mut table = [0; 256];
    let mut byte = 0;
    while byte < 256 {
        table[forward[byte] as usize] = byte as u8;
        byte += 1;
    }
    table
}

/// `SUBBYTES()`
fn sub_bytes(state: &mut Block) {
    for byte in state {
        *byte = SBOX[usize::from(*byte)];
    }
}

/// `INVSUBBYTES()`
fn inv_sub_bytes(state: &mut Block) {
    for byte in state {
        *byte = INV_SBOX[usize::from(*byte)];
    }
}

/// `SHIFTROWS()`: row r moves r places to the left, in a circle.
fn shift_rows(state: &mut Block) {
    let before = *state;
    for row in 0..4 {
        for column in 0..4 {
            state[at(row, column)] = before[at(row, (column + row) % 4)];
        }
    }
}

/// `INVSHIFTROWS()`: row r moves r places to the right, in a circle.
fn inv_shift_rows(state: &mut Block) {
    let before = *state;
    for row in 0..4 {
        for column in 0..4 {
            state[at(row, (column + row) % 4)] = before[at(row, column)];
        }
    }
}

/// `MIXCOLUMNS()`
fn mix_columns(state: &mut Block) {
    multiply_columns(state, [0x02, 0x03, 0x01, 0x01]);
}

/// `INVMIXCOLUMNS()`
fn inv_mix_columns(state: &mut Block) {
    multiply_columns(state, [0x0e, 0x0b, 0x0d, 0x09]);
}

/// Multiplies every column by the matrix that has `first_row` on top and whose
/// every next row is the one above it, moved one place to the right in a circle.
fn multiply_columns(state: &mut Block, first_row: [u8; 4]) {
    let before = *state;
    for column in 0..4 {
        for row in 0..4 {
            state[at(row, column)] = (0..4)
                .map(|k| multiply(before[at(k, column)], first_row[(k + 4 - row) % 4]))
                .fold(0, |sum, term| sum ^ term);
        }
    }
}

/// `ROTWORD()`
fn rot_word([a0, a1, a2, a3]: Word) -> Word {
    [a1, a2, a3, a0]
}

/// `SUBWORD()`
fn sub_word(word: Word) -> Word {
    word.map(|byte| SBOX[usize::from(byte)])
}

/// Adds two words bit by bit.
fn add_words(left: Word, right: Word) -> Word {
    std::array::from_fn(|i| left[i] ^ right[i])
}

/// `KEYEXPANSION()` for a key of eight words.
fn key_expansion(key: &BlockKey) -> [Word; SCHEDULE_WORDS] {
    let mut schedule = [[0; 4]; SCHEDULE_WORDS];
    for (word, bytes) in schedule.iter_mut().zip(key.chunks_exact(4)) {
        word.copy_from_slice(bytes);
    }
    // The round constant j is the power j - 1 of x.
    let mut round_constant = 1;
    for i in KEY_WORDS..SCHEDULE_WORDS {
        let mut word = schedule[i - 1];
        if i % KEY_WORDS == 0 {
            word = add_words(sub_word(rot_word(word)), [round_constant, 0, 0, 0]);
            round_constant = xtimes(round_constant);
        } else if i % KEY_WORDS == 4 {
            word = sub_word(word);
        }
        schedule[i] = add_words(schedule[i - KEY_WORDS], word);
    }
    schedule
}

// The state is four columns of four bytes; a block has to fill it exactly.
const _: () = assert!(BLOCK_LENGTH == 4 * 4);

#[cfg(test)]
mod tests {
    use super::*;

    /// The examples of FIPS 197, section 4.
    #[test]
    fn multiplication_follows_the_examples() {
        assert_eq!(multiply(0x57, 0x83), 0xc1);
        assert_eq!(multiply(0x57, 0x13), 0xfe);
        assert_eq!(multiply(0x83, 0x57), 0xc1);
    }

    #[test]
    fn every_byte_but_zero_has_an_inverse() {
        assert_eq!(inverse(0), 0);
        for byte in 1..=255 {
            assert_eq!(multiply(byte, inverse(byte)), 1);
        }
    }

    /// The example of FIPS 197, section 5.1.1, and the two ends of the table.
    #[test]
    fn sbox_follows_the_examples() {
        assert_eq!(SBOX[0x53], 0xed);
        assert_eq!(SBOX[0x00], 0x63);
        assert_eq!(SBOX[0xff], 0x16);
    }

    #[test]
    fn inverse_sbox_undoes_the_sbox() {
        for byte in 0..=255u8 {
            assert_eq!(INV_SBOX[usize::from(SBOX[usize::from(byte)])], byte);
            assert_eq!(SBOX[usize::from(INV_SBOX[usize::from(byte)])], byte);
        }
    }

    /// FIPS 197, appendix A.3: the first computed word and the last.
    #[test]
    fn key_expansion_follows_the_example() {
        let key = [
            0x60, 0x3d, 0xeb, 0x10, 0x15, 0xca, 0x71, 0xbe, 0x2b, 0x73, 0xae, 0xf0, 0x85, 0x7d,
            0x77, 0x81, 0x1f, 0x35, 0x2c, 0x07, 0x3b, 0x61, 0x08, 0xd7, 0x2d, 0x98, 0x10, 0xa3,
            0x09, 0x14, 0xdf, 0xf4,
        ];
        let schedule = key_expansion(&key);
        assert_eq!(schedule[8], [0x9b, 0xa3, 0x54, 0x11]);
        assert_eq!(schedule[59], [0x70, 0x6c, 0x63, 0x1e]);
    }
}
