//! XTS with ciphertext stealing, from IEEE 1619, over any [`BlockCipher`].
//!
//! A key has 64 bytes: the half for data, then the half for tweaks. The number of
//! a unit, 64 bits, becomes a block of 16 little-endian bytes.
//!
//! A unit of m whole blocks and b more bytes keeps its length when enciphered.
//! Block j is masked, before and after the cipher, with tweak j: the enciphered
//! number of the unit, doubled j times. If b is not zero, the last whole block
//! and the b bytes after it go through stealing, with the tweaks m - 1 and m.
//!
//! Two rules of this project are stricter than the standard: a unit has 16 to
//! 4,096 bytes, and a key whose two halves are equal is refused.

use std::iter;
use std::ops::RangeInclusive;

use crate::{Block, BlockCipher, BlockKey, Refusal, BLOCK_LENGTH};

/// How many bytes a unit may have.
pub const UNIT_LENGTHS: RangeInclusive<usize> = 16..=4096;

/// The number of the unit that [`check`] enciphers: the last, 2^64 - 1.
const CHECK_NUMBER: u64 = u64::MAX;

/// Which of the two tweaks of stealing is for the first pass of the cipher.
///
/// This is all that enciphering and deciphering differ in, apart from the
/// direction of the block cipher: what was done last has to be undone first.
#[derive(Clone, Copy)]
enum StealingOrder {
    /// Tweak m - 1, then tweak m: for enciphering.
    EarlierTweakFirst,
    /// Tweak m, then tweak m - 1: for deciphering.
    LaterTweakFirst,
}

/// Enciphers a unit under a key of 64 bytes.
///
/// Refuses with [`Refusal::WrongLength`] a key or an input of a wrong length;
/// then, with [`Refusal::UnfitKey`], a key whose halves are equal.
pub fn encipher<C: BlockCipher>(key: &[u8], number: u64, input: &[u8]) -> Result<Vec<u8>, Refusal> {
    let (data_key, tweak_key) = accepted_halves(key, input)?;
    let cipher = C::new(data_key);
    Ok(transform(
        input,
        tweaks::<C>(tweak_key, number),
        StealingOrder::EarlierTweakFirst,
        |block| cipher.encrypt(block),
    ))
}

/// Deciphers a unit: the inverse of [`encipher`], with the same refusals.
pub fn decipher<C: BlockCipher>(key: &[u8], number: u64, input: &[u8]) -> Result<Vec<u8>, Refusal> {
    let (data_key, tweak_key) = accepted_halves(key, input)?;
    let cipher = C::new(data_key);
    Ok(transform(
        input,
        tweaks::<C>(tweak_key, number),
        StealingOrder::LaterTweakFirst,
        |block| cipher.decrypt(block),
    ))
}

/// The check value of a key: sixteen zero bytes enciphered as unit 2^64 - 1.
///
/// Refuses the keys that [`encipher`] refuses.
pub fn check<C: BlockCipher>(key: &[u8]) -> Result<Block, Refusal> {
    let enciphered = encipher::<C>(key, CHECK_NUMBER, &[0; BLOCK_LENGTH])?;
    Ok(to_block(&enciphered))
}

/// The data half and the tweak half of a key, if the key and the input may be
/// used at all. Lengths are judged before halves, for a key of a wrong length
/// has no halves to compare.
fn accepted_halves<'a>(
    key: &'a [u8],
    input: &[u8],
) -> Result<(&'a BlockKey, &'a BlockKey), Refusal> {
    let (data_half, tweak_half) = halves(key).ok_or(Refusal::WrongLength)?;
    if !UNIT_LENGTHS.contains(&input.len()) {
        return Err(Refusal::WrongLength);
    }
    if data_half == tweak_half {
        return Err(Refusal::UnfitKey);
    }
    Ok((data_half, tweak_half))
}

/// The data half and the tweak half of a key of 64 bytes; nothing for a key of
/// any other length.
fn halves(key: &[u8]) -> Option<(&BlockKey, &BlockKey)> {
    let (data_half, rest) = key.split_first_chunk()?;
    Some((data_half, rest.try_into().ok()?))
}

/// The tweaks of a unit: tweak 0, tweak 1 and so on, without end.
fn tweaks<C: BlockCipher>(tweak_key: &BlockKey, number: u64) -> impl Iterator<Item = Block> {
    let mut first = u128::from(number).to_le_bytes();
    C::new(tweak_key).encrypt(&mut first);
    iter::successors(Some(first), |&tweak| Some(doubled(tweak)))
}

/// The next tweak: multiplied by x in the field of 2^128 elements, modulo
/// x^128 + x^7 + x^2 + x + 1. Byte 0 holds the lowest powers.
fn doubled(tweak: Block) -> Block {
    let powers = u128::from_le_bytes(tweak);
    let carried = powers >> 127;
    ((powers << 1) ^ (carried * 0x87)).to_le_bytes()
}

/// Takes a whole unit through one direction of the cipher.
fn transform(
    input: &[u8],
    mut tweaks: impl Iterator<Item = Block>,
    order: StealingOrder,
    cipher: impl Fn(&mut Block),
) -> Vec<u8> {
    let mut next_tweak = || tweaks.next().expect("tweaks have no end");
    let (ordinary, ending) = split_before_stealing(input);
    let mut output = Vec::with_capacity(input.len());
    for block in ordinary.chunks_exact(BLOCK_LENGTH) {
        output.extend(masked(to_block(block), next_tweak(), &cipher));
    }
    if !ending.is_empty() {
        let (earlier, later) = (next_tweak(), next_tweak());
        let (first, second) = match order {
            StealingOrder::EarlierTweakFirst => (earlier, later),
            StealingOrder::LaterTweakFirst => (later, earlier),
        };
        output.extend(stolen(ending, first, second, &cipher));
    }
    output
}

/// Splits a unit into the blocks that go through the cipher as they are, and the
/// ending that needs stealing: the last whole block with the bytes after it, or
/// nothing if there are no bytes after it.
fn split_before_stealing(input: &[u8]) -> (&[u8], &[u8]) {
    let whole_blocks = input.len() / BLOCK_LENGTH;
    let ordinary_blocks = if input.len().is_multiple_of(BLOCK_LENGTH) {
        whole_blocks
    } else {
        whole_blocks - 1
    };
    input.split_at(ordinary_blocks * BLOCK_LENGTH)
}

/// Takes one block through the cipher, with the tweak added before and after.
fn masked(block: Block, tweak: Block, cipher: impl Fn(&mut Block)) -> Block {
    let mut passing = add_blocks(block, tweak);
    cipher(&mut passing);
    add_blocks(passing, tweak)
}

/// Takes the ending of a unit, one block and b bytes, through the cipher.
///
/// The block passes first. Its first b bytes become the b bytes at the end of
/// the result; the b bytes of the input take their place, and what that makes
/// passes second.
fn stolen(
    ending: &[u8],
    first_tweak: Block,
    second_tweak: Block,
    cipher: impl Fn(&mut Block),
) -> Vec<u8> {
    let (block, part) = ending.split_at(BLOCK_LENGTH);
    let passed = masked(to_block(block), first_tweak, &cipher);
    let mut filled = passed;
    filled[..part.len()].copy_from_slice(part);
    let mut output = masked(filled, second_tweak, &cipher).to_vec();
    output.extend_from_slice(&passed[..part.len()]);
    output
}

/// Adds two blocks bit by bit.
fn add_blocks(left: Block, right: Block) -> Block {
    std::array::from_fn(|i| left[i] ^ right[i])
}

/// Sixteen bytes as a block. Only for slices cut to that length.
fn to_block(bytes: &[u8]) -> Block {
    bytes.try_into().expect("the slice has sixteen bytes")
}

#[cfg(test)]
mod tests {
    use super::*;

    #[test]
    fn doubling_carries_from_byte_to_byte() {
        let mut tweak = [0; BLOCK_LENGTH];
        tweak[0] = 0x80;
        let mut expected = [0; BLOCK_LENGTH];
        expected[1] = 0x01;
        assert_eq!(doubled(tweak), expected);
    }

    #[test]
    fn doubling_reduces_what_leaves_the_last_byte() {
        let mut tweak = [0; BLOCK_LENGTH];
        tweak[15] = 0x80;
        let mut expected = [0; BLOCK_LENGTH];
        expected[0] = 0x87;
        assert_eq!(doubled(tweak), expected);
    }

    #[test]
    fn only_a_part_of_a_block_needs_stealing() {
        let ending_length = |length: usize| split_before_stealing(&vec![0; length]).1.len();
        assert_eq!(ending_length(16), 0);
        assert_eq!(ending_length(17), 17);
        assert_eq!(ending_length(31), 31);
        assert_eq!(ending_length(32), 0);
        assert_eq!(ending_length(33), 17);
        assert_eq!(ending_length(4095), 31);
        assert_eq!(ending_length(4096), 0);
    }
}
