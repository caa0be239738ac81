//! AES-256, Speck128/256 and XTS, written plainly from the public documents.
//!
//! This crate exists to be compared with: it shares no code and no tables with
//! any other implementation, so where two results agree, they agree because
//! both follow the documents. It is therefore written to be read beside them,
//! and gives up speed for that. It also makes no attempt to take the same time
//! for every key, so it must not be used to keep secrets.
//!
//! The documents are FIPS 197 for AES ([`aes`]), the Speck paper of 2013 for
//! Speck ([`speck`]) and IEEE 1619 for XTS ([`xts`]). Where a document leaves a
//! choice, or a rule of this project is stricter than it, the module says so.

#![forbid(unsafe_code)]
#![warn(missing_docs)]

pub mod aes;
pub mod speck;
pub mod xts;

use std::error::Error;
use std::fmt;

use aes::Aes256;
use speck::Speck;

/// Sixteen bytes: the block of both ciphers, and the only one XTS works with.
pub type Block = [u8; 16];

/// The number of bytes in a [`Block`].
pub const BLOCK_LENGTH: usize = 16;

/// Thirty-two bytes: the key of both ciphers, and one half of an XTS key.
pub type BlockKey = [u8; 32];

/// A cipher of sixteen-byte blocks under a key of thirty-two bytes.
///
/// XTS is written over this trait so that one text of it serves both ciphers.
pub trait BlockCipher {
    /// Expands the key once, for use with many blocks.
    fn new(key: &BlockKey) -> Self;

    /// Replaces a block by its ciphertext.
    fn encrypt(&self, block: &mut Block);

    /// Replaces a block by its plaintext: the inverse of [`BlockCipher::encrypt`].
    fn decrypt(&self, block: &mut Block);
}

/// Why a call was refused. The numbers are those of the interface compared with.
#[derive(Clone, Copy, Debug, PartialEq, Eq)]
#[repr(u8)]
pub enum Refusal {
    /// A key, a block or a unit does not have a length that is allowed.
    WrongLength = 1,
    /// The key has the right length, but its two halves are equal.
    UnfitKey = 5,
}

impl fmt::Display for Refusal {
    fn fmt(&self, formatter: &mut fmt::Formatter<'_>) -> fmt::Result {
        formatter.write_str(match self {
            Refusal::WrongLength => "a key or an input has the wrong length",
            Refusal::UnfitKey => "the two halves of the key are equal",
        })
    }
}

impl Error for Refusal {}

/// The choice of a cipher at run time. The numbers are those of the interface
/// compared with.
#[derive(Clone, Copy, Debug, PartialEq, Eq)]
#[repr(u8)]
pub enum Cipher {
    /// AES with a key of 256 bits.
    Aes256 = 1,
    /// Speck with blocks of 128 bits and a key of 256 bits.
    Speck = 2,
}

impl Cipher {
    /// Both ciphers, for callers that go through all of them.
    pub const ALL: [Cipher; 2] = [Cipher::Aes256, Cipher::Speck];

    /// Enciphers one block, without XTS.
    pub fn encrypt_block(self, key: &[u8], block: &[u8]) -> Result<Block, Refusal> {
        match self {
            Cipher::Aes256 => on_block(key, block, Aes256::encrypt),
            Cipher::Speck => on_block(key, block, Speck::encrypt),
        }
    }

    /// Deciphers one block, without XTS.
    pub fn decrypt_block(self, key: &[u8], block: &[u8]) -> Result<Block, Refusal> {
        match self {
            Cipher::Aes256 => on_block(key, block, Aes256::decrypt),
            Cipher::Speck => on_block(key, block, Speck::decrypt),
        }
    }

    /// Enciphers a unit: [`xts::encipher`] with this cipher.
    pub fn encipher(self, key: &[u8], number: u64, input: &[u8]) -> Result<Vec<u8>, Refusal> {
        match self {
            Cipher::Aes256 => xts::encipher::<Aes256>(key, number, input),
            Cipher::Speck => xts::encipher::<Speck>(key, number, input),
        }
    }

    /// Deciphers a unit: [`xts::decipher`] with this cipher.
    pub fn decipher(self, key: &[u8], number: u64, input: &[u8]) -> Result<Vec<u8>, Refusal> {
        match self {
            Cipher::Aes256 => xts::decipher::<Aes256>(key, number, input),
            Cipher::Speck => xts::decipher::<Speck>(key, number, input),
        }
    }

    /// The check value of a key: [`xts::check`] with this cipher.
    pub fn check(self, key: &[u8]) -> Result<Block, Refusal> {
        match self {
            Cipher::Aes256 => xts::check::<Aes256>(key),
            Cipher::Speck => xts::check::<Speck>(key),
        }
    }
}

/// Applies one direction of a cipher to a copy of a block, once both lengths
/// are known to be right.
fn on_block<C: BlockCipher>(
    key: &[u8],
    block: &[u8],
    direction: fn(&C, &mut Block),
) -> Result<Block, Refusal> {
    let key: &BlockKey = key.try_into().map_err(|_| Refusal::WrongLength)?;
    let mut block: Block = block.try_into().map_err(|_| Refusal::WrongLength)?;
    direction(&C::new(key), &mut block);
    Ok(block)
}
